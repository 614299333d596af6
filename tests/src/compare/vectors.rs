//! The vectors: scripts in a folder, each beside the text that it has to give.

use std::fs;
use std::path::{Path, PathBuf};

use super::subject::Subject;
use super::{compare, words};
use crate::ledger::tally::Tally;
use crate::model::script;

/// The scripts of a folder, by name.
fn scripts_of(folder: &Path) -> std::io::Result<Vec<PathBuf>> {
    let mut scripts = Vec::new();
    for entry in fs::read_dir(folder)? {
        let path = entry?.path();
        if path.extension().is_some_and(|extension| extension == "bus") {
            scripts.push(path);
        }
    }
    scripts.sort();
    Ok(scripts)
}

fn one_vector(subject: &mut dyn Subject, path: &Path) -> std::io::Result<bool> {
    let script = fs::read(path)?;
    let wanted = fs::read(path.with_extension("out"))?;
    let (mut model, mut other) = (Vec::new(), Vec::new());
    script::run(&script, &mut model);
    subject.run_script(&script, &mut other);
    let by_records = compare(subject, &script, &mut Tally::default());
    let checks = [
        ("model", model == wanted),
        ("subject", other == wanted),
        ("record by record", by_records.is_ok()),
    ];
    let wrong: Vec<&str> = checks
        .iter()
        .filter(|check| !check.1)
        .map(|check| check.0)
        .collect();
    let verdict = if wrong.is_empty() {
        "agrees".into()
    } else {
        wrong.join(", ") + " DIFFERS"
    };
    println!(
        "{} {verdict}",
        path.file_stem().unwrap_or_default().to_string_lossy()
    );
    if !wrong.is_empty() {
        println!("script {}", words::hex(&script));
    }
    Ok(wrong.is_empty())
}

/// All pairs of script and text in a folder. False if one differs or there is none.
pub fn run(subject: &mut dyn Subject, folder: &Path) -> std::io::Result<bool> {
    let scripts = scripts_of(folder)?;
    let mut good = !scripts.is_empty();
    for path in &scripts {
        good &= one_vector(subject, path)?;
    }
    println!("{} vectors", scripts.len());
    Ok(good)
}
