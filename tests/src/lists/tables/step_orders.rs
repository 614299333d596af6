//! Bytes that many parties take, at every stage from the put to the end. On the bus that each list leads to,
//! steps are tried in two orders.

use super::racks::RACKS;
use crate::compare::{Comparison, Finding};
use crate::lists::command_codes::{
    addressing, enable, DCL, GET, PPC, PPU, SDC, SPD, SPE, TALK_ADDRESS, TCT, UNL, UNT,
};
use crate::lists::composer::Composer;
use crate::model::script::{CLEAR, LISTEN, STANDBY, TALK, WRITE};
use crate::model::{Event, Name, MOST_PARTIES};

type Done = Result<(), Finding>;

/// How many steps the acceptors at even and at odd places take before the source's next one.
const STAGES: [[usize; 2]; 6] = [[0, 0], [1, 0], [2, 0], [1, 1], [1, 2], [2, 2]];

/// Commands of which the last is heard at each stage, and the others before.
fn commands(names: &[Name]) -> Vec<Vec<u8>> {
    let talk = |place: usize| addressing(TALK_ADDRESS, names[place]).collect::<Vec<u8>>();
    let alone = [GET, SDC, DCL, UNL, SPE, PPC].map(|command| vec![command]);
    let after = [
        vec![SPE, SPD],
        vec![PPC, enable(3, true)],
        vec![PPC, enable(8, false), PPU],
        [talk(1), vec![UNT]].concat(),
        [talk(1), talk(2)].concat(),
        [talk(2), vec![TCT]].concat(),
    ];
    alone.into_iter().chain(after).collect()
}

/// All but the first and every fourth party listen.
fn listen(composer: &mut Composer) {
    for party in 1..composer.bus.count as u8 {
        if party % 4 != 3 {
            composer.call(LISTEN, party, 1, 0);
        }
    }
}

/// The first party sends the commands to these, and the last one stands.
fn command_stands(mut composer: Composer, commands: &[u8]) -> Composer {
    composer.call(CLEAR, 0, 0, 0);
    listen(&mut composer);
    let (last, before) = commands.split_last().expect("a command");
    for command in before {
        composer.command(*command);
    }
    composer.call(WRITE, 0, *last, 0);
    composer.walk_until(Event::is_put);
    composer
}

fn data_stands(mut composer: Composer, end: u8) -> Composer {
    composer.call(TALK, 0, 1, 0);
    listen(&mut composer);
    composer.call(WRITE, 0, 0x41, end);
    composer.walk_until(Event::is_put);
    composer
}

/// The last party is polled.
fn status_stands(mut composer: Composer) -> Composer {
    let name = *composer.bus.names().last().expect("a party");
    composer.call(CLEAR, 0, 0, 0);
    listen(&mut composer);
    composer.command(SPE);
    for command in addressing(TALK_ADDRESS, name) {
        composer.command(command);
    }
    composer.call(STANDBY, 0, 0, 0);
    composer.walk_until(Event::is_put);
    composer
}

/// A byte stands, and goes on to each of the stages.
fn every_stage(comparison: &mut Comparison, composer: &Composer) -> Done {
    let sender = composer.bus.standing.expect("a standing byte").sender as u8;
    for stage in STAGES {
        let mut composer = composer.clone();
        for party in composer.bus.no_sources() {
            for _ in 0..stage[usize::from(party % 2)] {
                composer.step(party);
            }
        }
        composer.step(sender);
        comparison.list(&composer.records.concat())?;
    }
    Ok(())
}

pub fn run(comparison: &mut Comparison) -> Done {
    for rack in RACKS {
        for count in 3..=MOST_PARTIES as u8 {
            let mut built = Composer::new();
            rack(&mut built, count);
            for commands in commands(&built.bus.names()) {
                every_stage(comparison, &command_stands(built.clone(), &commands))?;
            }
            for end in 0..2 {
                every_stage(comparison, &data_stands(built.clone(), end))?;
            }
            every_stage(comparison, &status_stands(built))?;
        }
    }
    Ok(())
}
