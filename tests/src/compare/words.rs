//! Records and answers in words, for reports.

use crate::lists::pieces::Piece;
use crate::lists::stands_for::{stands_for, StandsFor};
use crate::model::script::{self, Call};
use crate::model::{Access, Answer, Drivers, Line, Lists, PollCall, Refusal};

fn switch(value: u8) -> String {
    match value {
        0 => "off".to_string(),
        1 => "on".to_string(),
        other => format!("switch {other}"),
    }
}

/// A call by its operation's number.
pub fn call([operation, party, value, extra]: Call) -> String {
    match operation {
        script::STEP => format!("step party {party}"),
        script::WRITE => format!("write party {party} byte {value:02x} END {extra}"),
        script::READ => format!("read party {party}"),
        script::POLL => format!("poll register party {party} value {value:02x}"),
        script::LISTEN => format!("listen-only party {party} {}", switch(value)),
        script::TALK => format!("talk-only party {party} {}", switch(value)),
        script::TAKE => format!("take control party {party}"),
        script::STANDBY => format!("go to standby party {party}"),
        script::CLEAR => format!("interface clear by party {party}"),
        script::RESET => format!("reset party {party}"),
        script::DROP => format!("drop party {party}"),
        script::LINES => "lines".to_string(),
        script::REQUEST => format!("second request party {party} {}", switch(value)),
        other => format!("unknown operation {other}"),
    }
}

/// An access by its numbers, and the host call that it stands for.
pub fn access(access: Access) -> String {
    let own = match access {
        Access::Read { party, offset } => format!("read register {offset} of party {party}"),
        Access::Write {
            party,
            offset,
            value,
        } => format!("write register {offset} of party {party} value {value:02x}"),
    };
    let meaning = match stands_for(access, false) {
        StandsFor::Call([script::WRITE, ..]) => "write".to_string(),
        StandsFor::Call(host) => call(host),
        StandsFor::Mark => "feoi".to_string(),
        StandsFor::Nothing => "nothing".to_string(),
        StandsFor::NoRegister => "no register".to_string(),
    };
    format!("{own}: {meaning}")
}

/// An own status, or a parallel poll.
pub fn poll_call(call: PollCall) -> String {
    match call {
        PollCall::OwnStatus { party, value } => format!("own status party {party} value {value}"),
        PollCall::Poll { party } => format!("parallel poll by party {party}"),
    }
}

fn secondary(secondary: Option<u8>) -> String {
    secondary.map_or("none".to_string(), |own| own.to_string())
}

/// Both lists, as 5 6 7 and none 12 13.
pub fn lists(lists: &Lists) -> String {
    let addresses: Vec<String> = lists.addresses.iter().map(u8::to_string).collect();
    let own = lists.secondaries.iter().map(|own| secondary(*own));
    let (addresses, own) = (addresses.join(" "), own.collect::<Vec<String>>().join(" "));
    format!("addresses [{addresses}], secondaries [{own}]")
}

/// One piece of a list.
pub fn piece(bytes: &[u8]) -> String {
    match Piece::of(bytes) {
        Piece::Run(turns) => format!("run of {turns} turns"),
        Piece::Drivers => "drivers".to_string(),
        Piece::Access(own) => access(own),
        Piece::PollCall(own) => poll_call(own),
        Piece::Address(address) => format!("an address, {address}"),
        Piece::Secondary(own) => format!("a secondary, {}", secondary(own)),
        Piece::Build(_, system) => format!("build from these lists, system party {system}"),
        Piece::Record(record) if !script::has_mark(&record) => "wrong mark".to_string(),
        Piece::Record([_, _, script::BUILD, system, count, first]) => {
            format!("build {count} parties from address {first}, system party {system}")
        }
        Piece::Record([_, _, operation, party, value, extra]) => {
            call([operation, party, value, extra])
        }
        Piece::Tail => format!("short tail of {} bytes", bytes.len()),
    }
}

pub fn hex(bytes: &[u8]) -> String {
    bytes.iter().map(|byte| format!("{byte:02x}")).collect()
}

/// The answer as busrun prints it, without the number.
pub fn answer(answer: &Answer) -> String {
    let mut line = Vec::new();
    script::print_line(&mut line, 0, answer);
    let text = String::from_utf8_lossy(&line[2..]).trim_end().to_string();
    match answer.refusal {
        Refusal::Accepted => text,
        refusal => format!("{text} ({})", refusal.word()),
    }
}

/// Each line's mask in hexadecimal, with its count.
pub fn drivers(drivers: &Drivers) -> String {
    let line = |line: Line| {
        let (mask, count) = (drivers.mask(line), drivers.count(line));
        format!("{} {mask:04x} {count}", Line::WORDS[line as usize])
    };
    Line::ALL.map(line).join(", ")
}
