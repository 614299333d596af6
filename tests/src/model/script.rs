//! Bus scripts: six-byte records, whole scripts, and the text that busrun prints.

use super::{Answer, Bus, Refusal, MOST_PARTIES};

pub const MARK: [u8; 2] = [0x47, 0x42];
pub const RECORD: usize = 6;
pub const LONGEST: usize = 65_532;

pub type Record = [u8; RECORD];

/// Operation, party, value, extra.
pub type Call = [u8; 4];

pub const BUILD: u8 = 0;
pub const STEP: u8 = 1;
pub const WRITE: u8 = 2;
pub const READ: u8 = 3;
pub const POLL: u8 = 4;
pub const LISTEN: u8 = 5;
pub const TALK: u8 = 6;
pub const TAKE: u8 = 7;
pub const STANDBY: u8 = 8;
pub const CLEAR: u8 = 9;
pub const RESET: u8 = 10;
pub const DROP: u8 = 11;
pub const LINES: u8 = 12;
pub const REQUEST: u8 = 13;

/// Numbers above it are no operations.
pub const LAST_OPERATION: u8 = REQUEST;

pub const fn record(operation: u8, party: u8, value: u8, extra: u8) -> Record {
    [MARK[0], MARK[1], operation, party, value, extra]
}

pub fn has_mark(record: &Record) -> bool {
    record.starts_with(&MARK)
}

/// One record, by the build (addresses, system party) or the call that it asks for; a wrong mark
/// leaves the machine as it is.
pub fn run_record_by<M: ?Sized>(
    machine: &mut M,
    record: Record,
    build: fn(&mut M, &[u8], u8) -> Answer,
    call: fn(&mut M, Call) -> Answer,
) -> Answer {
    if !has_mark(&record) {
        return Answer::refused(Refusal::Record);
    }
    let [_, _, operation, party, value, extra] = record;
    if operation != BUILD {
        return call(machine, [operation, party, value, extra]);
    }
    // One address more than a bus can have is enough to be refused.
    let mut addresses = [0; MOST_PARTIES + 1];
    for (address, next) in addresses.iter_mut().zip(extra..=u8::MAX) {
        *address = next;
    }
    let count = usize::from(value).min(addresses.len());
    build(machine, &addresses[..count], party)
}

/// One record on a kept bus.
pub fn run_record(bus: &mut Bus, record: Record) -> Answer {
    run_record_by(bus, record, Bus::build, call)
}

/// One call by its operation's number. A build is none: its addresses come as a list.
pub fn call(bus: &mut Bus, [operation, party, value, extra]: Call) -> Answer {
    match operation {
        STEP => bus.step(party),
        WRITE => bus.write(party, value, extra),
        READ => bus.read(party),
        POLL => bus.poll_register(party, value),
        LISTEN => bus.listen_only(party, value),
        TALK => bus.talk_only(party, value),
        TAKE => bus.take_control(party),
        STANDBY => bus.standby(party),
        CLEAR => bus.clear(party),
        RESET => bus.reset(party),
        DROP => bus.drop_byte(party),
        LINES => bus.lines(),
        REQUEST => bus.second_request(party, value),
        _ => Answer::refused(Refusal::BadValue),
    }
}

fn push_number(out: &mut Vec<u8>, number: usize) {
    if number >= 10 {
        push_number(out, number / 10);
    }
    out.push(b'0' + (number % 10) as u8);
}

/// The line of one record.
pub fn print_line(out: &mut Vec<u8>, number: usize, answer: &Answer) {
    const DIGITS: &[u8; 16] = b"0123456789abcdef";
    push_number(out, number);
    out.push(b' ');
    push_number(out, answer.refusal as usize);
    out.push(b' ');
    out.extend_from_slice(answer.event.word().as_bytes());
    out.push(b' ');
    if answer.event.has_byte() {
        out.push(DIGITS[usize::from(answer.byte >> 4)]);
        out.push(DIGITS[usize::from(answer.byte & 15)]);
    } else {
        out.extend_from_slice(b"--");
    }
    for count in [u8::from(answer.end), answer.dropped, answer.broken] {
        out.push(b' ');
        push_number(out, usize::from(count));
    }
    out.push(b'\n');
}

/// A whole script, each of its records answered by `call`. Any string of bytes is a script.
pub fn run_by(script: &[u8], out: &mut Vec<u8>, mut call: impl FnMut(Record) -> Answer) {
    let bad = Answer::refused(Refusal::Record);
    if script.len() > LONGEST {
        print_line(out, 0, &bad);
        return;
    }
    for (place, chunk) in script.chunks(RECORD).enumerate() {
        let answer = match Record::try_from(chunk) {
            Ok(record) => call(record),
            Err(_) => bad,
        };
        print_line(out, place + 1, &answer);
        if answer.refusal == Refusal::Record {
            return;
        }
    }
}

/// A whole script on the model, from the bus of no parties.
pub fn run(script: &[u8], out: &mut Vec<u8>) {
    let mut bus = Bus::new();
    run_by(script, out, |record| run_record(&mut bus, record));
}
