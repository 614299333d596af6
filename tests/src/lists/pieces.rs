//! The pieces of a list: the records of a script, and among them runs, calls for drivers, accesses to
//! registers, parallel polls, own statuses and builds from two lists, which no script can ask for. These
//! come in sixes of bytes too, each with a mark of its own, so that a list is cut as a script is.

use std::borrow::Cow;
use std::mem;

use super::stands_for::{self, StandsFor};
use crate::model::script::{self, Record, BUILD, LINES, RECORD, STEP};
use crate::model::{Access, Answer, Bus, Lists, PollCall, Refusal};

const RUN_MARK: [u8; 2] = [0x52, 0x54];
const DRIVERS_MARK: [u8; 2] = [0x44, 0x52];
const READ_MARK: [u8; 2] = [0x52, 0x44];
const WRITE_MARK: [u8; 2] = [0x57, 0x52];
const STATUS_MARK: [u8; 2] = [0x4F, 0x53];
const POLL_MARK: [u8; 2] = [0x50, 0x50];
const ADDRESS_MARK: [u8; 2] = [0x41, 0x44];
const SECONDARY_MARK: [u8; 2] = [0x53, 0x41];
const BUILD_MARK: [u8; 2] = [0x58, 0x50];

/// Stands where a record has its operation, and is none.
const NO_OPERATION: u8 = 255;

/// What six bytes of a list ask for.
#[derive(Clone, PartialEq, Debug)]
pub enum Piece {
    Run(u16),
    /// The drivers of each line.
    Drivers,
    /// A read or a write of a register.
    Access(Access),
    /// A party's own status, or a parallel poll.
    PollCall(PollCall),
    /// An entry of the first list of the build that follows.
    Address(u8),
    /// An entry of its second list.
    Secondary(Option<u8>),
    /// The lists right before it, and the system party.
    Build(Lists, u8),
    Record(Record),
    /// Fewer than six bytes.
    Tail,
}

impl Piece {
    /// A piece by itself, so that a build has empty lists.
    pub fn of(bytes: &[u8]) -> Piece {
        let Ok(record) = Record::try_from(bytes) else {
            return Piece::Tail;
        };
        let [mark, second, _, fields @ ..] = record;
        match ([mark, second], fields) {
            (RUN_MARK, [_, high, low]) => Piece::Run(u16::from_be_bytes([high, low])),
            (DRIVERS_MARK, _) => Piece::Drivers,
            (READ_MARK, [party, offset, _]) => Piece::Access(Access::Read { party, offset }),
            (WRITE_MARK, [party, offset, value]) => Piece::Access(Access::Write {
                party,
                offset,
                value,
            }),
            (STATUS_MARK, [party, value, _]) => {
                Piece::PollCall(PollCall::OwnStatus { party, value })
            }
            (POLL_MARK, [party, ..]) => Piece::PollCall(PollCall::Poll { party }),
            (ADDRESS_MARK, [address, ..]) => Piece::Address(address),
            (SECONDARY_MARK, [0, ..]) => Piece::Secondary(None),
            (SECONDARY_MARK, [_, own, _]) => Piece::Secondary(Some(own)),
            (BUILD_MARK, [system, ..]) => Piece::Build(Lists::default(), system),
            _ => Piece::Record(record),
        }
    }
}

/// A run of so many turns.
pub const fn run(turns: u16) -> Record {
    let [high, low] = turns.to_be_bytes();
    [RUN_MARK[0], RUN_MARK[1], NO_OPERATION, 0, high, low]
}

/// A call for the drivers.
pub const DRIVERS: Record = [DRIVERS_MARK[0], DRIVERS_MARK[1], NO_OPERATION, 0, 0, 0];

/// An access.
pub const fn access(access: Access) -> Record {
    let ([mark, second], party, offset, value) = match access {
        Access::Read { party, offset } => (READ_MARK, party, offset, 0),
        Access::Write {
            party,
            offset,
            value,
        } => (WRITE_MARK, party, offset, value),
    };
    [mark, second, NO_OPERATION, party, offset, value]
}

/// An own status, or a parallel poll.
pub const fn poll_call(call: PollCall) -> Record {
    let ([mark, second], party, value) = match call {
        PollCall::OwnStatus { party, value } => (STATUS_MARK, party, value),
        PollCall::Poll { party } => (POLL_MARK, party, 0),
    };
    [mark, second, NO_OPERATION, party, value, 0]
}

fn address(address: u8) -> Record {
    let [mark, second] = ADDRESS_MARK;
    [mark, second, NO_OPERATION, address, 0, 0]
}

fn secondary(secondary: Option<u8>) -> Record {
    let [mark, second] = SECONDARY_MARK;
    let has = u8::from(secondary.is_some());
    [mark, second, NO_OPERATION, has, secondary.unwrap_or(0), 0]
}

/// The build itself, whose lists stand before it.
pub fn build_of_lists(system: u8) -> Record {
    [BUILD_MARK[0], BUILD_MARK[1], BUILD, system, 0, 0]
}

/// A build from these lists.
pub fn build(lists: &Lists, system: u8) -> Vec<Record> {
    let addresses = lists.addresses.iter().map(|&own| address(own));
    let secondaries = lists.secondaries.iter().map(|&own| secondary(own));
    let entries = addresses.chain(secondaries);
    entries.chain([build_of_lists(system)]).collect()
}

/// The pieces of a list one after the other, builds with their lists.
pub fn of_list(list: &[u8]) -> impl Iterator<Item = Piece> + '_ {
    let mut lists = Lists::default();
    list.chunks(RECORD).map(move |bytes| {
        let piece = Piece::of(bytes);
        match piece {
            Piece::Address(own) => lists.addresses.push(own),
            Piece::Secondary(own) => lists.secondaries.push(own),
            Piece::Build(_, system) => return Piece::Build(mem::take(&mut lists), system),
            _ => lists = Lists::default(),
        }
        piece
    })
}

/// One piece on a kept bus. Of a run the answer has the refusal alone.
pub fn enter(bus: &mut Bus, piece: &Piece) -> Answer {
    match piece {
        Piece::Run(turns) => Answer::refused(bus.give_turns(*turns).refusal),
        Piece::Drivers => bus.drivers().answer,
        Piece::Access(access) => bus.access(*access),
        Piece::PollCall(call) => bus.poll_call(*call),
        Piece::Address(_) | Piece::Secondary(_) => Answer::NOTHING,
        Piece::Build(lists, system) => bus.build_extended(lists, *system),
        Piece::Record(record) => script::run_record(bus, *record),
        Piece::Tail => Answer::refused(Refusal::Record),
    }
}

/// The bus that a list leads to.
pub fn bus_after(list: &[u8]) -> Bus {
    let mut bus = Bus::new();
    for piece in of_list(list) {
        enter(&mut bus, &piece);
    }
    bus
}

/// The script that a list stands for: each run is its steps, and each access the host call that it
/// stands for; a refused run, an access that stands for none, an own status and a parallel poll are
/// nothing. Where the drivers are asked for it has the lines, which leave the same bus.
/// None if the list has a build from lists.
pub fn as_script(list: &[u8]) -> Option<Cow<'_, [u8]>> {
    let mut all_records = true;
    for bytes in list.chunks(RECORD) {
        match Piece::of(bytes) {
            Piece::Address(_) | Piece::Secondary(_) | Piece::Build(..) => return None,
            Piece::Run(_) | Piece::Drivers | Piece::Access(_) | Piece::PollCall(_) => {
                all_records = false;
            }
            Piece::Record(_) | Piece::Tail => {}
        }
    }
    Some(if all_records {
        Cow::Borrowed(list)
    } else {
        Cow::Owned(with_records_alone(list))
    })
}

fn with_records_alone(list: &[u8]) -> Vec<u8> {
    // A run's order needs the parties, and an access the mark of its party.
    let mut bus = Bus::new();
    let mut script = Vec::new();
    for bytes in list.chunks(RECORD) {
        let piece = Piece::of(bytes);
        match &piece {
            Piece::Run(turns) => {
                let steps = bus.order_of(*turns);
                script.extend(steps.flat_map(|party| script::record(STEP, party, 0, 0)));
            }
            Piece::Drivers => script.extend(script::record(LINES, 0, 0, 0)),
            Piece::PollCall(_) => {}
            Piece::Access(access) => {
                if let StandsFor::Call(_) = stands_for::on_bus(*access, &bus) {
                    script.extend(stands_for::as_record(*access, &bus));
                }
            }
            _ => script.extend_from_slice(bytes),
        }
        enter(&mut bus, &piece);
    }
    script
}
