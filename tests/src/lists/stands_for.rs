//! The host call that an access stands for. Registers and auxiliary commands are told here by their
//! numbers in decimal, and no code of the machine's is used.

use super::pieces;
use crate::model::script::{
    self, Call, Record, CLEAR, DROP, LINES, LISTEN, POLL, READ, REQUEST, RESET, STANDBY, TAKE,
    TALK, WRITE,
};
use crate::model::{Access, Bus};

#[derive(Clone, Copy, PartialEq, Eq, Debug)]
pub enum StandsFor {
    Call(Call),
    /// feoi.
    Mark,
    /// swrst and sic, cleared.
    Nothing,
    /// A register or a command that is not carried.
    NoRegister,
}

/// `marked` says whether the party's next byte through offset 7 has END.
pub fn stands_for(access: Access, marked: bool) -> StandsFor {
    let call = match access {
        // Lines name no party.
        Access::Read { offset: 3, .. } => [LINES, 0, 0, 0],
        Access::Read { party, offset: 7 } => [READ, party, 0, 0],
        Access::Write {
            party,
            offset,
            value,
        } => match offset {
            3 => return auxiliary(party, value),
            5 => [POLL, party, value, 0],
            7 => [WRITE, party, value, marked.into()],
            _ => return StandsFor::NoRegister,
        },
        Access::Read { .. } => return StandsFor::NoRegister,
    };
    StandsFor::Call(call)
}

fn auxiliary(party: u8, value: u8) -> StandsFor {
    let switch = value / 128;
    let call = match (value % 32, switch) {
        (0, 1) => [RESET, party, 0, 0],
        (5, _) => [DROP, party, 0, 0],
        (9, _) => [LISTEN, party, switch, 0],
        (10, _) => [TALK, party, switch, 0],
        (11, _) => [STANDBY, party, 0, 0],
        (12, _) => [TAKE, party, 0, 0],
        (15, 1) => [CLEAR, party, 0, 0],
        (24, _) => [REQUEST, party, switch, 0],
        (8, _) => return StandsFor::Mark,
        (0 | 15, _) => return StandsFor::Nothing,
        _ => return StandsFor::NoRegister,
    };
    StandsFor::Call(call)
}

/// The same on this bus.
pub fn on_bus(access: Access, bus: &Bus) -> StandsFor {
    let place = usize::from(access.party());
    let party = bus.present().get(place);
    stands_for(access, party.is_some_and(|party| party.feoi))
}

/// What the books read: the record of the host call, or the access itself if there is none.
pub fn as_record(access: Access, bus: &Bus) -> Record {
    match on_bus(access, bus) {
        StandsFor::Call([operation, party, value, extra]) => {
            script::record(operation, party, value, extra)
        }
        _ => pieces::access(access),
    }
}
