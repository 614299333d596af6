//! Accesses and host calls that have to leave the same bus, for each access by itself.

use crate::lists::stands_for::{self, StandsFor};
use crate::model::registers::{FEOI, NBAF};
use crate::model::script::{Call, DROP, WRITE};
use crate::model::{Access, Bus};

/// A byte that shows a mark.
const BYTE: u8 = 0xA5;

pub struct Alike {
    /// The access in question is the first.
    pub accesses: Vec<Access>,
    pub calls: Vec<Call>,
}

/// What the access has to be like on this bus.
pub fn alike(access: Access, bus: &Bus) -> Alike {
    let party = access.party();
    let found = bus.present().get(usize::from(party));
    let marked = found.is_some_and(|party| party.feoi);
    let (mut accesses, mut calls) = (vec![access], Vec::new());
    match stands_for::on_bus(access, bus) {
        _ if found.is_none() => {}
        StandsFor::Nothing | StandsFor::NoRegister => {}
        StandsFor::Call(call) => calls.push(call),
        StandsFor::Mark => {
            accesses.push(Access::auxiliary(party, NBAF));
            accesses.push(Access::data_out(party, BYTE));
            calls.push([DROP, party, 0, 0]);
            calls.push([WRITE, party, BYTE, 1]);
        }
    }
    // The byte has used the mark up, and the host's own write has not.
    if marked && calls.last().is_some_and(|call| call[0] == WRITE) {
        accesses.push(Access::auxiliary(party, FEOI));
    }
    Alike { accesses, calls }
}
