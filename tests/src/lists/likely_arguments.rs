//! Arguments of chance that are likely to matter on a bus: parties, bytes, registers and numbers of
//! turns.

use super::command_codes::{
    DCL, GET, LISTEN_ADDRESS, NEITHER, PPC, PPU, SDC, SECONDARY, SPD, SPE, TALK_ADDRESS, TCT, UNL,
    UNT,
};
use super::random_numbers::Random;
use crate::ledger::bound::TURNS_A_PARTY;
use crate::model::{Bus, Control};

/// The party in standby or active, else the system party.
pub fn controller(bus: &Bus) -> u8 {
    let found = bus
        .present()
        .iter()
        .position(|party| party.control != Control::Idle);
    found.unwrap_or(bus.system) as u8
}

pub fn any_party(bus: &Bus, random: &mut Random) -> u8 {
    random.below(bus.count.max(1)) as u8
}

/// Mostly another party than this one.
pub fn other_party(bus: &Bus, party: u8, random: &mut Random) -> u8 {
    let count = bus.count.max(1);
    let others = count - usize::from(random.per_mille(900)).min(count - 1);
    ((usize::from(party) + 1 + random.below(others)) % count) as u8
}

/// Mostly the secondary of some party.
pub fn likely_secondary(bus: &Bus, random: &mut Random) -> u8 {
    let name = bus.parties[usize::from(any_party(bus, random))].name;
    match (random.below(10), name.secondary) {
        (0, _) => NEITHER,
        (2.., Some(own)) => SECONDARY + own,
        _ => SECONDARY + random.below(31) as u8,
    }
}

/// A byte that is likely to mean something on this bus, now and then with bit 128.
pub fn likely_command(bus: &Bus, random: &mut Random) -> u8 {
    let name = bus.parties[usize::from(any_party(bus, random))].name;
    let byte = match random.below(18) {
        0..=2 => LISTEN_ADDRESS + name.primary,
        3..=5 => TALK_ADDRESS + name.primary,
        6 => UNL,
        7 => UNT,
        8 => LISTEN_ADDRESS + random.below(32) as u8,
        9 => TALK_ADDRESS + random.below(32) as u8,
        10 => random.pick(&[SPE, SPD]),
        11 => TCT,
        12 => random.pick(&[SDC, GET, DCL]),
        13 => random.pick(&[SPE, SPD, TCT, SDC, GET, DCL, PPC, PPU]),
        14 => random.below(0x20) as u8,
        15 => random.byte(),
        _ => likely_secondary(bus, random),
    };
    byte | if random.per_mille(100) { 0x80 } else { 0 }
}

/// A poll register: often with bit 64, often 0 or 1 beside it.
pub fn likely_register(random: &mut Random) -> u8 {
    let any = random.byte();
    random.pick(&[0x00, 0x01, 0x40, 0x41, 0x40, 0x41, 0xFF, 0xBF, any])
}

/// Turns for a run: fewer than a round, so that its counts tell who was first, or about as many as a
/// byte takes; now and then any number.
pub fn likely_turns(bus: &Bus, random: &mut Random) -> u16 {
    let (count, bound) = (bus.count, usize::from(TURNS_A_PARTY) * bus.count);
    let turns = match random.below(10) {
        0 => random.below(2),
        1..=2 => random.below(count.max(1)),
        3 => count,
        4 => bound,
        5 if random.per_mille(1) => 65_535 - random.below(2) * random.below(65_536),
        6 => bound + random.below(20),
        _ => random.below(bound + 2),
    };
    turns as u16
}
