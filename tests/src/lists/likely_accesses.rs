//! Accesses of chance that are likely to matter on a bus, and accesses in the place of host calls.

use super::likely_arguments::{any_party, controller, likely_command, likely_register};
use super::random_numbers::Random;
use crate::model::registers::{
    AUXILIARY, BUS_STATUS, DATA_IN, DATA_OUT, FEOI, GTS, LON, NBAF, RSV2, SERIAL_POLL, SET, SIC,
    SWRST, TCA, TON,
};
use crate::model::script::{
    Call, CLEAR, DROP, LINES, LISTEN, POLL, READ, REQUEST, RESET, STANDBY, TAKE, TALK, WRITE,
};
use crate::model::{Access, Bus};

const COMMANDS: [u8; 9] = [SWRST, NBAF, FEOI, LON, TON, GTS, TCA, SIC, RSV2];

/// The bits of an auxiliary command that no command looks at.
const UNSEEN: u8 = 0b0110_0000;

/// The command with the bits set by chance that it does not look at.
fn with_unseen_bits(command: u8, random: &mut Random) -> u8 {
    command | random.byte() & UNSEEN
}

/// A command with a switch.
fn switched(command: u8, switch: u8, random: &mut Random) -> u8 {
    with_unseen_bits(command | switch << 7, random)
}

/// A command that does not look at its switch either.
fn unswitched(command: u8, random: &mut Random) -> u8 {
    with_unseen_bits(command, random) | random.byte() & SET
}

/// feoi for a party.
pub fn mark(party: u8, random: &mut Random) -> Access {
    Access::auxiliary(party, unswitched(FEOI, random))
}

/// The access that stands for this call, if there is one. A write's END is the mark's, and lines are
/// asked of a party of chance.
pub fn in_place_of(call: Call, bus: &Bus, random: &mut Random) -> Option<Access> {
    let [operation, party, value, _] = call;
    let command = match operation {
        READ => {
            let offset = DATA_IN;
            return Some(Access::Read { party, offset });
        }
        LINES => {
            let (party, offset) = (any_party(bus, random), BUS_STATUS);
            return Some(Access::Read { party, offset });
        }
        WRITE => return Some(Access::data_out(party, value)),
        POLL => {
            let offset = SERIAL_POLL;
            return Some(Access::Write {
                party,
                offset,
                value,
            });
        }
        LISTEN if value < 2 => switched(LON, value, random),
        TALK if value < 2 => switched(TON, value, random),
        REQUEST if value < 2 => switched(RSV2, value, random),
        RESET => switched(SWRST, 1, random),
        CLEAR => switched(SIC, 1, random),
        DROP => unswitched(NBAF, random),
        STANDBY => unswitched(GTS, random),
        TAKE => unswitched(TCA, random),
        _ => return None,
    };
    Some(Access::auxiliary(party, command))
}

/// Mostly a command that is carried.
fn likely_auxiliary(random: &mut Random) -> u8 {
    if random.per_mille(100) {
        return random.byte();
    }
    let command = random.pick(&COMMANDS);
    unswitched(command, random)
}

/// Mostly of a party that is there, and of a register that is carried.
pub fn likely_access(bus: &Bus, random: &mut Random) -> Access {
    let party = match random.below(30) {
        0 => bus.count as u8,
        1 => random.byte(),
        2..=8 => controller(bus),
        _ => any_party(bus, random),
    };
    let any = random.field(9);
    if random.per_mille(150) {
        let offset = random.pick(&[BUS_STATUS, DATA_IN, DATA_IN, any]);
        return Access::Read { party, offset };
    }
    let offset = match random.below(12) {
        0 => any,
        1 => SERIAL_POLL,
        2..=4 => DATA_OUT,
        _ => AUXILIARY,
    };
    let value = match offset {
        AUXILIARY => likely_auxiliary(random),
        SERIAL_POLL => likely_register(random),
        DATA_OUT => likely_command(bus, random),
        _ => random.byte(),
    };
    Access::Write {
        party,
        offset,
        value,
    }
}

/// An access that looks at no bus: mostly of one of the first parties, and mostly carried.
pub fn any_access(random: &mut Random) -> Access {
    let (first, any) = (random.below(4) as u8, random.field(16));
    let party = random.pick(&[first, first, first, any]);
    let offset = random.field(9);
    if random.per_mille(200) {
        let offset = random.pick(&[BUS_STATUS, DATA_IN, DATA_IN, offset]);
        return Access::Read { party, offset };
    }
    let offset = random.pick(&[AUXILIARY, AUXILIARY, SERIAL_POLL, DATA_OUT, offset]);
    let value = if offset == AUXILIARY {
        likely_auxiliary(random)
    } else {
        random.byte()
    };
    Access::Write {
        party,
        offset,
        value,
    }
}
