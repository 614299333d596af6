//! What a machine can get wrong about the chip's registers.

use crate::lists::stands_for::{stands_for, StandsFor};
use crate::model::registers::{
    AUXILIARY, BUS_STATUS, DATA_IN, DATA_OUT, GTS, LON, NBAF, RSV2, SERIAL_POLL, SET, SIC, SWRST,
    TCA, TON,
};
use crate::model::{Access, Answer, Bus, Event, Refusal, RSV};

/// In the place of an access.
pub type AccessFault = fn(&mut Bus, Access) -> Answer;

pub const ACCESS_FAULTS: &[(&str, AccessFault)] = &[
    ("nbaf by the set bit only", nbaf_if_set),
    ("gts and tca by the set bit only", control_if_set),
    ("lon's switch inverted", lon_inverted),
    ("ton's switch inverted", ton_inverted),
    ("rsv2's switch inverted", rsv2_inverted),
    ("gts and tca swapped", control_swapped),
    ("lon and ton swapped", only_swapped),
    ("sic cleared refused to others", sic_cleared_refused),
    ("sic cleared clears", sic_cleared_clears),
    ("swrst cleared resets", swrst_cleared_resets),
    (
        "swrst cleared refused while a command stands",
        swrst_cleared_refused,
    ),
    ("NOREG before NOPARTY", register_first),
    ("NOREG after FULL", register_after_full),
    ("NOREG after EMPTY", register_after_empty),
    ("NOREG as BADVALUE", bad_value),
    ("another command accepted", other_accepted),
    ("bit 32 is of the command", bit_32_seen),
    ("bit 64 is of the command", bit_64_seen),
    ("bit 64 for the switch", bit_64_switches),
    ("f4 not looked at", f4_unseen),
    ("bus status of no party", status_of_nobody),
    ("bus status of the party's own lines", own_lines),
    ("bus status has the event none", status_says_none),
    ("read 5 reads the poll register", poll_read),
    ("read 6 reads data-in", pass_through_read),
    ("data in keeps its byte", read_keeps),
    ("data in loses END", read_loses_end),
    ("write 6 accepted", parallel_accepted),
    ("write 2 accepted", not_decoded_accepted),
    ("offsets mod 8", mod_8),
    ("the poll register without bit 64", poll_cut),
];

/// The command that is written, bits 32 and 64 put aside, with its switch.
pub(super) fn command(access: Access) -> Option<(u8, bool)> {
    match access {
        Access::Write {
            offset: AUXILIARY,
            value,
            ..
        } => Some((value & 0x1F, value & SET != 0)),
        _ => None,
    }
}

pub(super) fn is_command(access: Access, wanted: u8) -> bool {
    command(access).is_some_and(|(code, _)| code == wanted)
}

pub(super) fn is_data_out(access: Access) -> bool {
    matches!(access, Access::Write { offset, .. } if offset == DATA_OUT)
}

/// The same access with its value changed if it is an auxiliary command.
fn recoded(access: Access, change: impl FnOnce(u8) -> u8) -> Access {
    match access {
        Access::Write {
            party,
            offset: AUXILIARY,
            value,
        } => Access::auxiliary(party, change(value)),
        other => other,
    }
}

fn refused(refusal: Refusal) -> Answer {
    Answer::refused(refusal)
}

/// Nothing comes of this command when it is cleared.
fn if_set(bus: &mut Bus, access: Access, wanted: u8) -> Answer {
    if command(access) == Some((wanted, false)) && bus.name(access.party()).is_some() {
        return Answer::NOTHING;
    }
    bus.access(access)
}

fn nbaf_if_set(bus: &mut Bus, access: Access) -> Answer {
    if_set(bus, access, NBAF)
}

fn control_if_set(bus: &mut Bus, access: Access) -> Answer {
    if is_command(access, GTS) {
        return if_set(bus, access, GTS);
    }
    if_set(bus, access, TCA)
}

fn inverted(bus: &mut Bus, access: Access, wanted: u8) -> Answer {
    if is_command(access, wanted) {
        return bus.access(recoded(access, |value| value ^ SET));
    }
    bus.access(access)
}

fn lon_inverted(bus: &mut Bus, access: Access) -> Answer {
    inverted(bus, access, LON)
}

fn ton_inverted(bus: &mut Bus, access: Access) -> Answer {
    inverted(bus, access, TON)
}

fn rsv2_inverted(bus: &mut Bus, access: Access) -> Answer {
    inverted(bus, access, RSV2)
}

fn swapped(bus: &mut Bus, access: Access, one: u8, other: u8) -> Answer {
    let change = |value: u8| match value & 0x1F {
        code if code == one => value & 0xE0 | other,
        code if code == other => value & 0xE0 | one,
        _ => value,
    };
    bus.access(recoded(access, change))
}

fn control_swapped(bus: &mut Bus, access: Access) -> Answer {
    swapped(bus, access, GTS, TCA)
}

fn only_swapped(bus: &mut Bus, access: Access) -> Answer {
    swapped(bus, access, LON, TON)
}

fn sic_cleared_refused(bus: &mut Bus, access: Access) -> Answer {
    let answer = bus.access(access);
    let cleared = command(access) == Some((SIC, false)) && answer.accepted();
    if cleared && usize::from(access.party()) != bus.system {
        return refused(Refusal::Role);
    }
    answer
}

/// This command acts when it is cleared too.
fn cleared_acts(bus: &mut Bus, access: Access, wanted: u8) -> Answer {
    if is_command(access, wanted) {
        return bus.access(recoded(access, |value| value | SET));
    }
    bus.access(access)
}

fn sic_cleared_clears(bus: &mut Bus, access: Access) -> Answer {
    cleared_acts(bus, access, SIC)
}

fn swrst_cleared_resets(bus: &mut Bus, access: Access) -> Answer {
    cleared_acts(bus, access, SWRST)
}

fn swrst_cleared_refused(bus: &mut Bus, access: Access) -> Answer {
    let reset = bus.clone().reset(access.party());
    if command(access) == Some((SWRST, false)) && reset.refusal == Refusal::Standing {
        return reset;
    }
    bus.access(access)
}

fn register_first(bus: &mut Bus, access: Access) -> Answer {
    let answer = bus.access(access);
    let no_register = stands_for(access, false) == StandsFor::NoRegister;
    if answer.refusal == Refusal::NoParty && no_register {
        return refused(Refusal::NoReg);
    }
    answer
}

/// NOREG gives way to this refusal where the party is like that.
fn after(bus: &mut Bus, access: Access, refusal: Refusal, comes: bool) -> Answer {
    let answer = bus.access(access);
    if answer.refusal == Refusal::NoReg && comes {
        return refused(refusal);
    }
    answer
}

fn register_after_full(bus: &mut Bus, access: Access) -> Answer {
    let party = bus.present().get(usize::from(access.party()));
    let full = party.is_some_and(|party| party.held.is_some());
    let writes = matches!(access, Access::Write { .. });
    after(bus, access, Refusal::Full, full && writes)
}

fn register_after_empty(bus: &mut Bus, access: Access) -> Answer {
    let party = bus.present().get(usize::from(access.party()));
    let empty = party.is_some_and(|party| party.data_in.is_none());
    let reads = matches!(access, Access::Read { .. });
    after(bus, access, Refusal::Empty, empty && reads)
}

fn bad_value(bus: &mut Bus, access: Access) -> Answer {
    let is_value = command(access).is_some();
    after(bus, access, Refusal::BadValue, is_value)
}

fn other_accepted(bus: &mut Bus, access: Access) -> Answer {
    let is_value = command(access).is_some();
    after(bus, access, Refusal::Accepted, is_value)
}

/// Whether the access is a command with one of these bits.
fn has_bits(access: Access, bits: u8) -> bool {
    matches!(access, Access::Write { offset, value, .. } if offset == AUXILIARY && value & bits != 0)
}

/// A command with this bit is another one, which is not carried.
fn seen(bus: &mut Bus, access: Access, bit: u8) -> Answer {
    if has_bits(access, bit) && bus.name(access.party()).is_some() {
        return refused(Refusal::NoReg);
    }
    bus.access(access)
}

fn bit_32_seen(bus: &mut Bus, access: Access) -> Answer {
    seen(bus, access, 32)
}

fn bit_64_seen(bus: &mut Bus, access: Access) -> Answer {
    seen(bus, access, 64)
}

fn bit_64_switches(bus: &mut Bus, access: Access) -> Answer {
    let change = |value: u8| value & 0x7F | (value & 64) << 1;
    bus.access(recoded(access, change))
}

fn f4_unseen(bus: &mut Bus, access: Access) -> Answer {
    if is_command(access, RSV2) {
        return bus.access(access);
    }
    bus.access(recoded(access, |value| value & 0xEF))
}

fn status_of_nobody(bus: &mut Bus, access: Access) -> Answer {
    match access {
        Access::Read { offset, .. } if offset == BUS_STATUS => bus.lines(),
        _ => bus.access(access),
    }
}

/// An accepted read of this register answers this.
fn read_as(
    bus: &mut Bus,
    access: Access,
    wanted: u8,
    alter: impl FnOnce(&mut Bus, &Bus, &mut Answer),
) -> Answer {
    let before = *bus;
    let mut answer = bus.access(access);
    if reads_at(access, wanted) && answer.accepted() {
        alter(bus, &before, &mut answer);
    }
    answer
}

fn own_lines(bus: &mut Bus, access: Access) -> Answer {
    let place = usize::from(access.party());
    read_as(bus, access, BUS_STATUS, |_, before, answer| {
        answer.byte = before.parties[place].drives();
    })
}

fn status_says_none(bus: &mut Bus, access: Access) -> Answer {
    read_as(bus, access, BUS_STATUS, |_, _, answer| {
        *answer = Answer::NOTHING;
    })
}

fn read_keeps(bus: &mut Bus, access: Access) -> Answer {
    read_as(bus, access, DATA_IN, |bus, before, _| *bus = *before)
}

fn read_loses_end(bus: &mut Bus, access: Access) -> Answer {
    read_as(bus, access, DATA_IN, |_, _, answer| answer.end = false)
}

/// An offset that is not carried answers this.
fn carried(
    bus: &mut Bus,
    access: Access,
    is_it: bool,
    alter: fn(&mut Bus, u8) -> Answer,
) -> Answer {
    let answer = bus.access(access);
    if is_it && answer.refusal == Refusal::NoReg {
        return alter(bus, access.party());
    }
    answer
}

fn reads_at(access: Access, wanted: u8) -> bool {
    matches!(access, Access::Read { offset, .. } if offset == wanted)
}

fn writes_at(access: Access, wanted: u8) -> bool {
    matches!(access, Access::Write { offset, .. } if offset == wanted)
}

fn poll_read(bus: &mut Bus, access: Access) -> Answer {
    carried(bus, access, reads_at(access, SERIAL_POLL), |bus, party| {
        let saved = bus.parties[usize::from(party)].saved;
        Answer::with_byte(Event::Read, saved, false)
    })
}

fn pass_through_read(bus: &mut Bus, access: Access) -> Answer {
    carried(bus, access, reads_at(access, 6), Bus::read)
}

fn parallel_accepted(bus: &mut Bus, access: Access) -> Answer {
    carried(bus, access, writes_at(access, 6), |_, _| Answer::NOTHING)
}

/// Document 001 has that such a write has no effect.
fn not_decoded_accepted(bus: &mut Bus, access: Access) -> Answer {
    carried(bus, access, writes_at(access, 2), |_, _| Answer::NOTHING)
}

fn mod_8(bus: &mut Bus, access: Access) -> Answer {
    bus.access(match access {
        Access::Read { party, offset } => Access::Read {
            party,
            offset: offset % 8,
        },
        Access::Write {
            party,
            offset,
            value,
        } => Access::Write {
            party,
            offset: offset % 8,
            value,
        },
    })
}

fn poll_cut(bus: &mut Bus, access: Access) -> Answer {
    match access {
        Access::Write {
            party,
            offset: SERIAL_POLL,
            value,
        } => bus.poll_register(party, value & !RSV),
        _ => bus.access(access),
    }
}
