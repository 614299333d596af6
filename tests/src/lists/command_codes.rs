//! Codes of commands, as lists send them.

use crate::model::Name;

pub const SDC: u8 = 0x04;
pub const PPC: u8 = 0x05;
pub const GET: u8 = 0x08;
pub const TCT: u8 = 0x09;
pub const DCL: u8 = 0x14;
pub const PPU: u8 = 0x15;
pub const SPE: u8 = 0x18;
pub const SPD: u8 = 0x19;
pub const UNL: u8 = 0x3F;
pub const UNT: u8 = 0x5F;

/// A primary command without a meaning.
pub const NO_MEANING: u8 = 0x1F;

/// Neither a primary command nor a secondary.
pub const NEITHER: u8 = 0x7F;

/// To each of these an address is added.
pub const LISTEN_ADDRESS: u8 = 0x20;
pub const TALK_ADDRESS: u8 = 0x40;
pub const SECONDARY: u8 = 0x60;

/// Heard after PPC: to the first a line minus one is added, and the sense; the second has fifteen more.
pub const PPE: u8 = 0x60;
pub const PPE_SENSE: u8 = 0x08;
pub const PPD: u8 = 0x70;

/// The code for this line, 1 to 8, and this sense.
pub fn enable(line: u8, sense: bool) -> u8 {
    PPE + PPE_SENSE * u8::from(sense) + line - 1
}

/// The commands by which a party is addressed; `primary` is one of the two codes above.
pub fn addressing(primary: u8, name: Name) -> impl Iterator<Item = u8> {
    let secondary = name.secondary.map(|own| SECONDARY + own);
    std::iter::once(primary + name.primary).chain(secondary)
}
