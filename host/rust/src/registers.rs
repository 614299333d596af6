//! The registers of the TMS9914A that a party has, by the names of document 001's tables 2-1 to 2-3, for
//! [`Bus::read_register`](crate::Bus::read_register) and
//! [`Bus::write_register`](crate::Bus::write_register). All are plain bytes, as a driver writes them.

/// Offsets of the registers that are read.
pub mod read {
    /// The lines; the byte has the bits of [`Line::bit`](crate::Line::bit).
    pub const BUS_STATUS: u8 = 3;
    /// The byte that the party took.
    pub const DATA_IN: u8 = 7;
}

/// Offsets of the registers that are written.
pub mod write {
    /// Takes the commands in [`auxiliary`](super::auxiliary).
    pub const AUXILIARY: u8 = 3;
    /// Bit 64 asks for service.
    pub const SERIAL_POLL: u8 = 5;
    /// A byte for the party to send.
    pub const DATA_OUT: u8 = 7;
}

/// Commands for [`write::AUXILIARY`]. Bits 32 and 64 of a command are ignored.
pub mod auxiliary {
    /// Added to a command it sets what the command alone clears: `TON | SET`. [`NBAF`], [`FEOI`], [`GTS`]
    /// and [`TCA`] have nothing to set, and are the same with it.
    pub const SET: u8 = 128;

    /// Software reset. Cleared it does nothing.
    pub const SWRST: u8 = 0;
    /// New byte available false: the byte that the party holds goes.
    pub const NBAF: u8 = 5;
    /// Send EOI with the next byte: the next accepted write to [`DATA_OUT`](super::write::DATA_OUT) has END.
    pub const FEOI: u8 = 8;
    /// Listen only.
    pub const LON: u8 = 9;
    /// Talk only.
    pub const TON: u8 = 10;
    /// Go to standby.
    pub const GTS: u8 = 11;
    /// Take control.
    pub const TCA: u8 = 12;
    /// Send interface clear, for the system party alone. Cleared it does nothing, for any party.
    pub const SIC: u8 = 15;
    /// The second request bit.
    pub const RSV2: u8 = 24;
}
