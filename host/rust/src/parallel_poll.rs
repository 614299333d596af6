//! The commands that prepare [`Bus::parallel_poll`](crate::Bus::parallel_poll), by the names of IEEE 488.1. The
//! active party sends them like any other: [`PPC`], and then `PPE | SENSE | (line - 1)`, for a line from 1
//! to 8.

/// Parallel poll configure: a listener that hears it takes [`PPE`] and [`PPD`], until another primary
/// command comes.
pub const PPC: u8 = 0x05;
/// Parallel poll unconfigure: everybody's response goes.
pub const PPU: u8 = 0x15;
/// Parallel poll enable: sets the response, with the line minus one added, and [`SENSE`] or not.
pub const PPE: u8 = 0x60;
/// Added to [`PPE`] the line is on for the status 1, and without it for the status 0.
pub const SENSE: u8 = 8;
/// Parallel poll disable: the response goes.
pub const PPD: u8 = 0x70;
