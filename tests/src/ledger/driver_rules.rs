//! What the drivers told of a bus have to be, whatever led to it.

use super::{demand, Check};
use crate::model::{Drivers, Line};

/// Drivers of a bus of so many parties, beside its lines answer.
pub(super) fn check(drivers: &Drivers, lines: u8, parties: usize) -> Check {
    for line in Line::ALL {
        let (mask, count) = (drivers.mask(line), drivers.count(line));
        let on = lines & line.bit() != 0;
        demand(mask >> parties == 0, "a driver is no party")?;
        demand(
            on == (mask != 0),
            "a line is on without a driver, or off with one",
        )?;
        demand(
            count == mask.count_ones(),
            "a line's count is not that of its mask's ones",
        )?;
    }
    demand(drivers.count(Line::Atn) <= 1, "two parties drive ATN")?;
    demand(drivers.count(Line::Dav) <= 1, "two parties drive DAV")?;
    demand(drivers.count(Line::Eoi) <= 1, "two parties drive EOI")?;
    let by_sender = drivers.mask(Line::Eoi) & !drivers.mask(Line::Dav) == 0;
    demand(by_sender, "EOI is driven by a party that does not send")
}
