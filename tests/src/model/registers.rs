//! The chip's registers: accesses by offset, and auxiliary commands by their bits, as document 001's
//! tables 2-1 to 2-3 have them.

use super::{Answer, Bus, Refusal};

/// Offsets of the registers that are carried, RS2 to RS0.
pub const BUS_STATUS: u8 = 0b011;
pub const DATA_IN: u8 = 0b111;
pub const AUXILIARY: u8 = 0b011;
pub const SERIAL_POLL: u8 = 0b101;
pub const DATA_OUT: u8 = 0b111;

/// Auxiliary commands that are carried, f4 to f0.
pub const SWRST: u8 = 0b0_0000;
pub const NBAF: u8 = 0b0_0101;
pub const FEOI: u8 = 0b0_1000;
pub const LON: u8 = 0b0_1001;
pub const TON: u8 = 0b0_1010;
pub const GTS: u8 = 0b0_1011;
pub const TCA: u8 = 0b0_1100;
pub const SIC: u8 = 0b0_1111;
pub const RSV2: u8 = 0b1_1000;

/// The bit of an auxiliary command that clears or sets, cs.
pub const SET: u8 = 0b1000_0000;

/// The bits of an auxiliary command that select it.
const SELECT: u8 = 0b0001_1111;

/// A read or a write of a party's register.
#[derive(Clone, Copy, PartialEq, Eq, Debug)]
pub enum Access {
    Read { party: u8, offset: u8 },
    Write { party: u8, offset: u8, value: u8 },
}

impl Access {
    /// An auxiliary command.
    pub const fn auxiliary(party: u8, value: u8) -> Access {
        Access::Write {
            party,
            offset: AUXILIARY,
            value,
        }
    }

    pub const fn data_out(party: u8, value: u8) -> Access {
        Access::Write {
            party,
            offset: DATA_OUT,
            value,
        }
    }

    pub const fn party(self) -> u8 {
        match self {
            Access::Read { party, .. } | Access::Write { party, .. } => party,
        }
    }
}

impl Bus {
    pub fn access(&mut self, access: Access) -> Answer {
        let place = match self.place(access.party()) {
            Ok(place) => place,
            Err(answer) => return answer,
        };
        let (party, no_register) = (access.party(), Answer::refused(Refusal::NoReg));
        match access {
            Access::Read { offset, .. } => match offset {
                BUS_STATUS => self.lines(),
                DATA_IN => self.read(party),
                _ => no_register,
            },
            Access::Write { offset, value, .. } => match offset {
                AUXILIARY => self.auxiliary(party, value).unwrap_or(no_register),
                SERIAL_POLL => self.poll_register(party, value),
                DATA_OUT => self.data_out(place, value),
                _ => no_register,
            },
        }
    }

    /// None for a command that is not carried.
    fn auxiliary(&mut self, party: u8, value: u8) -> Option<Answer> {
        let switch = value >> 7;
        let set = value & SET != 0;
        let answer = match value & SELECT {
            SWRST if set => self.reset(party),
            SIC if set => self.clear(party),
            SWRST | SIC => Answer::NOTHING,
            NBAF => self.drop_byte(party),
            FEOI => {
                self.parties[usize::from(party)].feoi = true;
                Answer::NOTHING
            }
            LON => self.listen_only(party, switch),
            TON => self.talk_only(party, switch),
            GTS => self.standby(party),
            TCA => self.take_control(party),
            RSV2 => self.second_request(party, switch),
            _ => return None,
        };
        Some(answer)
    }

    /// The byte that is accepted has the END that feoi asked for, and uses the mark up.
    fn data_out(&mut self, place: usize, value: u8) -> Answer {
        let end = u8::from(self.parties[place].feoi);
        let answer = self.write(place as u8, value, end);
        if answer.accepted() {
            self.parties[place].feoi = false;
        }
        answer
    }
}
