//! A driver for the TMS9914A that knows only the chip's offsets and codes, and two parties that it runs:
//! one sends a message, the other receives it and asks for service. Every access is printed.

use std::cell::RefCell;
use std::process::ExitCode;

use meskvorn::registers::auxiliary::{FEOI, LON, RSV2, SET, SWRST, TON};
use meskvorn::registers::{read, write};
use meskvorn::{Answer, Bus, Line, Refusal};

const TALKER: u8 = 0;
const LISTENER: u8 = 1;
/// Seven for each party end a byte that somebody listens to.
const TURNS: u16 = 14;
const MOST_ROUNDS: usize = 100;

/// A chip is a party. On real hardware this is the address of its registers.
struct Chip<'a> {
    bus: &'a RefCell<Bus>,
    party: u8,
}

fn story(answer: Answer) -> String {
    let word = answer.event.word();
    if answer.refusal != Refusal::Accepted {
        format!("refused with {}", answer.refusal as u8)
    } else if answer.event.has_byte() {
        let end = if answer.end { " END" } else { "" };
        format!("{word} {:02x}{end}", answer.byte)
    } else {
        word.to_string()
    }
}

impl Chip<'_> {
    fn port_in(&self, offset: u8) -> Answer {
        let answer = self.bus.borrow_mut().read_register(self.party, offset);
        println!("party {} in {offset}: {}", self.party, story(answer));
        answer
    }

    fn port_out(&self, offset: u8, value: u8) -> Answer {
        let mut bus = self.bus.borrow_mut();
        let answer = bus.write_register(self.party, offset, value);
        println!(
            "party {} out {offset} {value:02x}: {}",
            self.party,
            story(answer)
        );
        answer
    }

    fn set(&self, command: u8) {
        self.port_out(write::AUXILIARY, command | SET);
    }

    fn clear(&self, command: u8) {
        self.port_out(write::AUXILIARY, command);
    }

    fn initialise(&self) {
        self.set(SWRST);
        self.clear(SWRST);
    }

    /// Writes what the chip takes of the text, the last byte with END, and gives what is left.
    fn send<'t>(&self, mut text: &'t [u8]) -> &'t [u8] {
        while let [byte, rest @ ..] = text {
            if rest.is_empty() {
                self.clear(FEOI);
            }
            if self.port_out(write::DATA_OUT, *byte).refusal != Refusal::Accepted {
                break;
            }
            text = rest;
        }
        text
    }

    /// Reads what the chip has, and says whether the last byte had END.
    fn receive(&self, text: &mut Vec<u8>) -> bool {
        loop {
            let answer = self.port_in(read::DATA_IN);
            if answer.refusal != Refusal::Accepted {
                return false;
            }
            text.push(answer.byte);
            if answer.end {
                return true;
            }
        }
    }

    fn service_is_asked_for(&self) -> bool {
        self.port_in(read::BUS_STATUS).byte & Line::Srq.bit() != 0
    }
}

/// The chips move by the turns that they are given; on real hardware time passes by itself.
fn transfer(talker: &Chip, listener: &Chip, message: &str) -> bool {
    let (mut left, mut text) = (message.as_bytes(), Vec::new());
    for _ in 0..MOST_ROUNDS {
        left = talker.send(left);
        talker.bus.borrow_mut().give_turns(TURNS);
        if listener.receive(&mut text) {
            println!("received: {}", String::from_utf8_lossy(&text));
            return true;
        }
    }
    println!("no END came");
    false
}

fn main() -> ExitCode {
    let bus = RefCell::new(Bus::build(&[5, 6], TALKER).0);
    let [talker, listener] = [TALKER, LISTENER].map(|party| Chip { bus: &bus, party });
    talker.initialise();
    listener.initialise();
    talker.set(TON);
    listener.set(LON);
    if talker.service_is_asked_for() || !transfer(&talker, &listener, "GPIB") {
        return ExitCode::FAILURE;
    }
    listener.set(RSV2);
    let asked = talker.service_is_asked_for();
    println!(
        "service is {}",
        if asked { "asked for" } else { "not asked for" }
    );
    if asked {
        ExitCode::SUCCESS
    } else {
        ExitCode::FAILURE
    }
}
