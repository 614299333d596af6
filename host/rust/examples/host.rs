//! A host: it builds a bus of two parties, gives them their turns one after the other, and reads with
//! one what the other wrote.

use std::process::ExitCode;

use meskvorn::{Answer, Bus, Event, Refusal};

const TALKER: u8 = 0;
const LISTENER: u8 = 1;
const PARTIES: u8 = 2;
const MOST_TURNS: usize = 100;

fn print(what: &str, answer: Answer) -> Result<Event, String> {
    if answer.refusal != Refusal::Accepted {
        return Err(format!("{what}: refused with {}", answer.refusal as u8));
    }
    print!("{what}: {}", answer.event.word());
    if answer.event.has_byte() {
        print!(
            " {:02x}{}",
            answer.byte,
            if answer.end { " END" } else { "" }
        );
    }
    println!();
    Ok(answer.event)
}

fn send_a_byte() -> Result<(), String> {
    let (mut bus, answer) = Bus::build(&[5, 6], TALKER);
    print("build", answer)?;
    print("party 0 talks", bus.talk_only(TALKER, true))?;
    print("party 1 listens", bus.listen_only(LISTENER, true))?;
    print("write for party 0", bus.write(TALKER, 0x41, true))?;
    for party in (0..PARTIES).cycle().take(MOST_TURNS) {
        let event = print(&format!("turn of party {party}"), bus.step(party))?;
        if event == Event::Ended {
            print("read for party 1", bus.read(LISTENER))?;
            return Ok(());
        }
    }
    Err("the byte did not end".to_string())
}

fn main() -> ExitCode {
    match send_a_byte() {
        Ok(()) => ExitCode::SUCCESS,
        Err(story) => {
            println!("{story}");
            ExitCode::FAILURE
        }
    }
}
