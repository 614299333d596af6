//! Builds from lists in any order, without secondaries and with some, calls by number, and runs, drivers,
//! accesses, own statuses and parallel polls on such buses: no record can ask for these.

use super::subject::{self, Subject};
use super::words;
use crate::ledger::tally::Lengths;
use crate::lists::command_codes::{self, LISTEN_ADDRESS, PPC, PPE};
use crate::lists::likely_accesses::any_access;
use crate::lists::likely_arguments::likely_turns;
use crate::lists::likely_poll_calls::any_poll_call;
use crate::lists::pieces;
use crate::lists::random_numbers::Random;
use crate::lists::random_racks;
use crate::model::script::{
    self, Call, Record, BUILD, CLEAR, LAST_OPERATION, LINES, STEP, TALK, WRITE,
};
use crate::model::{Access, Answer, Bus, Lists, Name, PollCall, MOST_PARTIES};

const LISTS: usize = 20_000;
const CALLS_AFTER: usize = 30;

/// Rounds of turns within which a command ends.
const ROUNDS_A_COMMAND: usize = 5;

/// What was compared.
#[derive(Default, Debug)]
pub struct Compared {
    /// Builds from addresses alone, accepted and refused.
    pub plain: [u64; 2],
    /// Builds with a list of secondaries, be it empty.
    pub lengths: Lengths,
    pub calls: u64,
    pub runs: u64,
}

impl Compared {
    pub fn print(&self) {
        let ([plain, refused], runs) = (self.plain, self.runs);
        println!("address lists: {plain} accepted, {refused} refused; {runs} runs");
        self.lengths.print();
    }
}

type Done = Result<(), String>;

/// Model and subject on one bus, with what led to it.
struct Pair<'a> {
    subject: &'a mut dyn Subject,
    bus: Bus,
    built: (Lists, u8),
    calls: Vec<Record>,
    compared: Compared,
}

impl Pair<'_> {
    fn agree(&mut self, model: Answer, subject: Answer) -> Done {
        self.compared.calls += 1;
        if subject == model {
            return Ok(());
        }
        self.differ(words::answer(&model), words::answer(&subject))
    }

    fn differ(&self, model: String, subject: String) -> Done {
        let (lists, system) = &self.built;
        let mut story = format!("build {}, system party {system}", words::lists(lists));
        for call in &self.calls {
            story += &format!("\n{}", words::piece(call));
        }
        Err(format!("{story}: model {model}, subject {subject}"))
    }

    fn build(&mut self, addresses: &[u8], system: u8) -> Done {
        let model = self.bus.build(addresses, system);
        let subject = self.subject.build(addresses, system);
        self.built = (Lists::plain(addresses), system);
        self.compared.plain[usize::from(!model.accepted())] += 1;
        self.agree_on_build(model, subject)
    }

    fn build_extended(&mut self, lists: &Lists, system: u8) -> Done {
        let model = self.bus.build_extended(lists, system);
        let subject = self.subject.build_extended(lists, system);
        self.built = (lists.clone(), system);
        self.compared.lengths.enter(lists, system);
        self.agree_on_build(model, subject)
    }

    fn agree_on_build(&mut self, model: Answer, subject: Answer) -> Done {
        self.calls.clear();
        self.agree(model, subject)?;
        match subject::other_name(&self.bus, self.subject) {
            None => Ok(()),
            Some((party, model, subject)) => self.differ(
                format!("calls party {party} {model:?}"),
                format!("{subject:?}"),
            ),
        }
    }

    fn call(&mut self, call: Call) -> Done {
        let [operation, party, value, extra] = call;
        let record = script::record(operation, party, value, extra);
        self.calls.push(record);
        let model = script::call(&mut self.bus, call);
        let subject = self.subject.call(call);
        self.agree(model, subject)
    }

    fn run(&mut self, turns: u16) -> Done {
        self.calls.push(pieces::run(turns));
        let model = self.bus.give_turns(turns);
        let subject = self.subject.give_turns(turns);
        self.compared.runs += 1;
        if subject == model {
            return Ok(());
        }
        self.differ(format!("{model:?}"), format!("{subject:?}"))
    }

    fn access(&mut self, access: Access) -> Done {
        self.calls.push(pieces::access(access));
        let model = self.bus.access(access);
        let subject = self.subject.access(access);
        self.agree(model, subject)
    }

    fn poll_call(&mut self, call: PollCall) -> Done {
        self.calls.push(pieces::poll_call(call));
        let model = self.bus.poll_call(call);
        let subject = self.subject.poll_call(call);
        self.agree(model, subject)
    }

    fn drivers(&mut self) -> Done {
        self.calls.push(pieces::DRIVERS);
        let model = self.bus.drivers();
        let subject = self.subject.drivers();
        self.agree(model.answer, subject.answer)?;
        if subject == model {
            return Ok(());
        }
        self.differ(words::drivers(&model), words::drivers(&subject))
    }

    /// The system party makes one party listen. Talk-only then tells who does: it is refused with 4
    /// to a listener, and with 5 to all others. And it gives it a response, which a poll tells.
    fn address_one(&mut self, random: &mut Random) -> Done {
        let system = self.built.1;
        let name = self.bus.parties[random.below(self.bus.count)].name;
        self.call([CLEAR, system, 0, 0])?;
        for command in command_codes::addressing(LISTEN_ADDRESS, name) {
            self.command(command)?;
        }
        self.every_party(TALK, 1)?;
        self.command(PPC)?;
        self.command(PPE + random.below(16) as u8)?;
        self.poll_call(PollCall::Poll { party: system })
    }

    /// The system party sends it to its end.
    fn command(&mut self, command: u8) -> Done {
        self.call([WRITE, self.built.1, command, 0])?;
        for _ in 0..ROUNDS_A_COMMAND {
            self.every_party(STEP, 0)?;
        }
        Ok(())
    }

    fn every_party(&mut self, operation: u8, value: u8) -> Done {
        for party in 0..self.bus.count as u8 {
            self.call([operation, party, value, 0])?;
        }
        Ok(())
    }

    fn any_calls(&mut self, random: &mut Random) -> Done {
        for _ in 0..CALLS_AFTER {
            let known = 1 + random.below(usize::from(LAST_OPERATION)) as u8;
            let operation = if random.per_mille(900) {
                known
            } else {
                random.byte()
            };
            self.call([
                operation,
                random.field(16),
                random.field(2),
                random.field(2),
            ])?;
            if random.per_mille(200) {
                self.access(any_access(random))?;
            }
            if random.per_mille(200) {
                self.poll_call(any_poll_call(random))?;
            }
        }
        Ok(())
    }

    /// Every number of parties with every system party, at falling addresses and at one address.
    fn every_system_party(&mut self) -> Done {
        for count in 0..=MOST_PARTIES as u8 + 2 {
            let addresses: Vec<u8> = (0..count).map(|place| 30 - place).collect();
            let names: Vec<Name> = (0..count).map(|place| Name::extended(9, place)).collect();
            for system in (0..=count + 1).chain([255]) {
                self.build(&addresses, system)?;
                self.clear_by_each(count)?;
                self.build_extended(&Lists::of(&names), system)?;
                self.clear_by_each(count)?;
            }
        }
        Ok(())
    }

    /// Every number of parties with every number of secondaries, good ones and none.
    fn every_two_lengths(&mut self) -> Done {
        for count in 0..=MOST_PARTIES as u8 + 2 {
            let addresses: Vec<u8> = (0..count).map(|place| 30 - place).collect();
            for given in (0..=count + 3).chain([u8::MAX]) {
                let good: Vec<Option<u8>> = (0..given).map(|place| Some(place % 31)).collect();
                for secondaries in [good, vec![None; usize::from(given)]] {
                    let addresses = addresses.clone();
                    let lists = Lists {
                        addresses,
                        secondaries,
                    };
                    self.build_extended(&lists, 0)?;
                    self.clear_by_each(count)?;
                }
            }
        }
        Ok(())
    }

    fn clear_by_each(&mut self, count: u8) -> Done {
        for party in 0..=count {
            self.call([CLEAR, party, 0, 0])?;
        }
        self.call([LINES, 0, 0, 0])?;
        self.drivers()
    }

    /// Every two names of these, in both orders.
    fn every_two_names(&mut self) -> Done {
        let secondaries = [
            None,
            Some(0),
            Some(12),
            Some(30),
            Some(31),
            Some(254),
            Some(255),
        ];
        let primaries = [0, 12, 30, 31, 255];
        let with = |primary| secondaries.map(|secondary| Name { primary, secondary });
        let names: Vec<Name> = primaries.into_iter().flat_map(with).collect();
        for one in &names {
            for two in &names {
                for system in 0..3 {
                    self.build_extended(&Lists::of(&[*one, *two]), system)?;
                    self.call([CLEAR, system, 0, 0])?;
                }
            }
        }
        Ok(())
    }

    /// Build's own number is no operation here.
    fn every_operation(&mut self) -> Done {
        for operation in 0..=255 {
            self.build(&[9, 30, 0], 1)?;
            for party in [0, 1, 3, 255] {
                for value in 0..3 {
                    self.call([operation, party, value, value])?;
                    self.call([LINES, 0, 0, 0])?;
                }
            }
        }
        Ok(())
    }

    fn any_lists(&mut self, random: &mut Random) -> Done {
        for _ in 0..LISTS {
            if random.per_mille(500) {
                let (lists, system) = two_lists(random);
                self.build_extended(&lists, system)?;
            } else {
                let addresses = address_list(random);
                self.build(&addresses, random.field(addresses.len() + 2))?;
            }
            if self.bus.count > 0 {
                self.address_one(random)?;
            }
            self.run(likely_turns(&self.bus, random))?;
            self.drivers()?;
            self.any_calls(random)?;
            self.drivers()?;
        }
        Ok(())
    }
}

/// Distinct addresses in an order of chance, then often one defect.
fn address_list(random: &mut Random) -> Vec<u8> {
    let count = random.below(18);
    let mut addresses = random_racks::addresses(count, random);
    if !addresses.is_empty() {
        let place = random.below(addresses.len());
        match random.below(6) {
            0 => addresses[place] = 31,
            1 => addresses[place] = random.byte(),
            2 => addresses[place] = addresses[random.below(addresses.len())],
            _ => {}
        }
    }
    addresses
}

/// Lists for a rack of both sorts, often with one defect, and mostly one of its parties.
fn two_lists(random: &mut Random) -> (Lists, u8) {
    let count = random.below(18);
    let lists = if random.per_mille(600) {
        random_racks::spoiled(count, random)
    } else {
        random_racks::lists(count, random)
    };
    let (own, any) = (random.below(count.max(1)) as u8, random.field(count + 2));
    (lists, random.pick(&[own, own, own, any]))
}

/// The error tells the build and the calls that lead to a difference.
pub fn run(subject: &mut dyn Subject, seed: u64) -> Result<Compared, String> {
    subject.start();
    let mut pair = Pair {
        subject,
        bus: Bus::new(),
        built: (Lists::default(), 0),
        calls: Vec::new(),
        compared: Compared::default(),
    };
    pair.every_system_party()?;
    pair.every_two_lengths()?;
    pair.every_two_names()?;
    pair.every_operation()?;
    pair.any_lists(&mut Random::new(seed ^ u64::from(BUILD)))?;
    Ok(pair.compared)
}
