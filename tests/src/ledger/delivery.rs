//! Demand 3, checked call by call over a whole list with books of its own.
//! It reads the calls, the answers and the party states, and uses none of the machine's rules.

use super::{demand, driver_rules, Check};
use crate::model::script::{Record, BUILD, LISTEN, RESET, STEP, WRITE};
use crate::model::{Acceptor, Answer, Bus, Data, Drivers, Event, Refusal, Source, MOST_PARTIES};

/// A byte that was put up and still stands. Parties are bits of the masks.
#[derive(Clone, Copy, Debug)]
struct Entry {
    number: u64,
    sender: usize,
    value: u8,
    end: bool,
    ready: u16,
    left: u16,
    taken: u16,
}

#[derive(Clone, Copy, Default, Debug)]
struct Sums {
    accepted: u64,
    puts: u64,
    status: u64,
    ended: u64,
    broken: u64,
    dropped: u64,
}

#[derive(Clone, Debug, Default)]
pub struct Ledger {
    sums: Sums,
    standing: Option<Entry>,
    /// The number of the byte each party took last; the first byte has number 1.
    last_taken: [u64; MOST_PARTIES],
}

fn mask_of(bus: &Bus, wanted: Acceptor) -> u16 {
    let parties = bus.present().iter().enumerate();
    parties.fold(0, |mask, (place, party)| {
        mask | u16::from(party.acceptor == wanted) << place
    })
}

fn bit(place: usize) -> u16 {
    1 << place
}

impl Ledger {
    pub fn new() -> Ledger {
        Ledger::default()
    }

    /// Enters one call. The error says which part of demand 3 the machine breaks.
    pub fn enter(&mut self, before: &Bus, call: Record, answer: &Answer, after: &Bus) -> Check {
        if call[2] == BUILD && answer.refusal != Refusal::Record {
            *self = Ledger::new();
            return self.check_bus(after);
        }
        if !answer.accepted() {
            let bare = *answer == Answer::refused(answer.refusal);
            demand(bare, "a refusal tells more than its number")?;
            return demand(before == after, "a refused call changed the bus");
        }
        self.enter_takings(before, call, answer, after)?;
        self.enter_leaving(call);
        self.enter_put(before, call, answer)?;
        self.enter_end(answer)?;
        self.enter_counts(call, answer)?;
        self.check_bus(after)
    }

    /// What a call for drivers told and left; `lines` is the lines answer of the bus that it found.
    pub fn check_drivers(&self, before: &Bus, told: &Drivers, lines: u8, after: &Bus) -> Check {
        let bare = told.answer == Answer::NOTHING;
        demand(bare, "a call for drivers tells more than them")?;
        demand(before == after, "a call for drivers changed the bus")?;
        driver_rules::check(told, lines, before.count)
    }

    /// A party takes by its own step from ACRS to ACDS, and in no other way.
    fn enter_takings(&mut self, before: &Bus, call: Record, answer: &Answer, after: &Bus) -> Check {
        let entered = mask_of(before, Acceptor::Acrs) & mask_of(after, Acceptor::Acds);
        if !answer.event.is_taking() {
            demand(entered == 0, "ACRS to ACDS without a taking event")?;
            return self.check_data_in(before, after, None);
        }
        let place = usize::from(call[3]);
        let by_step = call[2] == STEP && entered == bit(place);
        demand(by_step, "a taking event without its step")?;
        self.enter_taking(place, answer)?;
        if answer.event != Event::Took {
            return self.check_data_in(before, after, None);
        }
        let taken = Some(Data {
            value: answer.byte,
            end: answer.end,
        });
        let filled = after.parties[place].data_in == taken;
        demand(filled, "data-in is not the byte taken")?;
        self.check_data_in(before, after, Some(place))
    }

    /// The party was ready, had not taken this byte, and gets it as it was put up.
    fn enter_taking(&mut self, place: usize, answer: &Answer) -> Check {
        let Some(entry) = &mut self.standing else {
            return Err("a byte was taken while none stood");
        };
        let ready = entry.ready & bit(place) != 0;
        demand(ready, "a byte was taken by a party that was not ready")?;
        let first = entry.taken & bit(place) == 0;
        demand(first, "a byte was taken twice by one party")?;
        let value = entry.value == answer.byte;
        demand(value, "the value taken is not the value put up")?;
        let end = entry.end == answer.end;
        demand(end, "the END taken is not the END put up")?;
        let in_order = entry.number > self.last_taken[place];
        demand(in_order, "bytes were taken out of order")?;
        entry.taken |= bit(place);
        self.last_taken[place] = entry.number;
        Ok(())
    }

    /// Data-in changes only by emptying, but for the party that took.
    fn check_data_in(&self, before: &Bus, after: &Bus, taker: Option<usize>) -> Check {
        for place in (0..after.count).filter(|&place| taker != Some(place)) {
            let now = after.parties[place].data_in;
            let kept = now.is_none() || now == before.parties[place].data_in;
            demand(kept, "data-in was filled without a taking")?;
        }
        Ok(())
    }

    fn enter_leaving(&mut self, call: Record) {
        let leaves = call[2] == RESET || (call[2] == LISTEN && call[4] == 0);
        if let (true, Some(entry)) = (leaves, &mut self.standing) {
            entry.left |= bit(usize::from(call[3]));
        }
    }

    fn enter_put(&mut self, before: &Bus, call: Record, answer: &Answer) -> Check {
        if !answer.event.is_put() {
            return Ok(());
        }
        demand(call[2] == STEP, "a byte was put up without a step")?;
        let free = self.standing.is_none();
        demand(free, "a byte was put up while another stood")?;
        self.sums.puts += 1;
        self.sums.status += u64::from(answer.event == Event::Stat);
        self.standing = Some(Entry {
            number: self.sums.puts,
            sender: usize::from(call[3]),
            value: answer.byte,
            end: answer.end,
            ready: mask_of(before, Acceptor::Acrs),
            left: 0,
            taken: 0,
        });
        Ok(())
    }

    fn enter_end(&mut self, answer: &Answer) -> Check {
        if answer.event.is_end() {
            let Some(entry) = self.standing.take() else {
                return Err("a byte ended while none stood");
            };
            let missed = entry.ready & !entry.left & !entry.taken;
            demand(missed == 0, "a byte ended that a ready party had not taken")?;
            let same = (entry.value, entry.end) == (answer.byte, answer.end);
            demand(same, "the byte ended is not the byte put up")?;
            self.sums.ended += 1;
        }
        if answer.broken > 0 {
            let stood = self.standing.take().is_some();
            demand(stood, "a byte was broken off while none stood")?;
        }
        Ok(())
    }

    fn enter_counts(&mut self, call: Record, answer: &Answer) -> Check {
        demand(answer.broken <= 1, "broken is over 1")?;
        demand(answer.dropped <= 2, "dropped is over 2")?;
        self.sums.accepted += u64::from(call[2] == WRITE);
        self.sums.broken += u64::from(answer.broken);
        self.sums.dropped += u64::from(answer.dropped);
        Ok(())
    }

    /// Drivers, the standing byte, and the two sums.
    fn check_bus(&self, bus: &Bus) -> Check {
        let (mut dav, mut atn, mut held) = (0, 0, 0);
        for party in bus.present() {
            dav += u64::from(party.source == Source::Strs);
            atn += u64::from(party.is_active());
            held += u64::from(party.held.is_some());
        }
        demand(dav <= 1, "two parties drive DAV")?;
        demand(atn <= 1, "two parties drive ATN")?;
        let standing = u64::from(bus.standing.is_some());
        let agree = dav == standing;
        demand(agree, "DAV and the standing byte do not go together")?;
        if let (Some(entry), Some(byte)) = (&self.standing, &bus.standing) {
            let same =
                (entry.sender, entry.value, entry.end) == (byte.sender, byte.value, byte.end);
            demand(same, "the standing byte is not the one put up last")?;
            let drives = bus.parties[entry.sender].source == Source::Strs;
            demand(drives, "the standing byte's sender does not drive DAV")?;
        }
        let sums = &self.sums;
        let puts = sums.puts == sums.ended + sums.broken + standing;
        demand(puts, "puts are not ended + broken off + standing")?;
        let accepted = sums.accepted == sums.puts - sums.status + sums.dropped + held;
        demand(accepted, "accepted writes are not puts + dropped + held")?;
        driver_rules::check(&bus.drivers_now(), bus.line_bits(), bus.count)
    }
}
