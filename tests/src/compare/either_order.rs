//! Steps of parties that are no source, in two orders: both leave the same bus, and each party gets the same
//! answers, one after the other. Beside them, the same with a source's step first and last, where the order
//! may count.

use super::subject::{try_orders_by, Orders, Stepped, Subject};
use super::words;
use crate::ledger::tally::{same_steps, OrderCases, Step};
use crate::lists::random_numbers::Random;
use crate::model::{Answer, Bus};

/// In a thousand, the orders in which a party may have several steps, and the most of them.
const SEVERAL: usize = 333;
const MOST_STEPS: usize = 3;

/// Two orders, and what is not alike in them.
#[derive(Clone, PartialEq, Debug)]
pub struct Unlike {
    pub orders: Orders,
    pub what: What,
}

#[derive(Clone, PartialEq, Debug)]
pub enum What {
    /// The buses that one machine's steps leave.
    Buses { whose: &'static str },
    /// One machine's answers to the same step of the party, in the one order and in the other.
    Answers {
        whose: &'static str,
        party: u8,
        answers: [Answer; 2],
    },
    /// The answers to the party in one of the orders.
    AsModel {
        party: u8,
        model: Answer,
        subject: Answer,
    },
    /// Whether both orders leave the same bus.
    Same { model: bool, subject: bool },
}

fn places(order: &[u8]) -> String {
    let places: Vec<String> = order.iter().map(u8::to_string).collect();
    places.join(" ")
}

impl Unlike {
    pub fn words(&self) -> String {
        let [one, other] = &self.orders;
        let what = match &self.what {
            What::Buses { whose } => format!("the {whose} leaves two different buses"),
            What::Answers {
                whose,
                party,
                answers,
            } => {
                let [one, other] = answers.map(|answer| words::answer(&answer));
                format!("the {whose} answers party {party} {one}, and {other}")
            }
            What::AsModel {
                party,
                model,
                subject,
            } => {
                let (model, subject) = (words::answer(model), words::answer(subject));
                format!("party {party}: model {model}, subject {subject}")
            }
            What::Same { model, subject } => {
                format!("the same bus in both: model {model}, subject {subject}")
            }
        };
        format!("steps {}, or {}: {what}", places(one), places(other))
    }
}

/// A list decides what is drawn for it, so that it shows a difference again.
pub fn chance_of(list: &[u8]) -> Random {
    let mixed = list.iter().fold(list.len() as u64, |mixed, &byte| {
        mixed.wrapping_mul(257).wrapping_add(byte.into())
    });
    Random::new(mixed)
}

/// One step or more of each of these, in any order.
fn several(parties: &[u8], random: &mut Random) -> Vec<u8> {
    let steps = parties
        .iter()
        .flat_map(|&party| vec![party; 1 + random.below(MOST_STEPS)]);
    let mut steps: Vec<u8> = steps.collect();
    random.shuffle(&mut steps);
    steps
}

/// Steps of two or more of the parties that are no source, in two orders. None where there are fewer.
pub fn draw(bus: &Bus, random: &mut Random) -> Option<Orders> {
    let mut one = bus.no_sources();
    if one.len() < 2 {
        return None;
    }
    random.shuffle(&mut one);
    let fewer = 2 + random.below(one.len() - 1);
    let count = random.pick(&[2, fewer, one.len(), one.len()]);
    one.truncate(count);
    if random.per_mille(SEVERAL) {
        one = several(&one, random);
    }
    let mut other = one.clone();
    if random.per_mille(500) {
        random.shuffle(&mut other);
    }
    if other == one {
        other.reverse();
    }
    // Backward, 1 2 1 is the same.
    if other == one {
        other.rotate_left(1);
    }
    Some([one, other])
}

/// One machine by itself: both orders leave the same bus, and each party gets the same answers.
pub fn check(whose: &'static str, orders: &Orders, stepped: &Stepped) -> Result<(), What> {
    let [one, other] = &stepped.answers;
    for (place, same) in same_steps(&orders[0], &orders[1], |party| *party) {
        let answers = [one[place], other[same]];
        if answers[0] != answers[1] {
            let party = orders[0][place];
            return Err(What::Answers {
                whose,
                party,
                answers,
            });
        }
    }
    if stepped.same {
        return Ok(());
    }
    Err(What::Buses { whose })
}

/// The subject does in each order as the model does.
fn as_model(orders: &Orders, model: &Stepped, subject: &Stepped) -> Result<(), What> {
    let parties = orders.iter().flatten();
    let answers = model.answers.iter().flatten();
    let answers = answers.zip(subject.answers.iter().flatten());
    let unlike = parties.zip(answers).find(|(_, (one, other))| one != other);
    if let Some((&party, (&model, &subject))) = unlike {
        return Err(What::AsModel {
            party,
            model,
            subject,
        });
    }
    let (model, subject) = (model.same, subject.same);
    if model == subject {
        return Ok(());
    }
    Err(What::Same { model, subject })
}

/// The model's steps in both orders, each with what it found and left.
fn by_model(bus: &Bus, orders: &Orders) -> (Stepped, [Vec<Step>; 2]) {
    let mut steps = Vec::new();
    let stepped = try_orders_by(bus, orders, |bus, party| {
        let (lines, was) = (bus.line_bits(), bus.parties[usize::from(party)]);
        let answer = bus.step(party);
        let is = bus.parties[usize::from(party)];
        steps.push(Step {
            party,
            lines,
            was,
            is,
            answer,
        });
        answer
    });
    let other = steps.split_off(orders[0].len());
    (stepped, [steps, other])
}

/// Steps of parties that are no source, by model and subject.
pub fn try_acceptors(
    subject: &dyn Subject,
    bus: &Bus,
    orders: Orders,
    cases: &mut OrderCases,
) -> Result<(), Unlike> {
    let (model, steps) = by_model(bus, &orders);
    let told = subject.try_orders(&orders);
    let alike = check("model", &orders, &model)
        .and_then(|()| check("subject", &orders, &told))
        .and_then(|()| as_model(&orders, &model, &told));
    alike.map_err(|what| Unlike { orders, what })?;
    cases.enter(bus, &steps);
    Ok(())
}

/// The same steps in one order, after the source's and before it. Nothing where there is no source.
pub fn try_source(
    subject: &dyn Subject,
    bus: &Bus,
    order: &[u8],
    cases: &mut OrderCases,
) -> Result<(), Unlike> {
    let atn = bus.atn();
    let mut parties = bus.present().iter();
    let Some(source) = parties.position(|party| party.is_source(atn)) else {
        return Ok(());
    };
    let source = [source as u8];
    let orders = [[&source, order].concat(), [order, &source].concat()];
    let (model, steps) = by_model(bus, &orders);
    let told = subject.try_orders(&orders);
    let alike = as_model(&orders, &model, &told);
    alike.map_err(|what| Unlike { orders, what })?;
    cases.enter_source(&steps, model.same);
    Ok(())
}
