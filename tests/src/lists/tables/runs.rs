//! Runs, table by table: racks numbered in every way, and turns about every bound.

use super::racks::{Rack, RACKS};
use crate::compare::{Comparison, Finding};
use crate::ledger::bound::TURNS_A_PARTY;
use crate::lists::all_orders::all_orders;
use crate::lists::composer::Composer;
use crate::lists::guided::Guided;
use crate::model::script::{LISTEN, TALK, WRITE};
use crate::model::{Name, MOST_PARTIES};

type Done = Result<(), Finding>;

const CALLS_AFTER: usize = 12;

/// Names that are renumbered: without secondaries, at one primary, and of both sorts.
const SORTS: [[Name; 4]; 3] = [
    [
        Name::plain(3),
        Name::plain(4),
        Name::plain(19),
        Name::plain(30),
    ],
    [
        Name::extended(9, 0),
        Name::extended(9, 1),
        Name::extended(9, 12),
        Name::extended(9, 30),
    ],
    [
        Name::extended(5, 9),
        Name::extended(5, 2),
        Name::plain(4),
        Name::extended(7, 0),
    ],
];

/// On a rack just built: the last party has a byte for all others; then a run, which shows in how far
/// each party is, and calls of all sorts after it.
fn one_run(
    comparison: &mut Comparison,
    guided: &mut Guided,
    mut composer: Composer,
    turns: u16,
) -> Done {
    let talker = composer.bus.count.saturating_sub(1) as u8;
    composer.call(TALK, talker, 1, 0);
    for party in 0..talker {
        composer.call(LISTEN, party, 1, 0);
    }
    composer.call(WRITE, talker, 0x41, 1);
    composer.run(turns);
    comparison.list(guided.go_on(&composer.records, CALLS_AFTER))
}

fn built(rack: Rack, count: u8) -> Composer {
    let mut composer = Composer::new();
    rack(&mut composer, count);
    composer
}

/// Every number of parties with numbers of turns about their bounds; the most turns for some.
fn every_number(comparison: &mut Comparison, guided: &mut Guided) -> Done {
    for rack in RACKS {
        for count in 0..=MOST_PARTIES as u8 {
            let parties = u16::from(count);
            let rounds = (0..8).flat_map(|round| round * parties..round * parties + 2);
            for turns in rounds.chain([255, 256, 257, 1000]) {
                one_run(comparison, guided, built(rack, count), turns)?;
            }
        }
    }
    let [rising, .., mixed_falling] = RACKS;
    for (rack, count) in [(rising, 0), (rising, 2), (rising, 15), (mixed_falling, 15)] {
        one_run(comparison, guided, built(rack, count), u16::MAX)?;
    }
    Ok(())
}

/// Two to four parties numbered in every order, with every number of turns up to two rounds.
fn every_order(comparison: &mut Comparison, guided: &mut Guided) -> Done {
    for names in SORTS {
        for count in 2..=names.len() {
            let round = count as u16;
            for order in all_orders(&names[..count]) {
                let mut composer = Composer::new();
                composer.build(&order, 0);
                for turns in (1..=2 * round).chain([TURNS_A_PARTY * round]) {
                    one_run(comparison, guided, composer.clone(), turns)?;
                }
            }
        }
    }
    Ok(())
}

pub fn run(comparison: &mut Comparison, seed: u64) -> Done {
    let mut guided = Guided::new(seed);
    every_order(comparison, &mut guided)?;
    every_number(comparison, &mut guided)
}

#[cfg(test)]
mod tests {
    use super::*;

    #[test]
    fn all_orders_of_four_names() {
        for names in SORTS {
            let mut all = all_orders(&names);
            assert_eq!(all.len(), 24);
            all.sort_by_key(|order| order.iter().map(|n| n.by_address()).collect::<Vec<_>>());
            all.dedup();
            assert_eq!(all.len(), 24);
        }
    }
}
