//! Every order of any parties that are no source, on every kind of state.

use super::all_orders::all_orders;
use super::pieces;
use crate::compare::either_order::try_acceptors;
use crate::compare::subject::{enter_list, Orders};
use crate::compare::{Comparison, Difference, Finding};
use crate::model::script::Record;

/// Two or more of these, in the order given and in each other.
fn pairs_of_orders(parties: &[u8]) -> Vec<Orders> {
    let mut all = Vec::new();
    for mask in 0..1 << parties.len() {
        let places = (0..parties.len()).filter(|place| mask >> place & 1 == 1);
        let some: Vec<u8> = places.map(|place| parties[place]).collect();
        let others = all_orders(&some).into_iter().skip(1);
        all.extend(others.map(|other| [some.clone(), other]));
    }
    all
}

/// On the state that each of the prefixes leads to.
pub fn run(comparison: &mut Comparison, prefixes: &[Vec<Record>]) -> Result<(), Finding> {
    for prefix in prefixes {
        let list = prefix.concat();
        enter_list(comparison.subject, &list);
        let bus = pieces::bus_after(&list);
        for orders in pairs_of_orders(&bus.no_sources()) {
            let cases = &mut comparison.tally.orders;
            if let Err(unlike) = try_acceptors(comparison.subject, &bus, orders, cases) {
                comparison.list(&list)?;
                let number = prefix.len();
                let difference = Difference::Orders { number, unlike };
                return Err(Finding { list, difference });
            }
        }
    }
    Ok(())
}

#[cfg(test)]
mod tests {
    use super::*;

    #[test]
    fn pairs_and_threes_in_every_other_order() {
        assert!(pairs_of_orders(&[1]).is_empty());
        let pairs = [[vec![0, 2], vec![2, 0]]];
        assert_eq!(pairs_of_orders(&[0, 2]), pairs);
        // Three pairs, and five orders of all beside the first.
        assert_eq!(pairs_of_orders(&[0, 1, 2]).len(), 8);
    }
}
