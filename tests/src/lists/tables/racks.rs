//! Racks of so many parties, by how these are numbered.

use crate::lists::composer::Composer;
use crate::model::script::BUILD;
use crate::model::{Name, MOST_ADDRESS};

/// Builds so many parties.
pub type Rack = fn(&mut Composer, u8);

pub const RACKS: [Rack; 5] = [rising, falling, shuffled, mixed, mixed_falling];

/// By a record, so that the list stands for a script.
fn rising(composer: &mut Composer, count: u8) {
    composer.call(BUILD, 0, count, 3);
}

fn named(composer: &mut Composer, count: u8, name: fn(u8) -> Name) {
    let names: Vec<Name> = (0..count).map(name).collect();
    composer.build(&names, 0);
}

fn falling(composer: &mut Composer, count: u8) {
    named(composer, count, |place| Name::plain(MOST_ADDRESS - place));
}

/// 3, 10, 17, 24, 0, 7 ..
fn shuffled(composer: &mut Composer, count: u8) {
    named(composer, count, |place| {
        Name::plain((3 + 7 * place) % (MOST_ADDRESS + 1))
    });
}

/// Every third party without a secondary, the others at one primary.
fn mixed(composer: &mut Composer, count: u8) {
    named(composer, count, |place| match place % 3 {
        0 => Name::plain(place),
        _ => Name::extended(20, place),
    });
}

/// Every third party without a secondary, and between these two at one primary: 30, 29/29, 29/28, 27 ..
fn mixed_falling(composer: &mut Composer, count: u8) {
    named(composer, count, |place| match place % 3 {
        0 => Name::plain(MOST_ADDRESS - place),
        second => Name::extended(MOST_ADDRESS - 1 - place + second, MOST_ADDRESS - place),
    });
}

#[cfg(test)]
mod tests {
    use super::*;

    fn names_of(rack: Rack, count: u8) -> Vec<Name> {
        let mut composer = Composer::new();
        rack(&mut composer, count);
        composer.bus.names()
    }

    #[test]
    fn names_by_place() {
        let (plain, extended) = (Name::plain, Name::extended);
        assert_eq!(names_of(rising, 3), [3, 4, 5].map(plain));
        assert_eq!(names_of(falling, 3), [30, 29, 28].map(plain));
        assert_eq!(names_of(shuffled, 6), [3, 10, 17, 24, 0, 7].map(plain));
        let between = [plain(0), extended(20, 1), extended(20, 2), plain(3)];
        assert_eq!(names_of(mixed, 4), between);
        let falls = [plain(30), extended(29, 29), extended(29, 28), plain(27)];
        assert_eq!(names_of(mixed_falling, 4), falls);
    }

    #[test]
    fn each_rack_has_up_to_fifteen_parties() {
        for rack in RACKS {
            for count in 1..=15 {
                assert_eq!(names_of(rack, count).len(), usize::from(count));
            }
        }
    }
}
