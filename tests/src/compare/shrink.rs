//! Makes a list that shows a difference as short as it gets.

use super::subject::Subject;
use super::{compare, Difference, Finding};
use crate::ledger::tally::Tally;
use crate::lists::pieces::Piece;
use crate::model::registers::DATA_OUT;
use crate::model::script::{BUILD, LINES, RECORD, WRITE};
use crate::model::Access;

/// The places of the addresses and of the secondaries that stand right before the build at `at`.
fn entries(pieces: &[Vec<u8>], at: usize) -> [Vec<usize>; 2] {
    let mut places = [Vec::new(), Vec::new()];
    for place in (0..at).rev() {
        match Piece::of(&pieces[place]) {
            Piece::Address(_) => places[0].insert(0, place),
            Piece::Secondary(_) => places[1].insert(0, place),
            _ => break,
        }
    }
    places
}

/// How many parties the piece at this place builds, if it is a build.
fn parties_built(pieces: &[Vec<u8>], at: usize) -> Option<usize> {
    match Piece::of(&pieces[at]) {
        Piece::Record([_, _, BUILD, _, count, _]) => Some(count.into()),
        Piece::Build(..) => Some(entries(pieces, at)[0].len()),
        _ => None,
    }
}

/// The places of builds.
fn builds(pieces: &[Vec<u8>]) -> Vec<usize> {
    let places = 0..pieces.len();
    places
        .filter(|&at| parties_built(pieces, at).is_some())
        .collect()
}

/// A call as it is once party `gone` is not built; None if it was a call of that party.
/// Addresses above `moved` move down by one in commands.
fn renumbered(piece: &[u8], gone: u8, moved: u8) -> Option<Vec<u8>> {
    let mut piece = piece.to_vec();
    // Where a byte for the party to send stands, if there is one.
    let byte = match Piece::of(&piece) {
        Piece::Record([_, _, LINES, ..]) => return Some(piece),
        Piece::Record([_, _, WRITE, ..]) => Some(4),
        Piece::Access(Access::Write { offset, .. }) if offset == DATA_OUT => Some(5),
        Piece::Record(_) | Piece::Access(_) | Piece::PollCall(_) => None,
        _ => return Some(piece),
    };
    if piece[3] == gone {
        return None;
    }
    piece[3] -= u8::from(piece[3] > gone);
    if let Some(own) = byte.map(|at| &mut piece[at]) {
        let is_address = matches!(*own & 0x7F, 0x20..=0x3E | 0x40..=0x5E);
        *own -= u8::from(is_address && *own & 0x1F > moved);
    }
    Some(piece)
}

/// The list without party `gone` of the build at `at`, up to the next build.
fn without_party(pieces: &[Vec<u8>], at: usize, gone: u8) -> Vec<Vec<u8>> {
    let (mut fewer, mut build) = (pieces[..at].to_vec(), pieces[at].clone());
    build[3] -= u8::from(build[3] > gone);
    let moved = if matches!(Piece::of(&build), Piece::Build(..)) {
        let own = entries(pieces, at).map(|places| places.get(usize::from(gone)).copied());
        // Its secondary, if it has one, stands after its address.
        for place in own.into_iter().flatten().rev() {
            fewer.remove(place);
        }
        u8::MAX
    } else {
        build[4] -= 1;
        build[5].saturating_add(gone)
    };
    let after = &pieces[at + 1..];
    let next = *builds(after).first().unwrap_or(&after.len());
    let calls = after[..next]
        .iter()
        .filter_map(|piece| renumbered(piece, gone, moved));
    fewer.push(build);
    fewer.extend(calls);
    fewer.extend_from_slice(&after[next..]);
    fewer
}

struct Shrinker<'a> {
    subject: &'a mut dyn Subject,
    pieces: Vec<Vec<u8>>,
    difference: Difference,
    calls_alone: bool,
}

impl Shrinker<'_> {
    /// Keeps the pieces if they still show a difference, of whatever sort.
    fn try_pieces(&mut self, pieces: Vec<Vec<u8>>) -> bool {
        let mut tally = Tally {
            calls_alone: self.calls_alone,
            ..Tally::default()
        };
        match compare(self.subject, &pieces.concat(), &mut tally) {
            Ok(()) => false,
            Err(difference) => {
                self.pieces = pieces;
                self.difference = difference;
                true
            }
        }
    }

    fn cut_after_difference(&mut self) {
        if let Some(last) = self.difference.last_piece() {
            let pieces = self.pieces[..last.min(self.pieces.len())].to_vec();
            self.try_pieces(pieces);
        }
    }

    /// Leaves out runs of `size` pieces; true if any could go.
    fn leave_out(&mut self, size: usize) -> bool {
        let mut any = false;
        let mut start = 0;
        while start < self.pieces.len() {
            let end = (start + size).min(self.pieces.len());
            let mut pieces = self.pieces.clone();
            pieces.drain(start..end);
            if self.try_pieces(pieces) {
                any = true;
            } else {
                start = end;
            }
        }
        any
    }

    /// Leaves out whole parties; true if any could go.
    fn fewer_parties(&mut self) -> bool {
        let mut any = false;
        for number in 0..builds(&self.pieces).len() {
            for gone in (0..16).rev() {
                let at = builds(&self.pieces)[number];
                let built = parties_built(&self.pieces, at);
                if built.is_some_and(|count| usize::from(gone) < count) {
                    any |= self.try_pieces(without_party(&self.pieces, at, gone));
                }
            }
        }
        any
    }

    /// Leaves out whole lists of secondaries; true if any could go.
    fn fewer_secondaries(&mut self) -> bool {
        let mut any = false;
        for number in 0..builds(&self.pieces).len() {
            let [_, own] = entries(&self.pieces, builds(&self.pieces)[number]);
            let kept = (0..self.pieces.len()).filter(|place| !own.contains(place));
            let pieces = kept.map(|place| self.pieces[place].clone()).collect();
            any |= !own.is_empty() && self.try_pieces(pieces);
        }
        any
    }

    /// Makes party, value and extra smaller where that keeps a difference.
    fn lower_fields(&mut self) -> bool {
        let mut any = false;
        for place in 0..self.pieces.len() {
            for field in 3..RECORD {
                while self.lower(place, field) {
                    any = true;
                }
            }
        }
        any
    }

    fn lower(&mut self, place: usize, field: usize) -> bool {
        let Some(&old) = self.pieces.get(place).and_then(|piece| piece.get(field)) else {
            return false;
        };
        for smaller in [0, old / 2, old.saturating_sub(1)] {
            let mut pieces = self.pieces.clone();
            pieces[place][field] = smaller;
            if smaller < old && self.try_pieces(pieces) {
                return true;
            }
        }
        false
    }

    fn run(&mut self) {
        self.cut_after_difference();
        self.fewer_parties();
        let mut size = self.pieces.len().div_ceil(2);
        while size > 1 {
            self.leave_out(size);
            size = size.div_ceil(2);
        }
        while self.leave_out(1)
            || self.fewer_parties()
            || self.fewer_secondaries()
            || self.lower_fields()
        {}
        self.cut_after_difference();
    }
}

/// Shortens a list whose comparison gave `first`.
pub fn shorten(
    subject: &mut dyn Subject,
    list: &[u8],
    first: Difference,
    calls_alone: bool,
) -> Finding {
    let pieces = list.chunks(RECORD).map(<[u8]>::to_vec).collect();
    let mut shrinker = Shrinker {
        subject,
        pieces,
        difference: first,
        calls_alone,
    };
    shrinker.run();
    Finding {
        list: shrinker.pieces.concat(),
        difference: shrinker.difference,
    }
}
