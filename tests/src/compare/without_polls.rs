//! A list with its parallel polls left out: everything else is answered as before, and the last bus is the
//! same, so that all totals are.

use super::subject::{enter_piece, Subject, Told};
use super::Difference;
use crate::lists::pieces::{self, Piece};
use crate::model::PollCall;

fn is_poll(piece: &Piece) -> bool {
    matches!(piece, Piece::PollCall(PollCall::Poll { .. }))
}

/// Right after the subject has answered the list so, as far as that goes.
pub fn compare_without_polls(
    subject: &mut dyn Subject,
    list: &[u8],
    told: &[Told],
) -> Result<(), Difference> {
    let pieces = || pieces::of_list(list).take(told.len());
    if !pieces().any(|piece| is_poll(&piece)) {
        return Ok(());
    }
    subject.lay_aside();
    subject.start();
    for ((piece, told), number) in pieces().zip(told).zip(1..) {
        if !is_poll(&piece) && enter_piece(subject, &piece) != *told {
            return Err(Difference::WithoutPolls { number });
        }
    }
    if subject.is_as_laid_aside() {
        return Ok(());
    }
    let number = told.len();
    Err(Difference::WithoutPolls { number })
}
