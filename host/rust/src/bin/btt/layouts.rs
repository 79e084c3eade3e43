//! The layout in which an arena is opened, and the other one.
use crate::lent;
use crate::problem::Problem;
use btt::{AlignedBytes, Answer, Lane, Layout, MAX_BLOCKS, MAX_LANES};

/// Judges an arena in a layout; nothing is stored.
fn judged(bytes: &mut AlignedBytes, layout: Layout) -> Result<(), Answer> {
    lent(bytes).cut_open_in(layout, &mut vec![0; MAX_BLOCKS], &[Lane::default(); MAX_LANES], 0).map(|_| ())
}

/// What is to be told of an arena that does not open in a layout: why, and whether it opens in the other.
pub fn refused(bytes: &mut AlignedBytes, layout: Layout, answer: Answer) -> Problem {
    let other = Layout::ALL.into_iter().find(|other| *other != layout && judged(bytes, *other).is_ok());
    other.map_or(Problem::Refused(answer), |other| Problem::OtherLayout(answer, other))
}

/// Goes on only with an arena that opens in a layout.
pub fn must_open(bytes: &mut AlignedBytes, layout: Layout) -> Result<(), Problem> {
    judged(bytes, layout).map_err(|answer| refused(bytes, layout, answer))
}
