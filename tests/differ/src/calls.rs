//! The whole reader by its exported call, in this process.

use corpus::{Case, rooms::Needs};
use exported::zones::{Call, call};
use reference::{Slices, reading};

use crate::{
    readings::push_slices,
    run::{Outcome, show},
};

/// A case that the call answers otherwise than the reference.
struct Mismatch {
    case: Case,
    expected: Vec<u8>,
    found: Vec<u8>,
}

/// Makes the call on all cases; shows the smallest that it answers otherwise.
pub fn run(made: Call, cases: impl Iterator<Item = Case>) -> Outcome {
    let mut outcome = Outcome::begun();
    let mut smallest: Option<Mismatch> = None;
    for case in cases {
        outcome.count(case.family);
        let Some(mismatch) = compare(made, case) else { continue };
        outcome.mismatches += 1;
        let length = mismatch.case.source.len();
        if smallest.as_ref().is_none_or(|other| length < other.case.source.len()) {
            smallest = Some(mismatch);
        }
    }
    if let Some(Mismatch { case, expected, found }) = smallest {
        show(&case, &expected, &found);
    }
    outcome.ended()
}

/// Nothing where status and all slices are the reference's and the red zones are untouched.
fn compare(made: Call, case: Case) -> Option<Mismatch> {
    let reading = reading(case.limit, &case.source);
    let rooms = case.plan.rooms(Needs::of(&reading));
    let expected = reading.answer(rooms);
    let (status, left) = call(made, case.limit, &case.source, rooms);
    if status == expected.status && left.as_ref() == Some(&expected.slices) {
        return None;
    }
    let found = match left {
        Some(slices) => text(status, &slices),
        None => format!("{status}, and a red zone is written").into_bytes(),
    };
    Some(Mismatch { case, expected: text(expected.status, &expected.slices), found })
}

/// The status and the counts, then the other slices.
fn text(status: u64, slices: &Slices) -> Vec<u8> {
    let mut text = Vec::new();
    push_slices(&mut text, [status].iter().chain(&slices.counts), slices);
    text
}

#[cfg(test)]
#[path = "calls_tests.rs"]
mod tests;
