//! Lines and columns of offsets by their exported call, in this process.

use corpus::{
    Case,
    offsets::{Order, Question},
    pairs::Pair,
};
use exported::zones::{LinesCall, call_lines};
use reference::{Lines, MAX_CONTROL_FLOW_NESTING, joined, lines::Left};

use crate::{
    lines::{expected, text},
    run::{Outcome, shortened, show},
};

/// A case that the call answers otherwise than M-102's words.
struct Mismatch {
    case: Case,
    question: Question,
    expected: Vec<u8>,
    found: Vec<u8>,
}

/// Makes two calls on each case, with rising offsets and in another order; shows the smallest that
/// is answered otherwise.
pub fn run(made: LinesCall, cases: impl Iterator<Item = Case>) -> Outcome {
    let mut outcome = Outcome::begun();
    let mut smallest: Option<Mismatch> = None;
    for case in cases {
        for question in Question::of(&case, &[Order::Rising, Order::other(&case.source)]) {
            outcome.count(case.family);
            let Some(mismatch) = compare(made, &case, question) else { continue };
            outcome.mismatches += 1;
            let length = mismatch.case.source.len();
            if smallest.as_ref().is_none_or(|other| length < other.case.source.len()) {
                smallest = Some(mismatch);
            }
        }
    }
    if let Some(Mismatch { case, question, expected, found }) = smallest {
        show(&case, &expected, &found);
        println!("  offsets  {}", shortened(format!("{:?}", question.offsets).as_bytes(), 0));
    }
    outcome.ended()
}

/// Nothing where the number returned and both slices are those of the words, and the red zones are
/// untouched.
fn compare(made: LinesCall, case: &Case, question: Question) -> Option<Mismatch> {
    let expected = expected(&case.source, &question);
    let rooms = [question.lines, question.columns];
    let left = call_lines(made, &case.source, &question.offsets, rooms);
    if left.as_ref() == Some(&expected) {
        return None;
    }
    let found = match left {
        Some(left) => text(&left),
        None => b"a red zone is written".to_vec(),
    };
    Some(Mismatch { case: case.clone(), question, expected: text(&expected), found })
}

/// Whether lines and columns in joined files are those in the files: of the pairs that demand 3
/// joins, those of the first file stay, and those of the second go up by the first's line ends.
/// Prints the counts.
pub fn check_joins(made: LinesCall, pairs: impl Iterator<Item = Pair>) -> bool {
    let (mut inside, mut failures) = (0, 0);
    for (first, second) in pairs {
        if joined::obeyed(MAX_CONTROL_FLOW_NESTING, &first, &second) != Some(true) {
            continue;
        }
        inside += 1;
        if !joins(made, &first, &second) {
            failures += 1;
            println!("counted otherwise: {} | {}", first.escape_ascii(), second.escape_ascii());
        }
    }
    println!("lines of joined files: {inside} pairs, {failures} failures");
    failures == 0
}

/// The same of one pair, for every offset in it.
fn joins(made: LinesCall, first: &[u8], second: &[u8]) -> bool {
    let whole = [first, second].concat();
    let all = [&whole, first, second].map(|source| places(made, source));
    let [Some(whole), Some(first_alone), Some(second_alone)] = all else { return false };
    let ends = Lines::of(first).count() as u32;
    let moved = second_alone.into_iter().map(|[line, column]| [line + ends, column]);
    whole.starts_with(&first_alone) && whole[first.len()..].iter().copied().eq(moved)
}

/// Line and column of every offset, the length too.
fn places(made: LinesCall, source: &[u8]) -> Option<Vec<[u32; 2]>> {
    let offsets: Vec<u32> = (0..=source.len() as u32).collect();
    let count = offsets.len();
    let Left { returned, lines, columns } = call_lines(made, source, &offsets, [count; 2])?;
    let places = lines.into_iter().zip(columns).map(|(line, column)| [line, column]);
    (returned == count as u64).then(|| places.collect())
}

#[cfg(test)]
#[path = "line_calls_tests.rs"]
mod tests;
