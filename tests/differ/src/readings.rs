//! The whole reader: tokens, events, diagnostics and the refusals.

use corpus::{
    Case, Family,
    frame::{Asked, frame},
    pairs::Pair,
    rooms::Needs,
};
use reference::{Slices, reading};

use crate::part::{Exchange, Limits, Part, push_line};

pub fn part(limits: Limits) -> Part {
    Part {
        name: "readings",
        families: Family::PROGRAM,
        exchange: Box::new(move |case| exchange(case, limits)),
    }
}

/// Answer: the four numbers, then each slice.
fn exchange(case: &Case, limits: Limits) -> Exchange {
    let reading = reading(case.limit, &case.source);
    let rooms = limits.cut(case.plan.rooms(Needs::of(&reading)));
    let answer = reading.answer(rooms);
    let mut expected = Vec::new();
    push_slices(&mut expected, [answer.status].iter().chain(&answer.counts), &answer.slices);
    Exchange { frame: frame(Asked::Reading, case.limit, &case.source, rooms), expected }
}

/// A line with the numbers returned, then one for each slice but the counts.
pub fn push_slices<'a>(
    text: &mut Vec<u8>,
    numbers: impl Iterator<Item = &'a u64>,
    slices: &Slices,
) {
    push_line(text, numbers.copied());
    push_line(text, slices.token_kinds.iter().copied());
    push_line(text, slices.token_ends.iter().copied());
    push_line(text, slices.events.iter().copied());
    push_line(text, slices.messages.iter().copied());
    push_line(text, slices.starts.iter().copied());
    push_line(text, slices.ends.iter().copied());
}

/// Whether the joined pairs are read as demand 3 says, each at one limit; `obeyed` answers for the pairs
/// inside its premise. Prints the counts.
pub fn check_joins(
    reader: &str,
    pairs: impl Iterator<Item = (u64, Pair)>,
    obeyed: impl Fn(u64, &[u8], &[u8]) -> Option<bool>,
) -> bool {
    let (mut inside, mut failures) = (0, 0);
    for (limit, (first, second)) in pairs {
        let Some(obeyed) = obeyed(limit, &first, &second) else { continue };
        inside += 1;
        if !obeyed {
            failures += 1;
            let [first, second] = [&first, &second].map(|file| file.escape_ascii());
            println!("joined otherwise at limit {limit}: {first} | {second}");
        }
    }
    println!("demand 3 of the {reader}: {inside} pairs, {failures} failures");
    failures == 0
}
