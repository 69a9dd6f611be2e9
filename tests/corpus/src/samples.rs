//! The sources of crates/samples/specs/Samples.antt.

use std::collections::BTreeSet;

use reference::{answer, parsed::unwanted};

use crate::{Case, Family, examples, spread::spread_over};

/// How many are picked from the corpus besides the examples, and how long they may be.
const SPREAD: usize = 100;
const LONGEST: usize = 200;

/// Those with sources of their own, but for the two that are about the lexer alone.
const FAMILIES: [Family; 10] = [
    Family::Spaced,
    Family::Joined,
    Family::Samples,
    Family::Scripts,
    Family::Damaged,
    Family::Edges,
    Family::Publics,
    Family::Nested,
    Family::Shapes,
    Family::Pairs,
];

/// The accepted examples, and sources at equal distances in the corpus; a source stands once.
pub fn sources() -> impl Iterator<Item = Vec<u8>> {
    let spread = spread_over(&FAMILIES, SPREAD, wanted).map(|case| case.source);
    let mut seen = BTreeSet::new();
    let examples = examples::all().filter(|source| accepted(source).is_some());
    examples.chain(spread).filter(move |source| seen.insert(source.clone()))
}

/// Accepted, short and easy to read.
fn wanted(case: &Case) -> bool {
    let plain = |character: char| character.is_ascii() || "é€😀".contains(character);
    let readable = |text: &str| text.len() <= LONGEST && text.chars().all(plain);
    accepted(&case.source).is_some_and(readable)
}

fn accepted(source: &[u8]) -> Option<&str> {
    answer::text(source).ok().filter(|text| unwanted(text).is_none())
}
