//! The sources among which examples are chosen, the shortest first.

use std::collections::BTreeSet;

use crate::{ITSELF, answer::Reading, reading};

/// Longer sources are no examples.
const LONGEST: usize = 60;

pub fn pool() -> Vec<Vec<u8>> {
    let all = corpus::lexical::bounds().chain(corpus::places::all());
    let short = all.filter(|source| source.len() <= LONGEST);
    let once: BTreeSet<Vec<u8>> = short.filter(|source| accepted(source)).collect();
    let mut pool: Vec<Vec<u8>> = once.into_iter().collect();
    pool.sort_by_key(Vec::len);
    pool
}

/// Well-formed, and without refused words.
pub fn accepted(source: &[u8]) -> bool {
    matches!(reading(ITSELF, source), Some(Reading::Parsed(_)))
}
