//! Limits on nesting: sources around each, other sources at low ones, and numbers that are no limits.

use reference::{LIMITS, MAX_CONTROL_FLOW_NESTING, MAX_SOURCE};

use crate::{deep, edges, examples, nested, pairs::Pair};

/// The unit's limit, as a depth.
pub const UNIT: usize = MAX_CONTROL_FLOW_NESTING as usize;

/// A source and the limit at which it is read.
pub type Limited = (u64, Vec<u8>);

/// M-104's examples, all at limit 1.
pub const EXAMPLES: [&str; 4] =
    ["begin if if x end", "begin if end if end end", "begin do while.x", "begin do while x"];

/// Beside the limits that are allowed, and allowed ones with more bits.
pub const REFUSED: [u64; 10] = [
    0,
    257,
    (1 << 16) + 5,
    u32::MAX as u64,
    (1 << 16) + 256,
    (1 << 32) + 5,
    (1 << 32) + 256,
    (1 << 63) + 64,
    i64::MAX as u64,
    u64::MAX,
];

/// So many of them, the first, fit in the 32 bits of a frame's number.
const FRAMED: usize = 5;

/// The limits below the unit's.
pub const LOWER: [u64; 5] = [1, 2, 3, 64, 255];

/// Sources around each limit, and around the lower ones those that other families have around the unit's.
pub fn around() -> impl Iterator<Item = Limited> {
    let deep = LIMITS.into_iter().flat_map(|limit| at(limit, deep::all(limit as usize)));
    let lower = LOWER.into_iter().flat_map(|limit| {
        let depth = limit as usize;
        at(limit, edges::depths(depth).chain(nested::all(depth)))
    });
    deep.chain(lower)
}

fn at(limit: u64, sources: impl Iterator<Item = Vec<u8>>) -> impl Iterator<Item = Limited> {
    sources.map(move |source| (limit, source))
}

/// M-104's examples.
pub fn examples() -> impl Iterator<Item = Limited> {
    at(1, EXAMPLES.into_iter().map(|text| text.as_bytes().to_vec()))
}

/// Few of those around a limit, for every store.
pub fn few_around(limit: u64) -> impl Iterator<Item = Limited> {
    at(limit, deep::few(limit as usize))
}

/// Each two of those around a limit, to be joined.
pub fn pairs() -> impl Iterator<Item = (u64, Pair)> {
    LIMITS.into_iter().flat_map(|limit| {
        few_around(limit).flat_map(move |(_, first)| {
            few_around(limit).map(move |(_, second)| (limit, (first.clone(), second)))
        })
    })
}

/// Each number that is no limit and fits in a frame, with sources that are read, refused or too long.
pub fn framed_refusals() -> impl Iterator<Item = Limited> {
    let framed = REFUSED.into_iter().take(FRAMED);
    framed.flat_map(|limit| at(limit, every_answer()))
}

/// Each of those numbers, and what is refused for another reason.
pub fn few_refusals() -> impl Iterator<Item = Limited> {
    let sources = every_answer().filter(|source| source.len() < MAX_SOURCE);
    REFUSED.into_iter().take(FRAMED).zip(sources)
}

/// Each number that is no limit with those sources and with document 01's examples.
pub fn refusals() -> impl Iterator<Item = Limited> {
    let all = || every_answer().chain(examples::documented());
    REFUSED.into_iter().flat_map(move |limit| at(limit, all()))
}

/// Sources that are too long, no UTF-8, with `use`, and accepted.
fn every_answer() -> impl Iterator<Item = Vec<u8>> {
    let short: [&[u8]; 5] = [b"", b"a\xFF", b"begin \xE2\x82", b"use a", b"begin if if x end"];
    short.map(<[u8]>::to_vec).into_iter().chain([vec![b' '; MAX_SOURCE + 1]])
}

/// The sources in which forms may be nested, each at every lower limit.
pub fn lower(sources: impl Iterator<Item = Vec<u8>>) -> impl Iterator<Item = Limited> {
    let nesting = sources.filter(|source| may_nest(source));
    nesting.flat_map(|source| LOWER.map(|limit| (limit, source.clone())))
}

/// Whether two words are there that open a form.
fn may_nest(source: &[u8]) -> bool {
    let words = source.split(|byte| !byte.is_ascii_alphanumeric() && *byte != b'_');
    words.filter(|word| [&b"if"[..], b"while", b"do", b"repeat"].contains(word)).nth(1).is_some()
}
