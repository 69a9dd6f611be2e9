//! `pub` and what may stand behind it: the parser looks past it for the item's keyword.

use crate::sequences;

/// Words in and around a visibility.
const WORDS: [&str; 10] = ["pub", "(", "package", ")", "x", "proc", "const", "\n", "#c\n", "#!d\n"];

/// What stands before: top level, a block, an instruction, a constant, a type body, an attribute.
const PLACES: [&str; 6] = ["", "begin\n", "begin a ", "const X = 1 ", "type T = a\n", "@a\n"];

const CHAINS: [&str; 7] =
    ["pub ", "pub ( ", "pub ( x ) ", "pub\n", "pub ( package )\n", "pub(", "pub ( # c\n"];
const BEHIND: [&str; 7] =
    ["", ")", "proc b end", "const Y = 1", "mod m", "package ) proc b", "end"];

/// All short sequences of the words in two places, and chains in every place.
pub fn all(longer: u32) -> impl Iterator<Item = Vec<u8>> {
    let words = ["", "begin a "].into_iter().flat_map(move |place| {
        let sequences = sequences::all(&WORDS, 4 + longer, " ");
        sequences.map(move |words| [place.as_bytes(), b"pub ", &words].concat())
    });
    words.chain(PLACES.iter().flat_map(|place| chains(place)))
}

fn chains(place: &'static str) -> impl Iterator<Item = Vec<u8>> {
    let counts = || (1..=9).chain([50, 300]);
    CHAINS.iter().flat_map(move |piece| {
        BEHIND.iter().flat_map(move |behind| {
            counts().map(move |count| [place, &piece.repeat(count), behind].concat().into_bytes())
        })
    })
}
