//! Names that are a word, or nearly one: what a comparison of texts could take for the word.

use crate::spellings::KEYWORDS;

/// Behind `$` the lexer asks for these.
const SPECIAL: [&str; 2] = ["$kernel", "$exec"];

/// A name stands at `%`, where it decides what is read if it is a word.
const PLACES: [&str; 6] = [
    "% a end", "begin % a end", "begin a %", "pub % a", "pub (%) proc a end", "begin if.a % b end",
];

/// All names in all places.
pub fn all() -> impl Iterator<Item = Vec<u8>> {
    words()
        .flat_map(names)
        .flat_map(|name| PLACES.iter().map(move |place| place.replace('%', &name).into_bytes()))
}

/// Behind `begin`: each word, a letter short, with another letter, with a capital, and with a letter more on either side.
pub fn few() -> impl Iterator<Item = Vec<u8>> {
    let near = |word: &str| {
        let short = &word[..word.len() - 1];
        let capital = word[..1].to_uppercase() + &word[1..];
        let longer = [format!("{word}s"), format!("_{word}")];
        [word.into(), short.into(), format!("{short}q"), capital].into_iter().chain(longer)
    };
    words().flat_map(near).map(|name| format!("begin {name} a end").into_bytes())
}

/// The words, and those two.
pub fn words() -> impl Iterator<Item = &'static str> {
    KEYWORDS.into_iter().chain(SPECIAL)
}

/// The word; its starts and ends; a letter left out, put in or changed anywhere; and the word twice.
fn names(word: &'static str) -> impl Iterator<Item = String> {
    let cut = |at: usize| [word[..at].to_string(), word[at..].to_string()];
    let without = |at: usize| [&word[..at], &word[at + 1..]].concat();
    let with =
        |at: usize| ["q", "_", "1"].map(|letter| [&word[..at], letter, &word[at..]].concat());
    let other = |at: usize| {
        let capital = word[at..=at].to_uppercase();
        ["q", &capital].map(|letter| [&word[..at], letter, &word[at + 1..]].concat())
    };
    let letters = 0..word.len();
    [word.to_string(), word.repeat(2)]
        .into_iter()
        .chain((1..word.len()).flat_map(cut))
        .chain(letters.clone().map(without))
        .chain(letters.clone().flat_map(other))
        .chain((0..=word.len()).flat_map(with))
}
