//! All short strings over small alphabets, each around one part of the lexer.

use crate::{near, sequences};

const LINES_AND_QUOTES: [&str; 9] = ["\r", "\n", "\"", "\\", "a", " ", "#", "!", "é"];
const NUMBERS: [&str; 10] = ["0", "1", "2", "x", "X", "b", "B", "a", "g", "."];
const PUNCTUATION: [&str; 6] = [":", ".", "-", ">", "/", " "];
const DOLLARS: [&str; 16] = [
    "$", "$k", "$kerne", "$kernel", "$kernel2", "$kernel_", "$Kernel", "$exe", "$exec", "$exec1",
    "$execs", "$$kernel", "$kernel$exec", "a$exec", "$_", "$1",
];

/// All of them; `longer` adds to the length of the strings.
pub fn all(longer: u32) -> impl Iterator<Item = Vec<u8>> {
    let bytes = (0..=255u8).map(|byte| vec![byte]);
    let pairs = (0..128u8).flat_map(|a| (0..128u8).map(move |b| vec![a, b]));
    let dollars = DOLLARS.iter().flat_map(|word| {
        ["", " ", "\"", "é", "."].iter().map(move |after| [*word, after].concat().into_bytes())
    });
    bytes
        .chain(pairs)
        .chain(dollars)
        .chain(near::few())
        .chain(sequences::all(&LINES_AND_QUOTES, 5 + longer, ""))
        .chain(sequences::all(&NUMBERS, 4 + longer, ""))
        .chain(sequences::all(&PUNCTUATION, 5 + longer, ""))
}

/// On both sides of every bound of a class of characters.
const BOUNDS: [&str; 38] = [
    "\r", "\n", "\x0B", "\x0C", "\u{A0}", "²", "\t", " ", "!", "\"", "#", "$", "%", "/", "0", "1",
    "2", "8", "9", ":", "@", "A", "F", "G", "Z", "[", "\\", "_", "`", "a", "f", "g", "z", "{", "}",
    "~", "\x7F", "é",
];

/// What the class is asked of: the start of a token, and what goes on with one.
const STARTS: [&str; 15] =
    ["", "a", "Z", "_", "1", "0", "0x", "0X", "0b", "0B", "$", "$kernel", "\"", "#", " "];

/// Each class at its bounds; the quotes also closed.
pub fn bounds() -> impl Iterator<Item = Vec<u8>> {
    let plain =
        STARTS.iter().flat_map(|start| BOUNDS.iter().map(move |bound| [*start, bound].concat()));
    let quoted = BOUNDS.iter().map(|bound| format!("\"{bound}\""));
    plain.chain(quoted).map(String::into_bytes)
}
