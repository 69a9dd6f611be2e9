//! Bytes that no longer are UTF-8, behind starts that are: every tail of up to four bytes, and scripts that are cut or whose bytes are
//! damaged.

use crate::{random::Random, script::script};

/// How long the tails get: a character has no more bytes.
const LONGEST: u32 = 4;

/// The bytes fall into these classes by the ranges of table 3-7: those of a class stand in the same ranges.
const CLASSES: [(u8, u8); 14] = [
    (0x00, 0x7F),
    (0x80, 0x8F),
    (0x90, 0x9F),
    (0xA0, 0xBF),
    (0xC0, 0xC1),
    (0xC2, 0xDF),
    (0xE0, 0xE0),
    (0xE1, 0xEC),
    (0xED, 0xED),
    (0xEE, 0xEF),
    (0xF0, 0xF0),
    (0xF1, 0xF3),
    (0xF4, 0xF4),
    (0xF5, 0xFF),
];

/// Characters of two bytes to four.
const WIDE: [char; 7] = ['é', '\u{7FF}', '€', '\u{D7FF}', '\u{FFFD}', '😀', '\u{10FFFF}'];

/// One for each row of table 3-7 but the first.
const WIDE_ROWS: [char; 8] =
    ['é', '\u{800}', '€', '\u{D7FF}', '\u{FFFD}', '😀', '\u{40000}', '\u{10FFFF}'];

/// Which bytes stand for a class.
#[derive(Debug, Clone, Copy, PartialEq, Eq)]
pub enum Standing {
    /// One from its middle.
    One,
    /// Its first and its last.
    Bounds,
}

/// Well-formed texts: none, characters of each length, and runs that end beside the bounds of 64 bytes and of 32 where the reader changes
/// its step.
pub fn starts() -> Vec<Vec<u8>> {
    let run = |piece: &str, times: usize| piece.repeat(times).into_bytes();
    let runs = [("k", 63), ("k", 64), ("k", 65), ("é", 16), ("€", 11), ("😀", 8)];
    let characters = ["", "#", "é", "€", "😀", "# é€😀 k", "\u{10FFFF}\n"];
    let characters = characters.into_iter().map(|text| text.as_bytes().to_vec());
    characters.chain(runs.into_iter().map(|(piece, times)| run(piece, times))).collect()
}

/// All tails of one byte and of up to four.
pub fn tails(standing: Standing) -> impl Iterator<Item = Vec<u8>> {
    let bytes: Vec<u8> =
        CLASSES.into_iter().flat_map(|class| standing_for(class, standing)).collect();
    (1..=LONGEST).flat_map(move |length| {
        let bytes = bytes.clone();
        (0..bytes.len().pow(length)).map(move |number| spelled(&bytes, number, length))
    })
}

fn standing_for((first, last): (u8, u8), standing: Standing) -> Vec<u8> {
    match standing {
        Standing::One => vec![first + (last - first) / 2],
        Standing::Bounds if first == last => vec![first],
        Standing::Bounds => vec![first, last],
    }
}

/// The word of this number: its digits are bytes.
fn spelled(bytes: &[u8], number: usize, length: u32) -> Vec<u8> {
    (0..length).map(|at| bytes[number / bytes.len().pow(at) % bytes.len()]).collect()
}

/// Every tail behind every start.
pub fn behind_starts() -> impl Iterator<Item = Vec<u8>> {
    let starts = starts();
    tails(Standing::Bounds).flat_map(move |tail| {
        let behind = starts.iter().map(|start| [start, &tail[..]].concat());
        behind.collect::<Vec<_>>()
    })
}

/// Every proper start of a character of each row, cut off and with LF behind it, and bytes that start none; behind a comment's start.
pub fn few() -> impl Iterator<Item = Vec<u8>> {
    let starts = WIDE_ROWS.into_iter().flat_map(|character| {
        let bytes = character.to_string().into_bytes();
        (1..bytes.len()).map(move |length| bytes[..length].to_vec())
    });
    let broken = starts.chain([0x80, 0xBF, 0xC0, 0xF5, 0xFF].map(|byte| vec![byte]));
    broken
        .flat_map(|bytes| ["", "\n"].map(|end| ["# é".as_bytes(), &bytes, end.as_bytes()].concat()))
}

/// A script with wide characters in it, that ends anywhere or has a byte changed.
pub fn broken_script(random: &mut Random) -> Vec<u8> {
    let mut text = script(random, 200);
    for _ in 0..random.between(1, 8) {
        let at = text.floor_char_boundary(random.below(text.len() + 1));
        text.insert(at, random.pick(&WIDE));
    }
    let wide: Vec<usize> = (0..text.len()).filter(|at| text.as_bytes()[*at] >= 0x80).collect();
    let mut bytes = text.into_bytes();
    let at = random.pick(&wide);
    if random.one_in(2) {
        bytes.truncate(at);
    } else {
        bytes[at] = random.byte();
    }
    bytes
}
