//! Names that go on from a word, and the same letters turned round. None is as long as a word, so no byte of them is compared where
//! lengths are tested first: both take as many instructions.

use corpus::near;

use crate::measure::{ACCEPTED, Family, Make, Row};

const ONWARD: &str = "names that go on from a word";
const TURNED: &str = "names of the same letters";

/// How long the names are: no word is, nor what stands behind `$`.
const LENGTHS: [usize; 3] = [8, 10, 11];

pub fn families() -> [Family; 2] {
    let onward: Make = Box::new(|size| block(size, str::to_string));
    let turned: Make = Box::new(|size| block(size, turned));
    [Family::read(ONWARD, ACCEPTED, onward), Family::read(TURNED, ACCEPTED, turned)]
}

/// The longest block of all the names, again and again, of at most this size.
fn block(size: usize, change: fn(&str) -> String) -> Vec<u8> {
    let longer = |word: &'static str| {
        let lengths = LENGTHS.into_iter().filter(|length| *length > word.len());
        lengths.map(move |length| change(&format!("{word:x<length$}")) + " ")
    };
    let piece: String = near::words().flat_map(longer).collect();
    let (head, tail) = ("begin\n", "\nend\n");
    let times = size.saturating_sub(head.len() + tail.len()) / piece.len();
    [head, &piece.repeat(times), tail].concat().into_bytes()
}

/// The letters in the other order; a `$` stays in front.
fn turned(name: &str) -> String {
    let (dollar, letters) = name.split_at(usize::from(name.starts_with('$')));
    dollar.chars().chain(letters.chars().rev()).collect()
}

/// The instructions of both families, where both were counted and they differ.
pub fn unlike(rows: &[Row]) -> Option<[[u64; 2]; 2]> {
    let counted = |name| rows.iter().find(|row| row.name == name).map(|row| row.instructions);
    let both = [counted(ONWARD)?, counted(TURNED)?];
    (both[0] != both[1]).then_some(both)
}
