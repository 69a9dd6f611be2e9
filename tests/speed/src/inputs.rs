//! What is read: scripts of three sizes, as people write them and dense ones from a generator; for the
//! lexers 1 MiB, for the readers 64 KiB of one thing.

use corpus::{shapes, written};

pub struct Input {
    pub name: &'static str,
    pub bytes: Vec<u8>,
}

const KIB: usize = 1 << 10;
const MIB: usize = 1 << 20;

pub fn for_lexers() -> impl Iterator<Item = Input> {
    let repeated = [
        ("spaces", "", " ", ""),
        ("newlines", "", "\n", ""),
        ("comment", "#", "c", ""),
        ("comment, not ASCII", "#", "λ", ""),
        ("quote", "\"", "q", "\""),
        ("error characters", "", "%", ""),
        ("errors, not ASCII", "", "é", ""),
        ("identifiers", "", "word_12 ", ""),
    ];
    scripts().chain(repeated.into_iter().map(|(name, start, piece, end)| {
        let count = (MIB - start.len() - end.len()) / piece.len();
        Input { name, bytes: [start, &piece.repeat(count), end].concat().into_bytes() }
    }))
}

/// On some shapes the upstream parser's time is quadratic, so they are not longer.
pub fn for_readers() -> impl Iterator<Item = Input> {
    let sized = |shape: &shapes::Shape| Input { name: shape.name, bytes: shape.sized(64 * KIB) };
    scripts().chain(shapes::SHAPES.iter().map(sized))
}

pub fn scripts() -> impl Iterator<Item = Input> {
    let written =
        [("written 4 KiB", 4 * KIB), ("written 64 KiB", 64 * KIB), ("written 1 MiB", MIB)];
    let dense = [("dense 4 KiB", 4 * KIB), ("dense 64 KiB", 64 * KIB), ("dense 1 MiB", MIB)];
    let written = written.map(|(name, size)| Input { name, bytes: written::written(size) });
    let dense = dense.map(|(name, size)| Input { name, bytes: shapes::script(size) });
    written.into_iter().chain(dense)
}
