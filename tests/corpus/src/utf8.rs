//! Bytes for the UTF-8 check: well-formed, ill-formed and cut off.

use crate::random::Random;

/// Bytes on both sides of every bound in the table of well-formed sequences.
const BOUNDS: [u8; 10] = [0x00, 0x7F, 0x80, 0x8F, 0x90, 0x9F, 0xA0, 0xBF, 0xC0, 0xFF];

/// The same without those that only first bytes have.
const SECONDS: [u8; 8] = [0x7F, 0x80, 0x8F, 0x90, 0x9F, 0xA0, 0xBF, 0xC0];

/// Characters of each length, at the bounds of their row of the table.
const GOOD: [&str; 15] = [
    "a", " ", "end", "\"", "\n", "é", "\u{7FF}", "\u{800}", "€", "\u{D7FF}", "\u{E000}",
    "\u{FFFD}", "\u{10000}", "😀", "\u{10FFFF}",
];

/// Stray, overlong, surrogate, too large and cut-off sequences.
const BAD: [&[u8]; 15] = [
    b"\x80", b"\xBF", b"\xC0\x80", b"\xC1\xBF", b"\xC3", b"\xE0\x80\x80", b"\xE2\x82",
    b"\xED\xA0\x80", b"\xED\xBF\xBF", b"\xEF\xBF", b"\xF0\x80\x80\x80", b"\xF0\x9F\x98",
    b"\xF4\x90\x80\x80", b"\xF5\x80\x80\x80", b"\xFF",
];

/// First bytes on both sides of every bound of a row of the table, with the length of the row's sequences.
const FIRSTS: [(u8, usize); 18] = [
    (0x80, 2),
    (0xBF, 2),
    (0xC0, 2),
    (0xC1, 2),
    (0xC2, 2),
    (0xDF, 2),
    (0xE0, 3),
    (0xE1, 3),
    (0xEC, 3),
    (0xED, 3),
    (0xEE, 3),
    (0xEF, 3),
    (0xF0, 4),
    (0xF1, 4),
    (0xF3, 4),
    (0xF4, 4),
    (0xF5, 4),
    (0xFF, 4),
];

/// How long a run of ASCII before a piece gets.
const LONGEST_RUN: usize = 70;

/// All pairs that start outside ASCII, and all lead bytes with bounds behind them.
pub fn short() -> impl Iterator<Item = Vec<u8>> {
    let pairs = (0x80..=0xFFu8).flat_map(|a| (0..=0xFFu8).map(move |b| vec![a, b]));
    let triples = (0xC0..=0xFFu8)
        .flat_map(|a| BOUNDS.iter().flat_map(move |&b| BOUNDS.iter().map(move |&c| vec![a, b, c])));
    let fours = (0xF0..=0xF8u8).flat_map(|a| {
        (0..1000).map(move |i| vec![a, BOUNDS[i / 100], BOUNDS[i / 10 % 10], BOUNDS[i % 10]])
    });
    pairs.chain(triples).chain(fours)
}

/// Each row of the table with every bound as its second byte, and cut off; the later bytes at their bounds.
pub fn bounds() -> impl Iterator<Item = Vec<u8>> {
    let rows = FIRSTS.into_iter().flat_map(|(first, length)| {
        let seconds =
            SECONDS.into_iter().map(move |second| [first, second, 0x80, 0x80][..length].to_vec());
        let cut = (2..length).map(move |end| [first, 0xA0, 0x80][..end].to_vec());
        seconds.chain(cut)
    });
    let later = [0x7F, 0x80, 0xBF, 0xC0].into_iter().flat_map(|byte| {
        [vec![0xE1, 0x80, byte], vec![0xF1, 0x80, byte, 0x80], vec![0xF1, 0x80, 0x80, byte]]
    });
    rows.chain(later)
}

/// Each piece behind a run of ASCII of each length, with a few bytes after it.
pub fn behind_runs() -> impl Iterator<Item = Vec<u8>> {
    (0..=LONGEST_RUN).flat_map(|run| {
        let pieces = GOOD.iter().map(|text| text.as_bytes()).chain(BAD);
        pieces.map(move |piece| [&vec![b'x'; run], piece, &b"y z"[..run % 4]].concat())
    })
}

/// A mix of pieces and runs, mostly well-formed.
pub fn mix(random: &mut Random) -> Vec<u8> {
    let good = random.one_in(2);
    let mut bytes = Vec::new();
    for _ in 0..random.between(1, 16) {
        if random.one_in(4) {
            bytes.extend(std::iter::repeat_n(b'k', random.below(20)));
        } else if good || random.one_in(2) {
            bytes.extend(random.pick(&GOOD).bytes());
        } else {
            bytes.extend(random.pick(&BAD));
        }
    }
    bytes
}

/// Bytes without any rule.
pub fn noise(random: &mut Random) -> Vec<u8> {
    (0..random.below(40)).map(|_| random.byte()).collect()
}
