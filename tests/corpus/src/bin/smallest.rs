//! Searches, for each message of docs/MESSAGES.md, the smallest input that shows it.
//!
//! It starts from the inputs in that document, then tries all short sequences of spellings and
//! samples of longer ones; each new best input is shrunk until no smaller neighbour shows the
//! message. Takes the number of samples.

use std::{collections::BTreeMap, env};

use corpus::{
    random::Random,
    sequences,
    spellings::{KEYWORDS, SPELLINGS},
};
use reference::{MAX_CONTROL_FLOW_NESTING, parsed, parsed::unwanted};

type Best = BTreeMap<u16, Vec<u8>>;

/// The bytes that inputs are made of besides keywords, the plainest first.
const PLAIN: &str = " \n!#$()*+,-./01:;<=>@[]{}a\"";

/// Shrinking works on this much of an input; only the depth input goes on behind it.
const FRONT: usize = 20;

fn main() {
    let samples: u64 = env::args().nth(1).map_or(1_000_000, |count| count.parse().unwrap());
    let mut best = Best::new();
    for row in reference::messages::rows() {
        consider(&mut best, row.smallest.clone());
    }
    for separator in ["", " ", "!"] {
        for source in sequences::all(&SPELLINGS, 3, separator) {
            consider(&mut best, source);
        }
    }
    let mut random = Random::new(1);
    for _ in 0..samples {
        consider(&mut best, sample(&mut random));
    }
    for (number, source) in &best {
        println!("{number} {:?}", String::from_utf8_lossy(source));
    }
}

/// Up to ten spellings and single bytes, most spellings set apart.
fn sample(random: &mut Random) -> Vec<u8> {
    let mut text = String::new();
    for _ in 0..random.between(2, 10) {
        if random.one_in(2) {
            text += random.pick(&SPELLINGS);
            text += random.pick(&["", " ", " ", "!"]);
        } else {
            let at = random.below(PLAIN.len());
            text += &PLAIN[at..at + 1];
        }
    }
    text.into_bytes()
}

/// Fewest bytes first, then in the order of `PLAIN`, other bytes behind.
fn rank(source: &[u8]) -> (usize, Vec<usize>) {
    let place = |byte: &u8| PLAIN.bytes().position(|plain| plain == *byte);
    let places = source.iter().map(|byte| place(byte).unwrap_or(usize::from(*byte) + 64));
    (source.len(), places.collect())
}

/// The messages that an accepted source shows.
fn shown(source: &[u8]) -> Vec<u16> {
    let Ok(text) = str::from_utf8(source) else { return Vec::new() };
    if unwanted(text).is_some() {
        return Vec::new();
    }
    let found = parsed(MAX_CONTROL_FLOW_NESTING, text);
    found.diagnostics.iter().map(|found| found.message).collect()
}

fn consider(best: &mut Best, source: Vec<u8>) {
    for number in shown(&source) {
        let better = best.get(&number).is_none_or(|old| rank(&source) < rank(old));
        if better {
            let small = shrunk(number, source.clone());
            let better = best.get(&number).is_none_or(|old| rank(&small) < rank(old));
            if better {
                best.insert(number, small);
            }
        }
    }
}

/// Goes to smaller neighbours that show the message as long as there are some.
fn shrunk(number: u16, mut source: Vec<u8>) -> Vec<u8> {
    loop {
        let smaller = neighbours(&source)
            .find(|other| rank(other) < rank(&source) && shown(other).contains(&number));
        match smaller {
            Some(other) => source = other,
            None => return source,
        }
    }
}

/// The source with a run of up to ten bytes of its front left out or replaced by a piece.
fn neighbours(source: &[u8]) -> impl Iterator<Item = Vec<u8>> {
    let places = || (0..source.len().min(FRONT)).rev();
    let lengths = move |start: usize| (0..=10.min(source.len() - start)).rev();
    let bytes = (0..PLAIN.len()).map(|at| &PLAIN[at..at + 1]);
    let pieces: Vec<&str> = ["", "proc!"].into_iter().chain(bytes).chain(KEYWORDS).collect();
    pieces.into_iter().flat_map(move |piece| {
        places().flat_map(move |start| {
            lengths(start).map(move |length| {
                [&source[..start], piece.as_bytes(), &source[start + length..]].concat()
            })
        })
    })
}
