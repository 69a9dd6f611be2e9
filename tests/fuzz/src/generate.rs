//! Inputs from a seed: sources of many kinds, mostly short, and pairs.

use corpus::{
    damage::damaged,
    edges::FORMS,
    lines::script_with_ends,
    pairs::{LAST, STARTS, ended, pair, started},
    random::Random,
    script::script,
    sequences,
    shapes::SHAPES,
    utf8,
};
use reference::{MAX_CONTROL_FLOW_NESTING, MAX_SOURCE};

use crate::{check::Input, limits, pieces::spelled};

/// One in so many sources is long, and one in so many of these of any size.
const LONG: usize = 2_000;
const HUGE: usize = 100;

/// Bytes that a piece may take in the mean, repetitions included.
const PIECE: usize = 100;

/// The length of most long sources.
const LONGEST: usize = 65_536;

/// The input of a case; the same for the same seed and number.
pub fn case(seed: u64, number: u64) -> (Input, Random) {
    let start = Random::new(seed).number();
    let mut random = Random::new(start.wrapping_add(number));
    let limit = limits::any(&mut random);
    let input = match random.below(10) {
        0 => {
            let (first, second) = pair(&mut random);
            Input::Pair(limit, first, second)
        },
        1 | 2 => {
            let first = ended(random.pick(&LAST), source(limit, &mut random));
            let start = random.pick(&STARTS);
            Input::Pair(limit, first, started(start, source(limit, &mut random)))
        },
        _ => Input::Source(limit, source(limit, &mut random)),
    };
    (input, random)
}

fn source(limit: u64, random: &mut Random) -> Vec<u8> {
    if random.one_in(LONG) {
        return long(random);
    }
    match random.below(100) {
        0..40 => pieces(random, 20),
        40..50 => script_of(random, 200),
        50..55 => script_with_ends(random),
        55..75 => {
            let text = script_of(random, 200);
            damaged(random, &text)
        },
        75..90 => sequences::sample(random),
        90..92 => utf8::mix(random),
        92 => utf8::noise(random),
        93..97 => deep(limit, random),
        97..99 => {
            let (shape, times) = (random.pick(&SHAPES), random.below(20));
            shape.times(times)
        },
        _ => medium(random),
    }
}

/// Up to this many pieces, half of the time few different ones.
fn pieces(random: &mut Random, most: usize) -> Vec<u8> {
    let few: Vec<u8> = (0..random.between(1, 6)).map(|_| random.byte()).collect();
    let count = random.between(1, most);
    let bytes: Vec<u8> = match random.one_in(2) {
        true => (0..count).map(|_| random.pick(&few)).collect(),
        false => (0..count).map(|_| random.byte()).collect(),
    };
    spelled(&bytes, PIECE * most)
}

fn script_of(random: &mut Random, most: usize) -> Vec<u8> {
    let size = random.between(1, most);
    script(random, size).into_bytes()
}

/// Control forms one in the other, up to the limit and beyond, some of them not closed.
fn deep(limit: u64, random: &mut Random) -> Vec<u8> {
    let limit = limit.min(MAX_CONTROL_FLOW_NESTING) as usize;
    let (least, most) =
        if random.one_in(10) { (limit.saturating_sub(6), limit + 4) } else { (1, 12) };
    let depth = random.between(least, most);
    let mut text =
        random.pick(&["begin ", "proc a\n", "pub proc a(b: felt)\n"]).as_bytes().to_vec();
    let forms: Vec<_> = (0..depth).map(|_| random.pick(&FORMS)).collect();
    text.extend(forms.iter().flat_map(|(open, ..)| open.bytes()));
    text.extend(pieces(random, 3));
    for (_, middle, close) in forms.iter().rev() {
        text.extend(middle.bytes());
        if random.one_in(20) {
            text.extend(pieces(random, 2));
        }
        if !random.one_in(30) {
            text.extend(close.bytes());
        }
    }
    text.extend(random.pick(&["end\n", "end\n", "", "else", "proc b end\n", "#! d\n"]).bytes());
    text
}

fn medium(random: &mut Random) -> Vec<u8> {
    if random.one_in(2) { script_of(random, 4_096) } else { pieces(random, 400) }
}

/// Up to 64 KiB, and one in a hundred up to the limit and a little more.
fn long(random: &mut Random) -> Vec<u8> {
    if random.one_in(HUGE) {
        let size = random.between(LONGEST, MAX_SOURCE);
        let mut text = script(random, size).into_bytes();
        if random.one_in(4) {
            text.resize(MAX_SOURCE + random.below(3), b' ');
        }
        return text;
    }
    match random.below(3) {
        0 => pieces(random, 4_096),
        1 => script_of(random, LONGEST),
        _ => {
            let text = script_of(random, LONGEST / 4);
            damaged(random, &text)
        },
    }
}
