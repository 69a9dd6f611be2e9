//! What a guided run starts from.

use std::{fs, io, path::Path};

use corpus::{
    Size, examples, limits, pairs_at_limits, random::Random, shapes::SHAPES, spellings::SPELLINGS,
};
use reference::{LIMITS, MAX_CONTROL_FLOW_NESTING};

use crate::{
    check::Input,
    input::{PAIR, SPELLED, encode},
};

/// How many pairs there are, and how many inputs whose bytes choose pieces.
const PAIRS: usize = 100;
const CHOSEN: u64 = 100;

/// One file for each seed, and the spellings as `words` beside the folder.
pub fn write(folder: &Path) -> io::Result<()> {
    fs::create_dir_all(folder)?;
    let seeds = inputs().map(|input| encode(&input)).chain((0..CHOSEN).map(chosen));
    for (index, seed) in seeds.enumerate() {
        fs::write(folder.join(format!("seed-{index}")), seed)?;
    }
    fs::write(folder.with_extension("words"), words())
}

/// Examples, the messages' smallest inputs, shapes, a few sources around the limits, and pairs.
fn inputs() -> impl Iterator<Item = Input> {
    let sources = examples::all().chain(SHAPES.iter().map(|shape| shape.times(2)));
    let sources = sources.map(|source| (MAX_CONTROL_FLOW_NESTING, source));
    let around = LIMITS.into_iter().flat_map(limits::few_around).chain(limits::few_refusals());
    let pairs = pairs_at_limits(Size::Ci).take(PAIRS);
    let pairs = pairs.map(|(limit, (first, second))| Input::Pair(limit, first, second));
    sources.chain(around).map(|(limit, source)| Input::Source(limit, source)).chain(pairs)
}

/// Any bytes, the limit among them, by turns a source and a pair of pieces.
fn chosen(number: u64) -> Vec<u8> {
    let mut random = Random::new(number);
    let what = if number.is_multiple_of(2) { SPELLED } else { SPELLED | PAIR };
    let length = random.between(8, 32);
    [what].into_iter().chain((0..length).map(|_| random.byte())).collect()
}

/// The spellings as libFuzzer reads words.
fn words() -> String {
    let escaped = |byte: u8| format!("\\x{byte:02X}");
    let word = |word: &&str| word.bytes().map(escaped).collect::<String>();
    SPELLINGS.iter().map(|spelling| format!("\"{}\"\n", word(spelling))).collect()
}
