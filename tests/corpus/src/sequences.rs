//! Sequences of spellings: all short ones, and samples of longer ones.

use crate::{
    random::Random,
    spellings::{GLUED, SPELLINGS},
};

/// All sequences of 1 to `longest` spellings with `separator` between.
pub fn all(
    spellings: &'static [&'static str],
    longest: u32,
    separator: &'static str,
) -> impl Iterator<Item = Vec<u8>> {
    (1..=longest).flat_map(move |length| {
        (0..spellings.len().pow(length)).map(move |mut index| {
            let mut words = Vec::new();
            for _ in 0..length {
                words.push(spellings[index % spellings.len()]);
                index /= spellings.len();
            }
            words.join(separator).into_bytes()
        })
    })
}

/// A sequence of 4 to 8 spellings, with a space after most of them.
pub fn sample(random: &mut Random) -> Vec<u8> {
    let mut text = String::new();
    for _ in 0..random.between(4, 8) {
        let list: &[&str] = if random.one_in(4) { &GLUED } else { &SPELLINGS };
        text += random.pick(list);
        match random.below(8) {
            0 => {},
            1 => text.push('\n'),
            _ => text.push(' '),
        }
    }
    text.into_bytes()
}
