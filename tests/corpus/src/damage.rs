//! Damaged copies: tokens and bytes deleted, inserted, replaced, swapped, or the end cut off.

use std::ops::Range;

use crate::{random::Random, spellings::SPELLINGS};

/// A copy with one to four damages.
pub fn damaged(random: &mut Random, source: &[u8]) -> Vec<u8> {
    let mut copy = source.to_vec();
    for _ in 0..random.between(1, 4) {
        if random.one_in(3) {
            damage_bytes(random, &mut copy);
        } else {
            damage_tokens(random, &mut copy);
        }
    }
    copy
}

fn damage_bytes(random: &mut Random, copy: &mut Vec<u8>) {
    let at = random.below(copy.len() + 1);
    let byte = if random.one_in(4) { random.byte() } else { random.byte() & 127 };
    match random.below(5) {
        0 => copy.insert(at, byte),
        1 if at < copy.len() => copy[at] = byte,
        2 if at < copy.len() => drop(copy.remove(at)),
        3 => drop(copy.drain(at..copy.len().min(at + 9))),
        _ => copy.truncate(at),
    }
}

/// Damages the tokens; bytes that are no text stay as they are.
fn damage_tokens(random: &mut Random, copy: &mut Vec<u8>) {
    let Ok(text) = str::from_utf8(copy) else { return };
    let mut tokens: Vec<String> = ranges(text).map(|range| text[range].to_string()).collect();
    let at = random.below(tokens.len() + 1);
    let spelling = random.pick(&SPELLINGS).to_string();
    if at == tokens.len() {
        tokens.push(spelling);
    } else {
        let other = random.below(tokens.len());
        match random.below(6) {
            0 => tokens.insert(at, spelling),
            1 => tokens[at] = spelling,
            2 => drop(tokens.remove(at)),
            3 => tokens.insert(at, tokens[other].clone()),
            4 => tokens.truncate(at),
            _ => tokens.swap(at, other),
        }
    }
    *copy = tokens.concat().into_bytes();
}

fn ranges(text: &str) -> impl Iterator<Item = Range<usize>> {
    let mut start = 0;
    reference::tokens(text).into_iter().map(move |token| {
        let from = std::mem::replace(&mut start, token.end as usize);
        from..start
    })
}
