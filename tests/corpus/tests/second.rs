//! The second number of bytes that are no UTF-8: Rust's `error_len` against M-105's words, and against the bytes that could come.

use std::collections::BTreeMap;

use corpus::{
    Case, Family, Size, cases,
    random::Random,
    tails::{Standing, broken_script, starts, tails},
    utf8,
};
use reference::second::ProperStarts;

/// Offset and second number, by Rust.
fn rust(bytes: &[u8]) -> Option<(usize, usize)> {
    let error = str::from_utf8(bytes).err()?;
    Some((error.valid_up_to(), error.error_len().unwrap_or(0)))
}

/// How often each number occurs; all are those of the words.
fn compare(sources: impl Iterator<Item = Vec<u8>>) -> BTreeMap<usize, usize> {
    let starts = ProperStarts::of_all_characters();
    let mut counts = BTreeMap::new();
    for source in sources {
        let Some((offset, second)) = rust(&source) else { continue };
        assert_eq!(starts.second(&source[offset..]), second, "{source:x?}");
        *counts.entry(second).or_default() += 1;
    }
    counts
}

fn often(counts: &BTreeMap<usize, usize>, least: usize) -> bool {
    counts.keys().copied().eq(0..=3) && counts.values().all(|count| *count >= least)
}

#[test]
fn tails_have_the_number_of_the_words() {
    let counts = compare(tails(Standing::Bounds));
    assert!(often(&counts, 200), "{counts:?}");
    let behind = compare(cases(&[Family::Tails], Size::Ci).map(|case: Case| case.source));
    assert!(often(&behind, 1_000), "{behind:?}");
}

#[test]
fn random_bytes_have_the_number_of_the_words() {
    let mut random = Random::new(105);
    let counts = compare((0..100_000).map(|number| match number % 3 {
        0 => utf8::noise(&mut random),
        1 => utf8::mix(&mut random),
        _ => broken_script(&mut random),
    }));
    assert!(often(&counts, 100), "{counts:?}");
}

/// What stands before the offset changes nothing but the offset.
#[test]
fn starts_change_the_offset_alone() {
    for tail in tails(Standing::One) {
        for start in starts() {
            let moved = rust(&tail).map(|(offset, second)| (start.len() + offset, second));
            assert_eq!(rust(&[start, tail.clone()].concat()), moved);
        }
    }
}

/// It is 0 exactly where some bytes behind make a text of it.
#[test]
fn zero_can_be_completed() {
    let ends: Vec<Vec<u8>> = tails(Standing::Bounds).take_while(|end| end.len() < 3).collect();
    let ends = || ends.iter().cloned().chain(ends.iter().map(|end| [&end[..], b"\x80"].concat()));
    for tail in tails(Standing::One) {
        let Some((_, second)) = rust(&tail) else { continue };
        let completed = ends().any(|end| rust(&[&tail[..], &end[..]].concat()).is_none());
        assert_eq!(completed, second == 0, "{tail:x?}");
    }
}
