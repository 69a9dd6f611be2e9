//! Smaller inputs that are answered as wrongly.

use corpus::random::Random;

use crate::check::{Calls, Checker, Input, Mismatch};

/// What is wrong on the smallest input that is found, read with the same choice of rooms.
pub fn smallest(made: Calls, (input, random): (Input, Random), first: Mismatch) -> Mismatch {
    let (mut checker, mut last) = (Checker::new(made), first);
    shrunk(input, |input| {
        let checked = checker.check(input, &mut random.clone());
        checked.map_err(|mismatch| last = mismatch).is_err()
    });
    last
}

/// Parts are left out, halves first, as long as `wrong` still holds.
fn shrunk(input: Input, mut wrong: impl FnMut(&Input) -> bool) -> Input {
    match input {
        Input::Source(limit, source) => {
            Input::Source(limit, shrink(source, |part| wrong(&Input::Source(limit, part.to_vec()))))
        },
        Input::Pair(limit, first, second) => {
            let pair =
                |first: &[u8], second: &[u8]| Input::Pair(limit, first.to_vec(), second.to_vec());
            let first = shrink(first, |part| wrong(&pair(part, &second)));
            let second = shrink(second, |part| wrong(&pair(&first, part)));
            pair(&first, &second)
        },
    }
}

fn shrink(mut bytes: Vec<u8>, mut wrong: impl FnMut(&[u8]) -> bool) -> Vec<u8> {
    let mut width = bytes.len();
    while width > 0 {
        let mut at = 0;
        while at < bytes.len() {
            let behind = bytes.len().min(at + width);
            let less = [&bytes[..at], &bytes[behind..]].concat();
            if wrong(&less) {
                bytes = less;
            } else {
                at = behind;
            }
        }
        width /= 2;
    }
    bytes
}

#[cfg(test)]
mod tests {
    use super::*;

    #[test]
    fn what_is_wrong_stays() {
        let input = Input::Source(2, b"begin if add end end\n".to_vec());
        let holds = |input: &Input| matches!(input, Input::Source(2, text) if text.contains(&b'd'));
        assert_eq!(shrunk(input, holds), Input::Source(2, b"d".to_vec()));
    }

    #[test]
    fn both_parts_shrink() {
        let input = Input::Pair(3, b"abc".to_vec(), b"def".to_vec());
        let holds = |input: &Input| matches!(input, Input::Pair(3, a, b) if !a.is_empty() && b.contains(&b'e'));
        assert_eq!(shrunk(input, holds), Input::Pair(3, b"c".to_vec(), b"e".to_vec()));
    }
}
