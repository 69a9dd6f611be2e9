//! What a fuzzer's bytes stand for.
//!
//! The first byte says whether the rest chooses pieces, is ASCII or stands as it is, and whether it
//! is a pair; one byte chooses the limit and two the rooms. A pair has four bytes more: the first file's last item,
//! the second's start, and where the rest is cut in two.

use corpus::{
    pairs::{LAST, STARTS, ended, started},
    random::Random,
};

use reference::MAX_CONTROL_FLOW_NESTING;

use crate::{check::Input, limits, pieces::spelled};

/// Bits of the first byte. A pair has both of its bits set.
pub const SPELLED: u8 = 1;
pub const PAIR: u8 = 6;
const AS_IT_IS: u8 = 8;

/// About how many bytes pieces give.
const MOST: usize = 2_048;

/// A choice that is nothing.
const NOTHING: u8 = 255;

/// The input, and the numbers that choose its rooms.
pub fn decode(bytes: &[u8]) -> (Input, Random) {
    let [what, limit, low, high, rest @ ..] = bytes else {
        return (Input::Source(MAX_CONTROL_FLOW_NESTING, bytes.to_vec()), Random::new(0));
    };
    let limit = limits::chosen(*limit);
    let random = Random::new(u16::from_le_bytes([*low, *high]).into());
    let text = |bytes: &[u8]| match *what {
        what if what & SPELLED != 0 => spelled(bytes, MOST),
        what if what & AS_IT_IS != 0 => bytes.to_vec(),
        _ => bytes.iter().map(|byte| byte & 127).collect(),
    };
    let input = match rest {
        [last, start, low, high, body @ ..] if what & PAIR == PAIR => {
            let cut = usize::from(u16::from_le_bytes([*low, *high])) % (body.len() + 1);
            let (first, second) = body.split_at(cut);
            let first = ended(chosen(&LAST, *last), text(first));
            Input::Pair(limit, first, started(chosen(&STARTS, *start), text(second)))
        },
        _ => Input::Source(limit, text(rest)),
    };
    (input, random)
}

fn chosen(list: &[&'static str], byte: u8) -> &'static str {
    if byte == NOTHING { "" } else { list[usize::from(byte) % list.len()] }
}

/// The bytes for an input as it stands, with rooms of no importance. Of a pair the first file has
/// at most 65,535 bytes.
pub fn encode(input: &Input) -> Vec<u8> {
    match input {
        Input::Source(limit, source) => {
            [&[AS_IT_IS, limits::byte(*limit), 0, 0], source.as_slice()].concat()
        },
        Input::Pair(limit, first, second) => {
            let [low, high] = (first.len() as u16).to_le_bytes();
            let chosen = [PAIR | AS_IT_IS, limits::byte(*limit), 0, 0, NOTHING, NOTHING, low, high];
            [&chosen, first.as_slice(), second].concat()
        },
    }
}

#[cfg(test)]
mod tests {
    use super::*;

    #[test]
    fn inputs_are_decoded_as_they_were() {
        let source = Input::Source(64, b"begin end\n".to_vec());
        let pair = Input::Pair(0, b"begin end\n".to_vec(), b"end".to_vec());
        for input in [source, pair] {
            assert_eq!(decode(&encode(&input)).0, input);
        }
    }

    #[test]
    fn short_inputs_are_sources() {
        assert_eq!(decode(b"\x07").0, Input::Source(256, b"\x07".to_vec()));
        assert_eq!(decode(b"\x07\x03\0\0").0, Input::Source(64, Vec::new()));
    }

    #[test]
    fn pairs_take_an_end_and_a_start() {
        let (input, _) = decode(&[PAIR | SPELLED, 0, 0, 0, 1, 1, 1, 0, 1, 2]);
        let pair = Input::Pair(1, b"begin proc a end\n".to_vec(), b"end\nconst ".to_vec());
        assert_eq!(input, pair);
    }

    #[test]
    fn other_bytes_are_ascii() {
        assert_eq!(decode(b"\0\0\0\0\xE1b").0, Input::Source(1, b"ab".to_vec()));
    }
}
