//! Texts that are no UTF-8 at their end alone: cut off in a character, or with a byte there that is none (M-105).

use crate::measure::{Family, Make};

/// What the call returns of them.
const NOT_UTF8: u64 = 2;

/// Characters of all lengths, and a run of ASCII.
const TEXT: &str =
    "# é€😀 a comment with characters of one byte to four, and then a line of letters\n";

pub fn families() -> [Family; 2] {
    let ending = |end: &'static [u8]| -> Make { Box::new(|size| text(size, end)) };
    [
        Family::read("text that is cut off", NOT_UTF8, ending(b"\xF0\x9F\x98")),
        Family::read("text with a wrong end", NOT_UTF8, ending(b"\xF0\x9F\x98\n")),
    ]
}

/// Text of at most this size that ends so.
fn text(size: usize, end: &[u8]) -> Vec<u8> {
    let times = size.saturating_sub(end.len()) / TEXT.len();
    [TEXT.repeat(times).as_bytes(), end].concat()
}
