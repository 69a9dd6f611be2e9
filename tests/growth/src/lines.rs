//! Sources and offsets whose lines and columns are asked.

use crate::measure::{ACCEPTED, Family, Make, scripts};

/// Where no offset is below the one before it one walk over the source is enough; where they fall,
/// each may take a part of the source more. The words are an order, and how many bytes there are
/// for an offset.
pub fn families() -> [Family; 14] {
    [
        family("script, few rising", &["lines", "rising", "16"], Box::new(scripts)),
        family("script, rising", &["lines", "rising", "1"], Box::new(scripts)),
        family("CR LF lines, rising", &["lines", "rising", "1"], Box::new(cr_lf)),
        family("CRs, rising", &["lines", "rising", "1"], of(b"\r")),
        family("one line, rising", &["lines", "rising", "1"], of(b"a")),
        family("script, falling", &["lines", "falling", "1"], Box::new(scripts)),
        family("CR LF lines, falling", &["lines", "falling", "16"], Box::new(cr_lf)),
        family("CRs, falling", &["lines", "falling", "16"], of(b"\r")),
        family("one line, falling", &["lines", "falling", "16"], of(b"a")),
        family("script, to and fro", &["lines", "fro", "16"], Box::new(scripts)),
        family("one line, to and fro", &["lines", "fro", "16"], of(b"a")),
        family("one line, back each time", &["lines", "back", "2048"], of(b"a")),
        family("script, mixed", &["lines", "mixed", "16"], Box::new(scripts)),
        family("one line, mixed", &["lines", "mixed", "16"], of(b"a")),
    ]
}

fn family(name: &'static str, words: &'static [&'static str], make: Make) -> Family {
    Family { name, words, answer: ACCEPTED, make }
}

/// One byte again and again.
fn of(byte: &'static [u8]) -> Make {
    Box::new(|size| byte.repeat(size))
}

/// The script with CR LF in the place of each LF, cut to the size.
fn cr_lf(size: usize) -> Vec<u8> {
    let ends = |byte: u8| if byte == b'\n' { b"\r\n".to_vec() } else { vec![byte] };
    scripts(size).into_iter().flat_map(ends).take(size).collect()
}
