//! Classes of characters: a bound of a range moves by one, and other characters are let in.

use super::changes::Change;

/// A test, the ranges that it stands for, and wider tests.
const CLASSES: [(&str, &[(u8, u8)], &[&str]); 4] = [
    ("ch.is_ascii_graphic()", &[(b'!', b'~')], &["ch.is_ascii()"]),
    (
        "ch.is_ascii_alphanumeric()",
        &[(b'a', b'z'), (b'A', b'Z'), (b'0', b'9')],
        &["ch.is_alphanumeric()"],
    ),
    ("ch.is_ascii_hexdigit()", &[(b'a', b'f'), (b'A', b'F'), (b'0', b'9')], &[]),
    ("ch.is_ascii_digit()", &[(b'0', b'9')], &["ch.is_numeric()"]),
];

pub fn changes(body: &str) -> Vec<Change> {
    let mut changes = Vec::new();
    for (test, ranges, wider) in CLASSES {
        for (at, _) in body.match_indices(test) {
            let others =
                neighbours(ranges).into_iter().chain(wider.iter().map(|test| test.to_string()));
            changes.extend(others.map(|other| Change::new(at..at + test.len(), other)));
        }
    }
    changes.extend(written(body));
    changes
}

/// The tests with one bound of one range moved.
fn neighbours(ranges: &[(u8, u8)]) -> Vec<String> {
    let mut tests = Vec::new();
    for (place, (low, high)) in ranges.iter().enumerate() {
        for moved in [(low - 1, *high), (low + 1, *high), (*low, high - 1), (*low, high + 1)] {
            let mut others = ranges.to_vec();
            others[place] = moved;
            let ranges: Vec<String> =
                others.iter().map(|(low, high)| format!("{low}..={high}")).collect();
            tests.push(format!("matches!(u32::from(ch), {})", ranges.join(" | ")));
        }
    }
    tests
}

/// The same of ranges that are written out.
fn written(body: &str) -> Vec<Change> {
    let mut changes = Vec::new();
    for (at, _) in body.match_indices("'..='") {
        for place in [at - 1, at + "'..='".len()] {
            let byte = body.as_bytes()[place];
            let moved = [byte - 1, byte + 1].map(char::from);
            changes.extend(moved.map(|moved| Change::new(place..place + 1, moved)));
        }
    }
    changes
}
