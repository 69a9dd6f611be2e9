//! Sources with line ends of every sort (M-102): CR LF, a CR alone, LF and mixtures, in quotes and
//! comments too, and at the end.

use crate::{
    damage::damaged,
    pairs::{self, Pair, ended, started},
    random::Random,
    script::script,
    sequences,
};

/// M-102's table.
const TABLE: [&str; 9] =
    ["a\rb", "a\r\nb", "\r\r\n", "\n\r", "\"a\\\rb\"", "begin\r\n", "a\r", "é\ré$", "begin\r"];

/// Sources in which two sorts meet, and in which something is wrong there.
const MEETING: [&str; 15] = [
    "", "\r", "\n", "\r\n", "\r\n\r\n", "\r\r", "\n\n", "\n\r\n", "\r\n\r", "a\r\r\nb\n\rc\r\n",
    "\"a\\\r\nb\" $x", "# c\r# d\r\n#! e\n)", "begin\radd\r\nend\r)", "proc a\r\r\nend\r\n$x\r\n",
    "begin\n\radd\r\n",
];

const LETTERS: [&str; 5] = ["a", "\r", "\n", "\"", "\\"];

/// What stands in the place of each LF of a script.
const ENDS: [&str; 7] = ["\r", "\r\n", "\n", "\r\r\n", "\n\r", "\r\r", "\r\n\r\n"];

/// Quotes and comments with line ends in them or behind them.
const INSIDE: [&str; 7] = [
    "\"a\\\r\nb\"", "\"a\\\rb\"", "\"a\\\r\r\nb\"", "\"a\r\nb\"", "\"a\\\n\\\r\\\r\n", "# c\r",
    "#! d\r\n",
];

/// How a source ends; none of it closes a block, so the last character has a diagnostic.
const LAST: [&str; 8] =
    ["begin\r\n", "begin\r", "begin\r\r\n", "begin\n\r", "begin add\r\n\r\n", "\"u\r\n", ")\r", ""];

/// The table, and the sorts where they meet.
pub fn few() -> impl Iterator<Item = Vec<u8>> {
    TABLE.into_iter().chain(MEETING).map(|text| text.as_bytes().to_vec())
}

/// All short strings of line ends, quotes and a letter, alone and in a block that is not closed.
pub fn short() -> impl Iterator<Item = Vec<u8>> {
    let alone = sequences::all(&LETTERS, 6, "");
    let open = sequences::all(&LETTERS, 5, "").map(|text| [b"begin ", &text[..]].concat());
    alone.chain(open)
}

/// Lengths at which a reader may begin anew.
const BOUNDS: [usize; 5] = [64, 1_024, 2_048, 4_096, 65_536];

/// Line ends around each bound, and nothing but line ends up to it.
pub fn at_bounds() -> impl Iterator<Item = Vec<u8>> {
    let around = BOUNDS.into_iter().flat_map(|bound| {
        let pieces = ENDS.into_iter().flat_map(move |end| (0..=3).map(move |less| (end, less)));
        pieces.map(move |(end, less)| at_bound(bound, end, less))
    });
    let full = BOUNDS.into_iter().flat_map(|bound| ENDS.map(|end| full_of(bound, end)));
    around.chain(full.flatten())
}

/// Each sort at 1,024 bytes; its second byte stands behind them.
pub fn few_at_bounds() -> impl Iterator<Item = Vec<u8>> {
    ENDS.into_iter().map(|end| at_bound(1_024, end, 1))
}

/// A comment, a line end so many bytes before the bound, and something wrong behind it.
fn at_bound(bound: usize, end: &str, less: usize) -> Vec<u8> {
    let text = format!("#{}{end}$x\r\n", "c".repeat(bound - less - 1));
    text.into_bytes()
}

/// Line ends up to behind the bound, also behind one byte, so that one of two bytes has each place
/// in turn.
fn full_of(bound: usize, end: &str) -> [Vec<u8>; 2] {
    let ends = end.repeat(bound / end.len() + 3);
    [&ends, &format!(" {ends}")].map(|text| text.clone().into_bytes())
}

/// A script with other line ends; most have something wrong.
pub fn script_with_ends(random: &mut Random) -> Vec<u8> {
    let size = random.between(1, 200);
    let mut source = script(random, size).into_bytes();
    if random.one_in(2) {
        source = damaged(random, &source);
    }
    if random.one_in(3) {
        let at = random.below(source.len() + 1);
        source.splice(at..at, random.pick(&INSIDE).bytes());
    }
    source = replaced(random, &source);
    source.extend(random.pick(&LAST).bytes());
    source
}

/// Two files to be joined, with such line ends in both; the first ends in LF, mostly, and the
/// second may start with a CR.
pub fn pair(random: &mut Random) -> Pair {
    let (first, second) = (script_with_ends(random), script_with_ends(random));
    let start = random.pick(&["", "\r", "\r\n", "\n\r", "$x\r"]);
    (ended(random.pick(&pairs::LAST), first), started(start, second))
}

/// Each LF becomes what one of few choices says, so that most scripts have one sort or two.
fn replaced(random: &mut Random, source: &[u8]) -> Vec<u8> {
    let few: Vec<&str> = (0..random.between(1, 3)).map(|_| random.pick(&ENDS)).collect();
    let mut bytes = Vec::new();
    for byte in source {
        match byte {
            b'\n' => bytes.extend(random.pick(&few).bytes()),
            _ => bytes.push(*byte),
        }
    }
    bytes
}

#[cfg(test)]
mod tests {
    use super::*;
    use reference::{Lines, MAX_CONTROL_FLOW_NESTING, Reading, reading};

    /// Diagnostics of samples by where they start: at a CR, at the LF of a CR LF, behind a CR that
    /// is no LF's, behind a CR LF.
    #[test]
    fn diagnostics_stand_at_every_sort_of_end() {
        let mut random = Random::new(1);
        let mut counts = [0; 4];
        for source in (0..3_000).map(|_| script_with_ends(&mut random)) {
            let Reading::Parsed(parsed) = reading(MAX_CONTROL_FLOW_NESTING, &source) else {
                continue;
            };
            for found in parsed.diagnostics {
                let (before, behind) = source.split_at(found.start as usize);
                let lone = before.ends_with(b"\r") && !behind.starts_with(b"\n");
                counts[0] += usize::from(behind.starts_with(b"\r"));
                counts[1] += usize::from(before.ends_with(b"\r") && behind.starts_with(b"\n"));
                counts[2] += usize::from(lone);
                counts[3] += usize::from(before.ends_with(b"\r\n"));
            }
        }
        assert!(counts.into_iter().all(|count| count > 100), "{counts:?}");
    }

    /// Line ends that are completed before a bound, at it and behind it; a CR LF that lies across
    /// it too.
    #[test]
    fn ends_stand_around_bounds() {
        let sources: Vec<_> = at_bounds().collect();
        for bound in BOUNDS {
            for at in bound - 2..=bound + 2 {
                let completed = |source: &Vec<u8>| Lines::of(source).ends()[0] == at;
                assert!(sources.iter().any(completed), "{at}");
            }
            let across = |source: &Vec<u8>| source.get(bound - 1..=bound) == Some(b"\r\n");
            assert!(sources.iter().any(across), "{bound}");
        }
    }
}
