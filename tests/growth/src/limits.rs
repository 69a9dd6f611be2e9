//! Sources at limits below the unit's: nested as deep as that, or deeper, where the rest of the file is one node.

use corpus::deep;

use crate::measure::{ACCEPTED, Family, Make, Row, scripts};

const ONE: &[&str] = &["limit", "1"];
const SIXTY_FOUR: &[&str] = &["limit", "64"];

/// One source, too deep at the one limit and not at the other.
const TOO_DEEP: &str = "a script, limit 1";
const DEEP_ENOUGH: &str = "a script, limit 64";

pub fn families() -> [Family; 9] {
    let opened = || "if ".repeat(64);
    [
        family("`if`s beyond limit 1", ONE, repeated("begin".into(), " if".into(), "")),
        family("`if`s beyond limit 64", SIXTY_FOUR, repeated("begin".into(), " if".into(), "")),
        family("loops at limit 1", ONE, repeated("begin\n".into(), loops(), "end\n")),
        family("loops beyond limit 1", ONE, repeated("begin if.a\n".into(), loops(), "end end\n")),
        family(TOO_DEEP, ONE, Box::new(scripts)),
        family(DEEP_ENOUGH, SIXTY_FOUR, Box::new(scripts)),
        family("forms 64 deep", SIXTY_FOUR, repeated("begin\n".into(), deep::nest(64), "end\n")),
        family(
            "docs in blocks 64 deep",
            SIXTY_FOUR,
            repeated(format!("begin {}", opened()), "#! d\n".into(), "proc b end\n"),
        ),
        family(
            "`pub (` in blocks 64 deep",
            SIXTY_FOUR,
            repeated(format!("begin {}", opened()), "pub ( ".into(), "proc b end\n"),
        ),
    ]
}

/// Whether both were counted and took as many instructions, as where the limit does not reach the call.
pub fn ignored(rows: &[Row]) -> bool {
    let counted = |name| rows.iter().find(|row| row.name == name).map(|row| row.instructions);
    counted(TOO_DEEP).is_some_and(|count| counted(DEEP_ENOUGH) == Some(count))
}

fn family(name: &'static str, words: &'static [&'static str], make: Make) -> Family {
    Family { name, words, answer: ACCEPTED, make }
}

fn loops() -> String {
    "while.true add end\n".into()
}

/// A piece again and again between a head and a tail, up to the size.
fn repeated(head: String, piece: String, tail: &'static str) -> Make {
    Box::new(move |size| {
        let times = size.saturating_sub(head.len() + tail.len()) / piece.len();
        [&head, &piece.repeat(times), tail].concat().into_bytes()
    })
}
