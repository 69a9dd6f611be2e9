//! The text of program `tree`.

use corpus::{
    Case, Family,
    frame::{Asked, frame},
};
use reference::tree::{ROOMS, tree};

use crate::part::{Exchange, Part};

/// One byte more than `tree` reads: longer sources are cut to this, and answered with `long`.
const LONGEST: usize = 2_049;

pub fn part() -> Part {
    Part { name: "trees", families: Family::PROGRAM, exchange: Box::new(exchange) }
}

/// Answer: what `tree` prints. The rooms are those of `tree`.
fn exchange(case: &Case) -> Exchange {
    let source = &case.source[..case.source.len().min(LONGEST)];
    let frame = frame(Asked::Tree, case.limit, source, ROOMS);
    Exchange { frame, expected: tree(case.limit, source) }
}
