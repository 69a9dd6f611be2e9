//! The harness against an imitation of the lines and columns: right answers pass, every fault is
//! caught.

mod common;

use common::Imitated;

const LINES: Imitated = Imitated { part: "lines" };

#[test]
fn right_answers_pass() {
    LINES.passes("", "--every 29");
    LINES.passes("", "--family lines --every 3");
}

#[test]
fn answers_held_to_the_end_pass() {
    LINES.passes("hold", "--family slices");
}

#[test]
fn wrong_ends_of_lines_are_caught() {
    LINES.caught("lone", "--family lines --every 9", "mismatch in lines");
    LINES.caught("two", "--family lines --every 9", "mismatch in lines");
}

#[test]
fn wrong_columns_are_caught() {
    LINES.caught("zero", "--family examples", "mismatch in examples");
    LINES.caught("clip", "--family examples", "mismatch in examples");
}

#[test]
fn wrong_counts_are_caught() {
    LINES.caught("past", "--family slices", "mismatch in slices");
    LINES.caught("count", "--family rooms", "mismatch in rooms");
    LINES.caught("limit", "--family edges --every 5", "mismatch in edges");
}

#[test]
fn wrong_ends_are_caught() {
    LINES.caught("stop", "--family rooms", "the program stopped after");
    LINES.caught("extra", "--family examples", "the program wrote more than");
}
