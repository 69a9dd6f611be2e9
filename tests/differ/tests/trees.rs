//! The harness against an imitation of the text of `tree`: right answers pass, every fault is caught.

mod common;

use common::Imitated;

const TREES: Imitated = Imitated { part: "trees" };

#[test]
fn right_answers_pass() {
    TREES.passes("", "--every 29");
}

#[test]
fn wrong_texts_are_caught() {
    TREES.caught("long", "--family edges", "mismatch in edges");
    TREES.caught("error", "--family damaged --every 9", "mismatch in damaged");
    TREES.caught("column", "--family examples", "mismatch in examples");
    TREES.caught("leaf", "--family spaced --every 9", "mismatch in spaced");
    TREES.caught("named", "--family limits", "limit 64)");
}

#[test]
fn wrong_ends_are_caught() {
    TREES.caught("stop", "--family rooms", "the program stopped after");
    TREES.caught("extra", "--family examples", "the program wrote more than");
}
