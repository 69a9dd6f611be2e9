//! The harness against an imitation of the reader: right answers pass, every fault is caught.

mod common;

use common::Imitated;

const READER: Imitated = Imitated { part: "readings" };

#[test]
fn right_answers_pass() {
    READER.passes("", "--every 17");
    READER.passes("", "--family nested --tokens 300 --events 1000 --diagnostics 100");
}

#[test]
fn answers_held_to_the_end_pass() {
    READER.passes("hold", "--family slices");
}

#[test]
fn wrong_trees_are_caught() {
    READER.caught("event", "--family damaged --every 9", "mismatch in damaged");
    READER.caught("message", "--family publics", "mismatch in publics");
    READER.caught("depth", "--family nested", "mismatch in nested");
    READER.caught("join", "--family pairs", "mismatch in pairs");
    READER.caught("flat", "--family shapes", "mismatch in shapes");
}

#[test]
fn wrong_places_are_caught() {
    READER.caught("anchor", "--family examples", "mismatch in examples");
    READER.caught("length", "--family examples", "mismatch in examples");
    READER.caught("past", "--family slices", "mismatch in slices");
}

#[test]
fn wrong_counts_are_caught() {
    READER.caught("events", "--family slices", "mismatch in slices");
    READER.caught("diagnostics", "--family rooms", "mismatch in rooms");
    READER.caught("fits", "--family slices", "mismatch in slices");
}

#[test]
fn wrong_refusals_are_caught() {
    READER.caught("limit", "--family edges", "mismatch in edges");
    READER.caught("offset", "--family utf8", "mismatch in utf8");
    READER.caught("second", "--family utf8", "mismatch in utf8");
    READER.caught("tokens", "--family slices", "mismatch in slices");
    READER.caught("first", "--family spaced --every 9", "mismatch in spaced");
    READER.caught("touch", "--family samples --every 9", "mismatch in samples");
    READER.caught("early", "--family rooms", "mismatch in rooms");
}

#[test]
fn wrong_limits_are_caught() {
    READER.caught("unit", "--family limits --every 9", "mismatch in limits");
    READER.caught("more", "--family limits --every 9", "mismatch in limits");
    READER.caught("more", "--family lower", "mismatch in lower");
    READER.caught("bits", "--family limits", "mismatch in limits");
    READER.caught("late", "--family limits", "mismatch in limits");
    READER.caught("nine", "--family limits", "mismatch in limits");
}

#[test]
fn wrong_ends_are_caught() {
    READER.caught("stop", "--family rooms", "the program stopped after");
    READER.caught("hang", "--family rooms --patience 5", "no answer for 5 s after");
    READER.caught("extra", "--family examples", "the program wrote more than");
    READER.caught("exit", "--family examples", "the program ended with exit status: 3");
}

#[test]
fn joined_files_are_counted() {
    let (success, text) = READER.run("", "--family pairs");
    assert!(success, "{text}");
    let line = text.lines().find(|line| line.starts_with("demand 3 of the reference: "));
    assert!(line.is_some_and(|line| line.ends_with(" pairs, 0 failures")), "{text}");
}
