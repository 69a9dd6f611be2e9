//! The harness against an imitation of the lexer: right answers pass, every fault is caught.

mod common;

use std::process::{Command, Stdio};

use common::{DIFFER, Imitated};

const LEXER: Imitated = Imitated { part: "lexer" };

#[test]
fn right_answers_pass() {
    LEXER.passes("", "--every 13");
    LEXER.passes("", "--family edges --tokens 300");
}

#[test]
fn answers_held_to_the_end_pass() {
    LEXER.passes("hold", "--every 101");
}

#[test]
fn wrong_tokens_are_caught() {
    LEXER.caught("kind", "--every 13", "mismatch in spaced");
    LEXER.caught("end", "--every 13", "mismatch in");
    LEXER.caught("past", "--every 13", "mismatch in rooms");
    LEXER.caught("count", "--every 13", "mismatch in rooms");
}

#[test]
fn wrong_refusals_are_caught() {
    LEXER.caught("limit", "--family edges", "mismatch in edges");
    LEXER.caught("offset", "--every 13", "mismatch in utf8");
    LEXER.caught("second", "--every 13", "mismatch in utf8");
    LEXER.caught("touch", "--every 13", "mismatch in lexical");
    LEXER.caught("accept", "--family utf8", "source   \\xed\\xa0\\x80");
}

#[test]
fn wrong_ends_are_caught() {
    LEXER.caught("stop", "--every 13", "the program stopped after");
    LEXER.caught("hang", "--every 13 --patience 5", "no answer for 5 s after");
    LEXER.caught("extra", "--every 997", "the program wrote more than");
    LEXER.caught("exit", "--every 997", "the program ended with exit status: 3");
}

#[test]
fn a_missing_program_is_caught() {
    let status = Command::new(DIFFER)
        .args(["lexer", "--program", "no/such/program"])
        .stderr(Stdio::null())
        .output()
        .unwrap();
    assert!(!status.status.success());
    assert!(String::from_utf8_lossy(&status.stdout).contains("stopped after 0 answers"));
}
