//! Words, messages and characters in quotes.

use super::{changes::Change, kept::refused_word};

/// A word that no source has as an identifier, and a character that starts no token.
const NO_WORD: &str = "?";
const NO_CHARACTER: &str = "'\\u{E000}'";

/// Texts that no reading shows: of panics, of errors outside of the kept code, a file's name.
const HIDDEN: [&str; 6] = [
    "syntax error",
    "source files larger than 4GiB are not supported",
    "not eof",
    "unexpected trivia character: {first:?}",
    "memory:///inline.masm",
    "delimiter",
];

/// What stands beside a list of terminators.
const TERMINATORS: [&str; 3] = ["else", "end", "while"];

pub fn changes(body: &str) -> Vec<Change> {
    let mut changes = strings(body);
    changes.extend(characters(body));
    changes
}

/// A word is taken away, a message changed, and each terminator put into lists of them.
fn strings(body: &str) -> Vec<Change> {
    let mut changes = Vec::new();
    let mut at = 0;
    while let Some(start) = body[at..].find('"').map(|found| at + found) {
        if body[start - 1..].starts_with("'\"'") {
            at = start + 1;
            continue;
        }
        let end = start + 1 + body[start + 1..].find('"').expect("a closing quote");
        at = end + 1;
        let text = &body[start + 1..end];
        if HIDDEN.contains(&text) || refused_word(text) {
            continue;
        }
        if text.contains(' ') {
            changes.push(Change::new(start + 1..start + 1, NO_WORD));
        } else {
            changes.push(Change::new(start + 1..end, NO_WORD));
        }
        if body[at..].starts_with(']') {
            let list = &body[body[..at].rfind('[').unwrap_or(0)..at];
            let others = TERMINATORS.iter().filter(|other| !list.contains(**other));
            changes.extend(others.map(|other| Change::new(at..at, format!(", \"{other}\""))));
        }
    }
    changes
}

/// A character is taken away.
fn characters(body: &str) -> Vec<Change> {
    let ends = body.match_indices('\'').map(|(at, _)| at);
    let mut changes = Vec::new();
    for start in ends {
        let length = if body[start + 1..].starts_with('\\') { 4 } else { 3 };
        let character = body.get(start..start + length).filter(|found| found.ends_with('\''));
        let beside =
            body[..start].ends_with("..=") || body[start..].get(length..length + 3) == Some("..=");
        let before = body[..start].chars().next_back();
        let starts = matches!(before, Some(' ' | '('));
        if character.is_some() && starts && !beside {
            changes.push(Change::new(start..start + length, NO_CHARACTER));
        }
    }
    changes
}
