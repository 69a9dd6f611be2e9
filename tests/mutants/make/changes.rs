//! The changes of one function: each replaces one place of its body.

use std::{collections::BTreeSet, ops::Range};

use super::{calls, classes, functions::Function, kept::refused_line, lists, statements, texts};

#[derive(Debug, Clone, PartialEq, Eq)]
pub struct Change {
    pub place: Range<usize>,
    pub text: String,
}

impl Change {
    pub fn new(place: Range<usize>, text: impl Into<String>) -> Self {
        Self { place, text: text.into() }
    }

    /// The body with the change made.
    pub fn of(&self, body: &str) -> String {
        [&body[..self.place.start], &self.text, &body[self.place.end..]].concat()
    }
}

/// All changes, each result once, in the order of their places.
pub fn all(function: &Function) -> Vec<Change> {
    let body = &function.body;
    let mut changes = exchanges(body);
    changes.extend(classes::changes(body));
    changes.extend(lists::changes(body));
    changes.extend(texts::changes(body));
    changes.extend(calls::changes(body));
    changes.extend(statements::changes(function));
    changes.retain(|change| !left_out(body, change.place.start));
    changes.sort_by_key(|change| (change.place.start, change.place.end));
    let mut seen = BTreeSet::from([body.clone()]);
    changes.retain(|change| seen.insert(change.of(body)));
    changes
}

/// Whether a place is in a comment, or in a line that only concerns refused words.
fn left_out(body: &str, at: usize) -> bool {
    let start = body[..at].rfind('\n').map_or(0, |at| at + 1);
    let end = body[at..].find('\n').map_or(body.len(), |found| at + found);
    let line = body[start..end].trim_start();
    line.starts_with("//") || refused_line(line)
}

/// Spellings, and what each is exchanged for.
const EXCHANGES: [(&str, &[&str]); 44] = [
    ("&& ", &["|| "]),
    ("|| ", &["&& "]),
    (" == ", &[" != "]),
    (" != ", &[" == "]),
    (" < ", &[" <= ", " > "]),
    (" >= ", &[" > "]),
    (" |= ", &[" = "]),
    (" &= ", &[" = "]),
    (" += 1", &[" += 2", " += 0"]),
    (" -= 1", &[" -= 0"]),
    (" + 1", &["", " + 2"]),
    ("(self.pos)", &["(self.pos + 1)"]),
    ("checked_sub(1)", &["checked_sub(0)", "checked_sub(2)"]),
    ("1usize", &["0usize", "2usize"]),
    (", 0)", &[", 1)"]),
    (", nesting_depth)", &[", nesting_depth + 1)", ", nesting_depth - 1)"]),
    (
        "< MAX_CONTROL_FLOW_NESTING",
        &["< MAX_CONTROL_FLOW_NESTING - 1", "< MAX_CONTROL_FLOW_NESTING + 1"],
    ),
    ("break", &["continue"]),
    ("continue", &["break"]),
    ("true", &["false"]),
    ("false", &["true"]),
    ("is_some_and", &["is_none_or"]),
    ("is_some()", &["is_none()"]),
    (".any(", &[".all("]),
    (".last()", &[".next()"]),
    ("try_from(offset)", &["try_from(offset + 1)"]),
    ("unwrap_or(self.eof_span)", &["unwrap_or(self.tokens[0].span())"]),
    ("bump_regular_trivia()", &["bump_inline_whitespace()", "bump_non_comment_trivia()"]),
    ("bump_inline_whitespace()", &["bump_regular_trivia()", "bump_non_comment_trivia()"]),
    ("bump_non_comment_trivia()", &["bump_regular_trivia()", "bump_inline_whitespace()"]),
    ("parse_line_tail()", &["bump_inline_whitespace()", "bump_regular_trivia()"]),
    ("peek_after_non_comment_trivia()", &["peek_after_inline_whitespace()", "current_kind()"]),
    ("peek_after_inline_whitespace()", &["peek_after_non_comment_trivia()", "current_kind()"]),
    ("next_relevant_top_level_token(", &["next_relevant_block_token("]),
    ("next_relevant_block_token(", &["next_relevant_top_level_token("]),
    ("self.next_relevant_top_level_token(self.pos + 1)", &["Some(self.pos + 1)"]),
    ("self.next_relevant_top_level_token(index + 1)?", &["index + 1"]),
    ("self.next_relevant_top_level_token(next + 1)?", &["next + 1"]),
    ("at_top_level_form_starter_in_block()", &["at_top_level_form_starter()"]),
    ("=> self.at_top_level_form_starter()", &["=> false"]),
    ("error_here(", &["error_at_eof("]),
    ("error_at_eof(", &["error_here("]),
    ("at_bare_while()", &["at_keyword(\"while\")"]),
    ("ch.len_utf8()", &["1"]),
];

fn exchanges(body: &str) -> Vec<Change> {
    let mut changes = Vec::new();
    for (from, to) in EXCHANGES {
        for (at, _) in body.match_indices(from) {
            if !inside_word(body, at, from)
                && !within_let(body, at, from)
                && !closure(body, at, from)
            {
                changes.extend(to.iter().map(|to| Change::new(at..at + from.len(), *to)));
            }
        }
    }
    changes
}

/// Whether the spelling is only a part of a word there.
fn inside_word(body: &str, at: usize, from: &str) -> bool {
    let word = |character: Option<char>| character.is_some_and(|c| c.is_alphanumeric() || c == '_');
    let (before, behind) = (body[..at].chars().next_back(), body[at + from.len()..].chars().next());
    word(from.chars().next()) && word(before) || word(from.chars().next_back()) && word(behind)
}

/// `&&` behind `if let` has no other reading.
fn within_let(body: &str, at: usize, from: &str) -> bool {
    let statement = body[..at].rfind("if ").map_or("", |start| &body[start..at]);
    from == "&& " && statement.starts_with("if let ")
}

/// `||` starts a closure there.
fn closure(body: &str, at: usize, from: &str) -> bool {
    from == "|| " && body[..at].ends_with('(')
}
