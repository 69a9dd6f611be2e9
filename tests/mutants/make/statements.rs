//! Statements: each is left out; each that takes tokens is made twice, and trivia is skipped behind it.

use std::ops::Range;

use super::{changes::Change, functions::Function};

/// What takes tokens.
const TAKING: [&str; 4] = ["self.bump();", "self.parse_", "self.expect_k", "let _ = self.expect_k"];

/// What skips whitespace, newlines and comments itself, and what skips whitespace.
const REGULAR: [&str; 6] = [
    "self.bump_regular_trivia", "self.expect_k", "let _ = self.expect_k", "if !self.expect_k",
    "self.parse_balanced_group", "self.parse_expr_until_line_end",
];
const INLINE: [&str; 4] = [
    "self.bump_inline_whitespace", "self.bump_non_comment_trivia", "self.parse_line_tail",
    "self.parse_structured_header_suffixes",
];

/// Behind an item or an operation these two skip trivia anyway.
const LOOPS: [&str; 2] = ["parse_source_item", "parse_block"];

pub fn changes(function: &Function) -> Vec<Change> {
    let places = statements(&function.body);
    let left_out = places.iter().map(|place| {
        let arm = function.body[place.clone()].ends_with(',');
        Change::new(place.clone(), if arm { "()," } else { "" })
    });
    let mut changes: Vec<Change> = left_out.collect();
    let taking = |place: &Range<usize>| is_one_of(&function.body[place.clone()], &TAKING);
    // A line's tail is taken once: no second one stands behind it.
    let twice = places
        .iter()
        .filter(|place| taking(place) && !function.body[(*place).clone()].contains("line_tail"));
    changes.extend(twice.map(|place| {
        Change::new(place.end..place.end, format!(" {}", &function.body[place.clone()]))
    }));
    if function.name.starts_with("parse") && !LOOPS.contains(&function.name.as_str()) {
        changes.extend(
            places.into_iter().filter(taking).flat_map(|place| skips(&function.body, place)),
        );
    }
    changes
}

fn is_one_of(statement: &str, starts: &[&str]) -> bool {
    starts.iter().any(|start| statement.starts_with(start))
}

/// Skipping at the end of a statement, where neither it nor the next one skips as much.
fn skips(body: &str, place: Range<usize>) -> Vec<Change> {
    let end = place.end;
    let next = next_statement(body, end);
    let regular = is_one_of(next, &REGULAR);
    let inline = regular || is_one_of(next, &INLINE) || is_one_of(&body[place], &INLINE);
    let skip = |name: &str| Change::new(end..end, format!(" self.{name}();"));
    let mut changes = Vec::new();
    if !regular {
        changes.push(skip("bump_regular_trivia"));
    }
    if !regular && !next.starts_with("self.bump_non_comment_trivia") {
        changes.push(skip("bump_non_comment_trivia"));
    }
    if !inline {
        changes.push(skip("bump_inline_whitespace"));
    }
    changes
}

/// What is done behind a statement: the rest of its line's block, or what stands behind the block.
fn next_statement(body: &str, end: usize) -> &str {
    let mut lines = body[end..].lines().skip(1).filter(|line| !line.is_empty());
    while let Some(line) = lines.next() {
        let text = line.trim_start();
        if text.starts_with("} else") {
            let closing = line.replace(text, "}");
            lines.by_ref().find(|line| *line == closing);
        } else if text != "}" {
            return text;
        }
    }
    ""
}

/// The expression statements and assignments, and the same behind arrows.
fn statements(body: &str) -> Vec<Range<usize>> {
    let mut places = Vec::new();
    let mut start = 0;
    for line in body.split('\n') {
        let text = line.trim_start();
        let at = start + line.len() - text.len();
        if let Some(end) = statement_end(body, at, text) {
            places.push(at..end);
        }
        if let Some((pattern, arm)) = text.split_once("=> ").filter(|(_, arm)| is_arm(arm)) {
            let from = at + pattern.len() + "=> ".len();
            places.push(from..from + arm.len());
        }
        start += line.len() + 1;
    }
    places
}

/// Where the statement that starts at `at` ends, if one does that may be left out.
fn statement_end(body: &str, at: usize, line: &str) -> Option<usize> {
    if let Some(statement) = line.strip_suffix(';').filter(|statement| is_statement(statement)) {
        // The way out of a `let … else` can't be left out.
        let before = body[..at].trim_end().rsplit('\n').next().unwrap_or_default();
        let needed = before.trim_start().starts_with("let ") && before.ends_with("else {");
        return (!needed).then_some(at + statement.len() + 1);
    }
    if !(line.starts_with("self.") && line.ends_with('(')) {
        return None;
    }
    let indent = at - body[..at].rfind('\n').map_or(0, |found| found + 1);
    let closings = [");", "));"].map(|closing| format!("\n{}{closing}", " ".repeat(indent)));
    let ends =
        closings.iter().filter_map(|closing| Some(at + body[at..].find(closing)? + closing.len()));
    ends.min()
}

fn is_statement(text: &str) -> bool {
    let call = is_one_of(text, &["self.", "let _ = self."]) && text.ends_with(')');
    let signs = [" = ", " += ", " -= ", " |= ", " &= "];
    let assigned = signs.iter().any(|sign| text.contains(sign))
        && !text.contains("==")
        && !text.contains("=>");
    let place = text.starts_with(|c: char| c.is_lowercase() || c == '*')
        && !is_one_of(text, &["let ", "if ", "while "]);
    let jump = matches!(text, "break" | "continue") || text.starts_with("return");
    call || assigned && place || jump
}

/// An arm of a match whose value is nothing.
fn is_arm(text: &str) -> bool {
    let arm = text.trim_end_matches(',');
    arm == "self.bump()" || is_statement(arm) && !arm.ends_with(')') && !arm.starts_with("return ")
}
