//! Tests: each condition and each call that answers yes or no is negated or made constant.

use super::changes::Change;

/// The starts of calls that answer yes or no.
const TESTS: [&str; 22] = [
    "expects_continuation_operand(",
    "matches!(",
    "nesting.is_root(",
    "predicate(",
    "punctuation_continues_instruction(",
    "self.at_bare_while(",
    "self.at_block_recovery_boundary(",
    "self.at_control_flow_operation(",
    "self.at_keyword(",
    "self.at_kind(",
    "self.at_name_like(",
    "self.at_prefixed_keyword(",
    "self.at_regular_trivia(",
    "self.at_terminator(",
    "self.at_top_level_form_starter_in_block(",
    "self.can_start_instruction(",
    "self.can_start_operation(",
    "self.eof(",
    "self.is_top_level_starter(",
    "self.line_break_starts_new_top_level_item(",
    "is_reserved_block_keyword(",
    "terminators.contains(",
];

pub fn changes(body: &str) -> Vec<Change> {
    let mut changes = Vec::new();
    for test in TESTS {
        for (start, _) in body.match_indices(test) {
            let end = closed(body, start + test.len());
            changes.extend(["true", "false"].map(|answer| Change::new(start..end, answer)));
        }
    }
    for word in ["if ", "while "] {
        for (start, _) in body.match_indices(word) {
            changes.extend(condition(body, start + word.len()));
        }
    }
    changes
}

/// The place behind the parenthesis that closes the one before `start`.
pub fn closed(body: &str, start: usize) -> usize {
    let mut depth = 1;
    for (at, character) in body[start..].char_indices() {
        match character {
            '(' => depth += 1,
            ')' => depth -= 1,
            _ => {},
        }
        if depth == 0 {
            return start + at + 1;
        }
    }
    panic!("no closing parenthesis in {body}");
}

/// The condition of an `if` or a `while`, up to its brace; `if let` and the guards of arms have none.
fn condition(body: &str, start: usize) -> Vec<Change> {
    let end = body[start..].find('{').map_or(start, |found| start + found);
    let text = body[start..end].trim_end();
    if text.is_empty() || text.starts_with("let ") || text.contains([';']) || text.contains("=>") {
        return Vec::new();
    }
    let place = start..start + text.len();
    let answers = [format!("!({text})"), "true".into(), "false".into()];
    answers.map(|answer| Change::new(place.clone(), answer)).into()
}
