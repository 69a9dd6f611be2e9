//! Message numbers, read from docs/MESSAGES.md.

use std::{collections::HashMap, sync::OnceLock};

use crate::MAX_CONTROL_FLOW_NESTING;

const DOCUMENT: &str = include_str!("../../../docs/MESSAGES.md");

/// The two texts that vary: the token is quoted after the first, the limit named in the second.
pub const UNRECOGNIZED: &str = "unrecognized token";
const DEPTH_TEXT: &str = "control-flow nesting depth exceeded the maximum depth of ";

/// The number of that about nesting.
pub const DEPTH: u16 = 49;

#[derive(Debug, Clone, PartialEq, Eq)]
pub struct Row {
    pub number: u16,
    pub text: String,
    pub smallest: Vec<u8>,
}

/// The table's rows in the order of the document.
pub fn rows() -> &'static [Row] {
    static ROWS: OnceLock<Vec<Row>> = OnceLock::new();
    ROWS.get_or_init(|| DOCUMENT.lines().filter_map(row).collect())
}

/// The number of a text that the parser reported at a limit, which the depth text names. The document names the unit's.
pub fn number_of(limit: u64, text: &str) -> Option<u16> {
    static NUMBERS: OnceLock<HashMap<&str, u16>> = OnceLock::new();
    let numbers =
        NUMBERS.get_or_init(|| rows().iter().map(|row| (row.text.as_str(), row.number)).collect());
    let quotes_token = |rest: &str| rest.starts_with(" `") && rest.ends_with('`');
    if text.strip_prefix(UNRECOGNIZED).is_some_and(quotes_token) {
        return numbers.get(UNRECOGNIZED).copied();
    }
    if let Some(named) = text.strip_prefix(DEPTH_TEXT) {
        let document = format!("{DEPTH_TEXT}{MAX_CONTROL_FLOW_NESTING}");
        return numbers.get(document.as_str()).copied().filter(|_| named == limit.to_string());
    }
    numbers.get(text).copied()
}

/// Reads `| number | text | smallest input |`; other lines are no rows.
fn row(line: &str) -> Option<Row> {
    let cells: Vec<&str> = line.strip_prefix("| ")?.strip_suffix(" |")?.split(" | ").collect();
    let [number, text, smallest] = cells.as_slice() else { return None };
    let number = number.parse().ok()?;
    Some(Row { number, text: text.to_string(), smallest: input(smallest) })
}

/// Reads an input: pieces in backticks, joined by ` + `, each perhaps with `N × ` before it.
fn input(cell: &str) -> Vec<u8> {
    let mut bytes = Vec::new();
    for piece in cell.split(" + ") {
        let (times, quoted) = match piece.split_once(" × ") {
            Some((times, quoted)) => (times.parse().expect("a count before ×"), quoted),
            None => (1, piece),
        };
        let text = quoted.strip_prefix('`').and_then(|rest| rest.strip_suffix('`'));
        let text = text.unwrap_or_else(|| panic!("an input not in backticks: {cell}"));
        bytes.extend(text.replace("\\n", "\n").repeat(times).bytes());
    }
    bytes
}
