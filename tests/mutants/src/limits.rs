//! The patched parser in the place of the reference's: it has the unit's limit alone.

use miden_utils_diagnostics::miette::MietteDiagnostic;
use rowan::GreenNode;

use crate::parser;

pub use reference::limits::{ALLOWED, MAX_CONTROL_FLOW_NESTING};

/// What a mutant makes of a text.
pub fn parse(limit: u64, text: &str) -> (GreenNode, Vec<MietteDiagnostic>) {
    assert_eq!(limit, MAX_CONTROL_FLOW_NESTING, "the limit of the mutants");
    let mut parse = parser::parse_text(text);
    (parse.syntax().green().clone(), parse.take_diagnostics())
}
