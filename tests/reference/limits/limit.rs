//! The upstream lexer and parser, compiled unchanged with one limit on control-flow nesting.
//!
//! The parser takes its limit from `crate::MAX_CONTROL_FLOW_NESTING`, and a crate has one. So each limit is a package: the
//! folders beside this file hold a Cargo.toml each and share this file. The build takes the limit from the package's name.

extern crate alloc;

// Modules `lexer`, `parser` and `syntax`, and the constant MAX_CONTROL_FLOW_NESTING.
include!(concat!(env!("OUT_DIR"), "/sources.rs"));

pub mod ast;

use diagnostics::miette::MietteDiagnostic;

// Names that the upstream sources expect at the crate root.
pub use miden_utils_diagnostics as diagnostics;
pub use syntax::MasmLanguage;

/// The tree of a text, and its diagnostics.
pub fn parse(text: &str) -> (rowan::GreenNode, Vec<MietteDiagnostic>) {
    let mut parse = parser::parse_text(text);
    (parse.syntax().green().clone(), parse.take_diagnostics())
}
