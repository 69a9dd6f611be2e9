//! One-line mutants of the upstream sources, all in one program: which one runs is set before a reading.

extern crate alloc;

#[allow(warnings)]
pub mod syntax {
    include!(concat!(env!("OUT_DIR"), "/syntax.rs"));
}
#[allow(warnings)]
pub mod lexer {
    include!(concat!(env!("OUT_DIR"), "/lexer.rs"));
}
#[allow(warnings)]
pub mod parser {
    include!(concat!(env!("OUT_DIR"), "/parser.rs"));
}
include!(concat!(env!("OUT_DIR"), "/table.rs"));

#[path = "../../reference/src/answer.rs"]
pub mod answer;
#[path = "../../reference/limits/ast.rs"]
pub mod ast;
#[path = "../../reference/src/parsed.rs"]
pub mod parsed;

// Names that the upstream sources and the reference's files expect at the crate root.
pub use miden_utils_diagnostics as diagnostics;
pub use reference::messages;
pub use syntax::MasmLanguage;

/// The limit of the patched parser.
pub const MAX_CONTROL_FLOW_NESTING: usize = reference::MAX_CONTROL_FLOW_NESTING as usize;

pub mod equivalent;
pub mod limits;
pub mod pool;
mod run;
pub mod stores;

pub use run::{ITSELF, mutant, on_large_stack, reading, step, tokens};

/// One change: where (file, line and column), what stands there and what is put there.
#[derive(Debug)]
pub struct Mutant {
    pub place: &'static str,
    pub from: &'static str,
    pub to: &'static str,
}

// What the build makes the mutants with.
#[cfg(test)]
#[path = "../make/mod.rs"]
#[allow(dead_code)]
mod make;
#[cfg(test)]
mod tests;
