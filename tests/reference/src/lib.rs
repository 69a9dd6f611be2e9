//! The upstream lexer and parser, compiled unchanged at several limits, and document 01's answers made from them.

pub mod answer;
pub mod joined;
pub mod limits;
pub mod lines;
pub mod messages;
pub mod parsed;
pub mod second;
pub mod tree;

// The same at every limit; the parser here is the one with the unit's.
pub use limit_256::{MasmLanguage, lexer, parser, syntax};

pub use answer::{Answer, MAX_SOURCE, Reading, Rooms, Slices, answer, reading};
pub use limits::{LIMITS, MAX_CONTROL_FLOW_NESTING};
pub use lines::{Lines, Place};
pub use parsed::{Diagnostic, Parsed, Token, parsed, tokens};
