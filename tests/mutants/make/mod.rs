//! Makes the mutants: the functions of a file, the changes of each, and a text with all of them.

pub mod calls;
pub mod changes;
mod classes;
pub mod functions;
mod kept;
mod lists;
mod statements;
mod texts;
pub mod weave;
