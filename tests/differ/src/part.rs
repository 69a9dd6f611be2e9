//! What the harness must know of the part of the reader that is compared.

use std::io::Write;

use corpus::{Case, Family};
use reference::Rooms;

pub struct Part {
    pub name: &'static str,
    pub families: &'static [Family],
    pub exchange: Box<dyn Fn(&Case) -> Exchange + Sync>,
}

/// What the program is sent for a case, and what it must answer.
#[derive(Debug, Clone, PartialEq, Eq)]
pub struct Exchange {
    pub frame: Vec<u8>,
    pub expected: Vec<u8>,
}

/// The greatest lengths of slices that the program is asked for.
#[derive(Debug, Clone, Copy)]
pub struct Limits {
    pub tokens: usize,
    pub events: usize,
    pub diagnostics: usize,
}

impl Default for Limits {
    fn default() -> Self {
        Self { tokens: 262_144, events: 917_506, diagnostics: 262_144 }
    }
}

impl Limits {
    pub fn cut(&self, rooms: Rooms) -> Rooms {
        Rooms {
            counts: 3,
            token_kinds: rooms.token_kinds.min(self.tokens),
            token_ends: rooms.token_ends.min(self.tokens),
            events: rooms.events.min(self.events),
            messages: rooms.messages.min(self.diagnostics),
            starts: rooms.starts.min(self.diagnostics),
            ends: rooms.ends.min(self.diagnostics),
        }
    }
}

/// Appends one line with the numbers of a slice.
pub fn push_line(text: &mut Vec<u8>, numbers: impl IntoIterator<Item = impl Into<u64>>) {
    for (index, number) in numbers.into_iter().enumerate() {
        let space = if index == 0 { "" } else { " " };
        write!(text, "{space}{}", number.into()).expect("memory takes all writes");
    }
    text.push(b'\n');
}
