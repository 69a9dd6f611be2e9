//! The whole answer of document 01, for any bytes and any rooms.

use std::str;

use crate::{
    limits,
    parsed::{self, Parsed, Token},
};

/// A longer source is refused.
pub const MAX_SOURCE: usize = 1_048_576;

/// What the slices hold before the call.
pub const FILL_U16: u16 = 0xAAAA;
pub const FILL_U32: u32 = 0xAAAA_AAAA;
pub const FILL_U64: u64 = 0xAAAA_AAAA_AAAA_AAAA;

/// The length of each lent slice, in numbers of its width.
#[derive(Debug, Clone, Copy, PartialEq, Eq)]
pub struct Rooms {
    pub counts: usize,
    pub token_kinds: usize,
    pub token_ends: usize,
    pub events: usize,
    pub messages: usize,
    pub starts: usize,
    pub ends: usize,
}

/// The lent slices.
#[derive(Debug, Clone, PartialEq, Eq)]
pub struct Slices {
    pub counts: Vec<u64>,
    pub token_kinds: Vec<u16>,
    pub token_ends: Vec<u32>,
    pub events: Vec<u16>,
    pub messages: Vec<u16>,
    pub starts: Vec<u32>,
    pub ends: Vec<u32>,
}

/// The four returned numbers and what is left in the slices.
#[derive(Debug, Clone, PartialEq, Eq)]
pub struct Answer {
    pub status: u64,
    /// The three numbers after the status; zeros where the status is 6.
    pub counts: [u64; 3],
    pub slices: Slices,
}

impl Rooms {
    pub const NONE: Self = Self {
        counts: 0,
        token_kinds: 0,
        token_ends: 0,
        events: 0,
        messages: 0,
        starts: 0,
        ends: 0,
    };

    /// Every room is enough for a source of this length.
    pub fn ample(source: usize) -> Self {
        let diagnostics = 2 * source + 1;
        Self {
            counts: 3,
            token_kinds: source,
            token_ends: source,
            events: 7 * source + 2,
            messages: diagnostics,
            starts: diagnostics,
            ends: diagnostics,
        }
    }

    /// Every room is what a reading fills.
    pub fn exact(parsed: &Parsed) -> Self {
        let (tokens, diagnostics) = (parsed.tokens.len(), parsed.diagnostics.len());
        Self {
            counts: 3,
            token_kinds: tokens,
            token_ends: tokens,
            events: parsed.events.len(),
            messages: diagnostics,
            starts: diagnostics,
            ends: diagnostics,
        }
    }

    pub fn tokens(&self) -> usize {
        self.token_kinds.min(self.token_ends)
    }

    pub fn diagnostics(&self) -> usize {
        self.messages.min(self.starts).min(self.ends)
    }
}

impl Slices {
    pub fn filled(rooms: Rooms) -> Self {
        Self {
            counts: vec![FILL_U64; rooms.counts],
            token_kinds: vec![FILL_U16; rooms.token_kinds],
            token_ends: vec![FILL_U32; rooms.token_ends],
            events: vec![FILL_U16; rooms.events],
            messages: vec![FILL_U16; rooms.messages],
            starts: vec![FILL_U32; rooms.starts],
            ends: vec![FILL_U32; rooms.ends],
        }
    }

    /// Writes the first tokens that fit.
    pub fn write_tokens(&mut self, tokens: &[Token]) {
        let pairs = self.token_kinds.iter_mut().zip(&mut self.token_ends);
        for ((kind, end), token) in pairs.zip(tokens) {
            (*kind, *end) = (token.kind, token.end);
        }
    }

    /// Writes the first events and diagnostics that fit.
    fn write_tree(&mut self, parsed: &Parsed) {
        for (event, value) in self.events.iter_mut().zip(&parsed.events) {
            *event = *value;
        }
        let places = self.messages.iter_mut().zip(&mut self.starts).zip(&mut self.ends);
        for (((message, start), end), value) in places.zip(&parsed.diagnostics) {
            (*message, *start, *end) = (value.message, value.start, value.end);
        }
    }
}

/// What a source holds, before any room is looked at.
#[derive(Debug, Clone, PartialEq, Eq)]
pub enum Reading {
    /// Refusal 9, 1 or 2.
    Refused([u64; 4]),
    /// Refusal 4: the tokens, and where the first `use` or `extern` starts.
    Unwanted(Vec<Token>, usize),
    Parsed(Parsed),
}

/// The answer over slices that hold the fillers.
pub fn answer(limit: u64, source: &[u8], rooms: Rooms) -> Answer {
    reading(limit, source).answer(rooms)
}

/// The source as text, or the numbers of refusal 1 or 2.
pub fn text(source: &[u8]) -> Result<&str, [u64; 4]> {
    if source.len() > MAX_SOURCE {
        return Err([1, 0, 0, 0]);
    }
    str::from_utf8(source).map_err(|error| {
        let second = error.error_len().unwrap_or(0);
        [2, error.valid_up_to() as u64, second as u64, 0]
    })
}

/// What the source holds at a limit: any number that is none of those allowed is refused before the source is looked at.
pub fn reading(limit: u64, source: &[u8]) -> Reading {
    if !limits::ALLOWED.contains(&limit) {
        return Reading::Refused([9, 0, 0, 0]);
    }
    match text(source) {
        Err(refusal) => Reading::Refused(refusal),
        Ok(text) => match parsed::unwanted(text) {
            Some(offset) => Reading::Unwanted(parsed::tokens(text), offset),
            None => Reading::Parsed(parsed::parsed(limit, text)),
        },
    }
}

impl Reading {
    pub fn answer(&self, rooms: Rooms) -> Answer {
        let mut slices = Slices::filled(rooms);
        if rooms.counts < 3 {
            return Answer { status: 6, counts: [0; 3], slices };
        }
        let [status, counts @ ..] = self.numbers(rooms, &mut slices);
        slices.counts[..3].copy_from_slice(&counts);
        Answer { status, counts, slices }
    }

    pub fn tokens(&self) -> &[Token] {
        match self {
            Self::Refused(_) => &[],
            Self::Unwanted(tokens, _) => tokens,
            Self::Parsed(parsed) => &parsed.tokens,
        }
    }

    /// The four numbers for a call whose counts fit, in the order in which the table is checked.
    fn numbers(&self, rooms: Rooms, slices: &mut Slices) -> [u64; 4] {
        let tokens = self.tokens().len();
        slices.write_tokens(self.tokens());
        if tokens > rooms.tokens() {
            return [3, tokens as u64, 0, 0];
        }
        match self {
            Self::Refused(refusal) => *refusal,
            Self::Unwanted(_, offset) => [4, *offset as u64, 0, 0],
            Self::Parsed(parsed) => {
                slices.write_tree(parsed);
                let (events, diagnostics) = (parsed.events.len(), parsed.diagnostics.len());
                let short = events > rooms.events || diagnostics > rooms.diagnostics();
                let status = if short { 5 } else { 0 };
                [status, tokens as u64, events as u64, diagnostics as u64]
            },
        }
    }
}
