//! A frame with its slices, and the right answer to it.

use std::io::Read;

use reference::{Diagnostic, MAX_SOURCE, Token, limits::ALLOWED, parsed, parsed::unwanted, tokens};

/// A source, the limit on nesting and the slices lent.
pub struct Call {
    pub limit: u64,
    pub source: Vec<u8>,
    pub kinds: Vec<u16>,
    pub ends: Vec<u32>,
    pub events: Vec<u16>,
    pub messages: Vec<u16>,
    pub starts: Vec<u32>,
    pub stops: Vec<u32>,
}

/// The part that asks for lines, and has offsets behind the source.
pub const LINES: usize = 3;

impl Call {
    /// The part and the call of the next frame; nothing at the end of the input.
    pub fn next(stdin: &mut impl Read) -> Option<(usize, Self)> {
        let mut header = [0; 36];
        stdin.read_exact(&mut header).ok()?;
        let numbers: Vec<usize> = header
            .chunks(4)
            .map(|bytes| u32::from_le_bytes(bytes.try_into().unwrap()) as usize)
            .collect();
        let narrow = |at: usize| vec![43690; numbers[at]];
        let wide = |at: usize| vec![2863311530; numbers[at]];
        let mut call = Self {
            limit: numbers[1] as u64,
            source: vec![0; numbers[2]],
            kinds: narrow(3),
            ends: wide(4),
            events: narrow(5),
            messages: narrow(6),
            starts: wide(7),
            stops: wide(8),
        };
        stdin.read_exact(&mut call.source).ok()?;
        if numbers[0] == LINES {
            call.read_offsets(stdin)?;
        }
        Some((numbers[0], call))
    }

    /// The offsets, into the slice that has their number.
    fn read_offsets(&mut self, stdin: &mut impl Read) -> Option<()> {
        for offset in &mut self.ends {
            let mut bytes = [0; 4];
            stdin.read_exact(&mut bytes).ok()?;
            *offset = u32::from_le_bytes(bytes);
        }
        Some(())
    }

    /// The lengths of the slices.
    pub fn lengths(&self) -> [usize; 6] {
        let Self { kinds, ends, events, messages, starts, stops, .. } = self;
        [kinds.len(), ends.len(), events.len(), messages.len(), starts.len(), stops.len()]
    }

    pub fn token_room(&self) -> usize {
        self.kinds.len().min(self.ends.len())
    }

    pub fn diagnostic_room(&self) -> usize {
        self.messages.len().min(self.starts.len()).min(self.stops.len())
    }

    /// The four numbers; the slices are written.
    pub fn answer(&mut self) -> [u64; 4] {
        if !ALLOWED.contains(&self.limit) {
            return [9, 0, 0, 0];
        }
        if self.source.len() > MAX_SOURCE {
            return [1, 0, 0, 0];
        }
        let source = self.source.clone();
        let text = match std::str::from_utf8(&source) {
            Ok(text) => text,
            Err(error) => {
                let second = error.error_len().unwrap_or_default();
                return [2, error.valid_up_to() as u64, second as u64, 0];
            },
        };
        let tokens = tokens(text);
        self.put_tokens(&tokens);
        let count = tokens.len() as u64;
        if tokens.len() > self.token_room() {
            return [3, count, 0, 0];
        }
        if let Some(offset) = unwanted(text) {
            return [4, offset as u64, 0, 0];
        }
        let parsed = parsed(self.limit, text);
        self.put_events(&parsed.events);
        self.put_diagnostics(&parsed.diagnostics);
        let fits = parsed.events.len() <= self.events.len()
            && parsed.diagnostics.len() <= self.diagnostic_room();
        let status = if fits { 0 } else { 5 };
        [status, count, parsed.events.len() as u64, parsed.diagnostics.len() as u64]
    }

    pub fn put_tokens(&mut self, tokens: &[Token]) {
        for (at, token) in tokens.iter().enumerate().take(self.token_room()) {
            self.kinds[at] = token.kind;
            self.ends[at] = token.end;
        }
    }

    pub fn put_events(&mut self, events: &[u16]) {
        let fit = events.len().min(self.events.len());
        self.events[..fit].copy_from_slice(&events[..fit]);
    }

    fn put_diagnostics(&mut self, diagnostics: &[Diagnostic]) {
        for (at, found) in diagnostics.iter().enumerate().take(self.diagnostic_room()) {
            self.messages[at] = found.message;
            self.starts[at] = found.start;
            self.stops[at] = found.end;
        }
    }
}
