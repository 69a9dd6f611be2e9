//! What an accepting call gives.

use reference::{Diagnostic, Parsed, Rooms, Slices, Token};

use crate::zones::{Call, call};

/// What the call gives of a source at a limit, if it accepts; the texts of diagnostics are empty.
pub fn accepted(made: Call, limit: u64, source: &[u8], rooms: Rooms) -> Option<Parsed> {
    let (status, slices) = call(made, limit, source, rooms);
    given(status, &slices?)
}

/// The same of what a call has left.
pub fn given(status: u64, slices: &Slices) -> Option<Parsed> {
    let counts: Vec<usize> = slices.counts.iter().map(|count| *count as usize).collect();
    let &[tokens, events, diagnostics] = counts.as_slice() else { return None };
    let token = |at: usize| {
        Some(Token { kind: *slices.token_kinds.get(at)?, end: *slices.token_ends.get(at)? })
    };
    let diagnostic = |at: usize| {
        Some(Diagnostic {
            message: *slices.messages.get(at)?,
            start: *slices.starts.get(at)?,
            end: *slices.ends.get(at)?,
            text: String::new(),
        })
    };
    (status == 0).then_some(())?;
    Some(Parsed {
        tokens: (0..tokens).map(token).collect::<Option<_>>()?,
        events: slices.events.get(..events)?.to_vec(),
        diagnostics: (0..diagnostics).map(diagnostic).collect::<Option<_>>()?,
    })
}
