//! The reference in the place of the calls, for tests that put faults in.

use reference::{
    Answer, Rooms, answer,
    limits::{ALLOWED, at_least},
    lines,
};

use crate::Lent;

/// What the reference says, written into lent slices. In the place of an allowed limit with which it is not compiled it takes the next.
pub fn answer_into(limit: u64, source: &[u8], lent: &mut Lent) -> u64 {
    let rooms = Rooms {
        counts: lent.counts.len(),
        token_kinds: lent.token_kinds.len(),
        token_ends: lent.token_ends.len(),
        events: lent.events.len(),
        messages: lent.messages.len(),
        starts: lent.starts.len(),
        ends: lent.ends.len(),
    };
    let compiled = at_least(limit).filter(|_| ALLOWED.contains(&limit)).unwrap_or(limit);
    let Answer { status, slices, .. } = answer(compiled, source, rooms);
    lent.counts.copy_from_slice(&slices.counts);
    lent.token_kinds.copy_from_slice(&slices.token_kinds);
    lent.token_ends.copy_from_slice(&slices.token_ends);
    lent.events.copy_from_slice(&slices.events);
    lent.messages.copy_from_slice(&slices.messages);
    lent.starts.copy_from_slice(&slices.starts);
    lent.ends.copy_from_slice(&slices.ends);
    status
}

/// What M-102 says of lines and columns, written into lent slices.
pub fn lines_into(source: &[u8], offsets: &[u32], lines: &mut [u32], columns: &mut [u32]) -> u64 {
    let left = lines::left(source, offsets, lines.to_vec(), columns.to_vec());
    lines.copy_from_slice(&left.lines);
    columns.copy_from_slice(&left.columns);
    left.returned
}
