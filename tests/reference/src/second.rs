//! The second number of bytes that are no UTF-8, from M-105's words in docs/DEMANDS.md alone: no table, no `error_len`.

use std::collections::HashSet;

/// All proper starts of well-formed sequences: of the bytes of every character one or more, but not all.
pub struct ProperStarts(HashSet<Vec<u8>>);

impl ProperStarts {
    pub fn of_all_characters() -> Self {
        let starts = ('\0'..=char::MAX).flat_map(|character| {
            let bytes = character.to_string().into_bytes();
            (1..bytes.len()).map(move |length| bytes[..length].to_vec())
        });
        Self(starts.collect())
    }

    /// The number for the bytes from the offset to the end.
    pub fn second(&self, rest: &[u8]) -> usize {
        if self.0.contains(rest) {
            return 0;
        }
        let found = (1..=rest.len()).take_while(|length| self.0.contains(&rest[..*length]));
        found.last().unwrap_or(1)
    }
}
