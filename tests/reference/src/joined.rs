//! Demand 3: which files may be joined, and what the reading of the join is then.

use crate::{
    answer::{self, MAX_SOURCE, Rooms},
    parsed::{Diagnostic, Parsed, Token, parsed, unwanted},
    syntax::SyntaxKind,
};

/// Whether the upstream parser's reading of the join, at a limit, is as demand 3 says; nothing where its
/// premise does not hold.
pub fn obeyed(limit: u64, first: &[u8], second: &[u8]) -> Option<bool> {
    obeyed_by(|source, _| accepted(limit, source), first, second)
}

/// The same of any reader at one limit, which is given a source and rooms and answers if it accepts. The join
/// is read with the least rooms that demand 3 allows.
pub fn obeyed_by(
    mut read: impl FnMut(&[u8], Rooms) -> Option<Parsed>,
    first: &[u8],
    second: &[u8],
) -> Option<bool> {
    let [a, b] = [first, second].map(|source| read(source, Rooms::ample(source.len())));
    let (a, b) = (a?, b?);
    let whole = [first, second].concat();
    if whole.len() > MAX_SOURCE || !may_end(first, &a) || !may_follow(&b) {
        return None;
    }
    let expected = joined(a, b, first.len() as u32);
    let found = read(&whole, Rooms::exact(&expected));
    Some(found.is_some_and(|found| found == expected))
}

/// The reading of an accepted source.
fn accepted(limit: u64, source: &[u8]) -> Option<Parsed> {
    let text = answer::text(source).ok()?;
    unwanted(text).is_none().then(|| parsed(limit, text))
}

/// The last token is a newline ending in LF, and the token before it is the `end` that closes a
/// procedure or `begin` block under the root.
fn may_end(source: &[u8], reading: &Parsed) -> bool {
    let [before @ .., end, newline] = reading.tokens.as_slice() else { return false };
    let start = before.last().map_or(0, |token| token.end);
    newline.kind == SyntaxKind::Newline as u16
        && source.ends_with(b"\n")
        && end.kind == SyntaxKind::Ident as u16
        && source[start as usize..end.end as usize] == *b"end"
        && closed_behind(&reading.events, before.len()).is_some_and(|open| is_top_level(&open))
}

/// The nodes that are open, outermost first, at the 0 that stands just behind the event of token
/// `index`; nothing where no 0 stands there.
fn closed_behind(events: &[u16], index: usize) -> Option<Vec<u16>> {
    let (mut open, mut tokens) = (Vec::new(), 0);
    for (place, &event) in events.iter().enumerate() {
        match event {
            0 => {
                open.pop();
            },
            1..=26 => open.push(event),
            _ if tokens == index => return (events.get(place + 1) == Some(&0)).then_some(open),
            _ => tokens += 1,
        }
    }
    None
}

/// The innermost node is a procedure or `begin` block, and its parent the root.
fn is_top_level(open: &[u16]) -> bool {
    let items = [SyntaxKind::BeginBlock, SyntaxKind::Procedure].map(|kind| kind as u16);
    matches!(open, [_, item] if items.contains(item))
}

/// The first token that is no trivia is not `)`.
fn may_follow(reading: &Parsed) -> bool {
    let trivia = SyntaxKind::Whitespace as u16..=SyntaxKind::DocComment as u16;
    let first = reading.tokens.iter().find(|token| !trivia.contains(&token.kind));
    first.is_none_or(|token| token.kind != SyntaxKind::RParen as u16)
}

/// The first reading and then the second, moved on by the first source's length.
fn joined(first: Parsed, second: Parsed, length: u32) -> Parsed {
    let Parsed { mut tokens, mut events, mut diagnostics } = first;
    let moved = |token: &Token| Token { end: token.end + length, ..*token };
    tokens.extend(second.tokens.iter().map(moved));
    events.pop();
    events.extend(&second.events[1..]);
    diagnostics.extend(second.diagnostics.into_iter().map(|found| Diagnostic {
        start: found.start + length,
        end: found.end + length,
        ..found
    }));
    Parsed { tokens, events, diagnostics }
}

#[cfg(test)]
mod tests {
    use super::*;

    /// `begin end` and a newline, with these events: BeginBlock is 13, Block 18, Error 1.
    fn may_end_with(events: &[u16]) -> bool {
        let token = |(kind, end): (SyntaxKind, u32)| Token { kind: kind as u16, end };
        let tokens = [
            (SyntaxKind::Ident, 5),
            (SyntaxKind::Whitespace, 6),
            (SyntaxKind::Ident, 9),
            (SyntaxKind::Newline, 10),
        ];
        let (events, diagnostics) = (events.to_vec(), vec![]);
        let reading = Parsed { tokens: tokens.map(token).to_vec(), events, diagnostics };
        may_end(b"begin end\n", &reading)
    }

    /// Only the event of the `end`, the 0 behind it and the nodes open there count: where the
    /// newline stands does not.
    #[test]
    fn the_end_closes_a_child_of_the_root() {
        assert!(may_end_with(&[2, 13, 31, 27, 18, 0, 31, 0, 28, 0]));
        assert!(may_end_with(&[2, 14, 31, 27, 18, 0, 31, 0, 28, 0]));
        assert!(may_end_with(&[2, 13, 31, 27, 18, 0, 31, 0, 1, 28, 0, 0]));
        assert!(may_end_with(&[2, 13, 31, 27, 31, 0, 18, 0, 28, 1, 0, 0]));
    }

    #[test]
    fn the_end_closes_something_else() {
        let outside: [&[u16]; 6] = [
            &[2, 11, 31, 27, 18, 0, 31, 0, 28, 0],
            &[2, 13, 31, 27, 18, 31, 0, 0, 28, 0],
            &[2, 13, 31, 27, 31, 18, 0, 0, 28, 0],
            &[2, 13, 31, 27, 31, 28, 0, 0],
            &[2, 1, 13, 31, 27, 31, 0, 0, 28, 0],
            &[13, 31, 27, 31, 0, 28, 0],
        ];
        for events in outside {
            assert!(!may_end_with(events), "{events:?}");
        }
    }
}
