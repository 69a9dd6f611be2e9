//! The UTF-8 check and the lexer.

use corpus::{
    Case, Family,
    frame::{Asked, frame},
    rooms::Needs,
};
use reference::{MAX_CONTROL_FLOW_NESTING, Rooms, Slices, answer};

use crate::part::{Exchange, Limits, Part, push_line};

pub fn part(limits: Limits) -> Part {
    Part {
        name: "lexer",
        families: Family::LEXER,
        exchange: Box::new(move |case| exchange(case, limits)),
    }
}

/// Answer: status and two values, kinds, ends. The other slices are empty.
fn exchange(case: &Case, limits: Limits) -> Exchange {
    let (row, tokens) = match answer::text(&case.source) {
        Err([status, first, second, _]) => ([status, first, second], Vec::new()),
        Ok(text) => {
            let tokens = reference::tokens(text);
            ([0, tokens.len() as u64, 0], tokens)
        },
    };
    let needs = Needs { tokens: tokens.len(), ..Needs::default() };
    let Rooms { token_kinds, token_ends, .. } = limits.cut(case.plan.rooms(needs));
    let rooms = Rooms { token_kinds, token_ends, ..Rooms::NONE };
    let mut slices = Slices::filled(rooms);
    slices.write_tokens(&tokens);

    let mut expected = Vec::new();
    push_line(&mut expected, row);
    push_line(&mut expected, slices.token_kinds);
    push_line(&mut expected, slices.token_ends);
    let frame = frame(Asked::Tokens, MAX_CONTROL_FLOW_NESTING, &case.source, rooms);
    Exchange { frame, expected }
}
