//! The rows of document 01's answer table.

use reference::{
    Answer, LIMITS, MAX_CONTROL_FLOW_NESTING, MAX_SOURCE, Rooms, Slices, answer,
    answer::{FILL_U16, FILL_U32},
};

const ROOMS: Rooms =
    Rooms { counts: 3, token_kinds: 8, token_ends: 9, events: 20, messages: 5, starts: 6, ends: 7 };

/// Status and counts, and whether the token, event and diagnostic slices are unchanged.
fn summary(answer: &Answer, rooms: Rooms) -> (u64, [u64; 3], [bool; 3]) {
    let (slices, before) = (&answer.slices, Slices::filled(rooms));
    let tokens = slices.token_kinds == before.token_kinds && slices.token_ends == before.token_ends;
    let diagnostics = slices.messages == before.messages
        && slices.starts == before.starts
        && slices.ends == before.ends;
    let unchanged = [tokens, slices.events == before.events, diagnostics];
    (answer.status, answer.counts, unchanged)
}

fn check(source: &[u8], rooms: Rooms, expected: (u64, [u64; 3], [bool; 3])) -> Answer {
    let found = answer(MAX_CONTROL_FLOW_NESTING, source, rooms);
    assert_eq!(summary(&found, rooms), expected);
    if rooms.counts >= 3 {
        assert_eq!(found.slices.counts[..3], expected.1);
    }
    found
}

#[test]
fn six_counts_too_short() {
    let rooms = Rooms { counts: 2, ..ROOMS };
    let found = check(&vec![b'a'; MAX_SOURCE + 1], rooms, (6, [0; 3], [true; 3]));
    assert_eq!(found.slices, Slices::filled(rooms));
}

/// Before any other refusal but 6, which leaves the counts too; no bits of the limit are cut off.
#[test]
fn nine_no_limit() {
    let refused =
        [0, 257, 65_541, u64::from(u32::MAX), (1 << 32) + 5, (1 << 32) + 256, 1 << 63, u64::MAX];
    let long = vec![0xFF; MAX_SOURCE + 1];
    for limit in refused {
        for source in [&b""[..], b"\xFF", b"use", &long] {
            for rooms in [ROOMS, Rooms { counts: 3, ..Rooms::NONE }] {
                let found = answer(limit, source, rooms);
                assert_eq!(summary(&found, rooms), (9, [0; 3], [true; 3]));
                assert_eq!(found.slices.counts, [0; 3]);
            }
            let rooms = Rooms { counts: 2, ..ROOMS };
            assert_eq!(answer(limit, source, rooms).status, 6);
        }
    }
    for limit in LIMITS {
        assert_eq!(answer(limit, &long, ROOMS).status, 1);
    }
}

#[test]
fn one_too_long() {
    check(&vec![0xFF; MAX_SOURCE + 1], ROOMS, (1, [0; 3], [true; 3]));
}

#[test]
fn two_not_utf8() {
    let second = |end: &[u8], second: u64| {
        let rooms = Rooms { token_kinds: 0, ..ROOMS };
        check(&[b"use ", end].concat(), rooms, (2, [4, second, 0], [true; 3]));
    };
    second(b"\xC3", 0);
    second(b"\xF0\x9F\x98", 0);
    second(b"\xFF", 1);
    second(b"\xE2\x82\n", 2);
    second(b"\xF0\x9F\x98\n", 3);
}

#[test]
fn three_tokens_do_not_fit() {
    let rooms = Rooms { token_kinds: 2, ..ROOMS };
    let found = check(b"use a b", rooms, (3, [5, 0, 0], [false, true, true]));
    assert_eq!(found.slices.token_kinds, [31, 27]);
    assert_eq!(found.slices.token_ends[..3], [3, 4, FILL_U32]);
}

#[test]
fn four_unwanted_identifier() {
    let found = check(b"a extern use", ROOMS, (4, [2, 0, 0], [false, true, true]));
    assert_eq!(found.slices.token_kinds[..6], [31, 27, 31, 27, 31, FILL_U16]);
    check(b"\"use\" # extern", ROOMS, (0, [3, 7, 1], [false; 3]));
}

#[test]
fn five_events_do_not_fit() {
    let found = check(b"begin", Rooms { events: 6, ..ROOMS }, (5, [1, 7, 1], [false; 3]));
    assert_eq!(found.slices.events, [2, 13, 31, 18, 0, 0]);
    assert_eq!((found.slices.messages[0], found.slices.starts[0]), (1, 4));
}

#[test]
fn five_diagnostics_do_not_fit() {
    let rooms = Rooms { messages: 3, starts: 1, ends: 2, ..ROOMS };
    let found = check(b")]", rooms, (5, [2, 8, 2], [false; 3]));
    assert_eq!(found.slices.messages, [22, FILL_U16, FILL_U16]);
    assert_eq!((found.slices.starts.as_slice(), found.slices.ends[0]), (&[0][..], 1));
}

#[test]
fn zero_exact_rooms() {
    let rooms = Rooms {
        counts: 4,
        token_kinds: 1,
        token_ends: 1,
        events: 7,
        messages: 1,
        starts: 1,
        ends: 1,
    };
    let found = check(b"begin", rooms, (0, [1, 7, 1], [false; 3]));
    assert_eq!(found.slices.events, [2, 13, 31, 18, 0, 0, 0]);
}
