//! The output of program `tree` (document 01; lines and columns by M-102).

use std::io::Write;

use crate::{
    answer,
    lines::{Lines, Place},
    parsed,
};

const MAX_INPUT: usize = 2_048;

/// What `tree` lends.
pub const ROOMS: answer::Rooms = answer::Rooms {
    counts: 3,
    token_kinds: MAX_INPUT,
    token_ends: MAX_INPUT,
    events: 14_338,
    messages: MAX_INPUT,
    starts: MAX_INPUT,
    ends: MAX_INPUT,
};

/// What `tree` prints for this input at a limit; its own is the unit's. After `ok` and `no 5` the events and diagnostics in the slices follow.
pub fn tree(limit: u64, source: &[u8]) -> Vec<u8> {
    if source.len() > MAX_INPUT {
        return b"long\n".to_vec();
    }
    let answer::Answer { status, counts: [a, b, c], .. } = answer::answer(limit, source, ROOMS);
    let mut out = match status {
        0 => format!("ok {a} {b} {c}\n"),
        _ => format!("no {status} {a} {b} {c}\n"),
    }
    .into_bytes();
    if status == 0 || status == 5 {
        let text = str::from_utf8(source).expect("a source with a tree is UTF-8");
        let parsed = parsed::parsed(limit, text);
        print_events(&mut out, &parsed);
        let lines = Lines::of(source);
        for diagnostic in parsed.diagnostics.iter().take(ROOMS.diagnostics()) {
            print_diagnostic(&mut out, &lines, diagnostic);
        }
    }
    out
}

fn print_events(out: &mut Vec<u8>, parsed: &parsed::Parsed) {
    let mut tokens = parsed.tokens.iter();
    let mut start = 0;
    for &event in parsed.events.iter().take(ROOMS.events) {
        match event {
            0 => writeln!(out, "-"),
            1..=26 => writeln!(out, "+ {event}"),
            _ => {
                let token = tokens.next().expect("one token for each token event");
                let from = std::mem::replace(&mut start, token.end);
                writeln!(out, "= {} {from} {}", token.kind, token.end)
            },
        }
        .expect("memory takes all writes");
    }
}

/// Prints `! line column start end text` (M-102).
fn print_diagnostic(out: &mut Vec<u8>, lines: &Lines, diagnostic: &parsed::Diagnostic) {
    let parsed::Diagnostic { start, end, text, .. } = diagnostic;
    let Place { line, column } = lines.place(*start);
    writeln!(out, "! {line} {column} {start} {end} {text}").expect("memory takes all writes");
}
