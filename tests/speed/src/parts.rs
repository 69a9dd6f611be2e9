//! Where the call's time goes. It ends early where the source is refused or a room is short, so the
//! times of three calls tell its parts.

use reference::{MAX_CONTROL_FLOW_NESTING as LIMIT, Rooms, Slices};

use crate::{inputs, timing};

type Side = timing::Side<Ends>;

/// Each goes one part further.
const SIDES: [Side; 3] = [
    Side { name: "UTF-8", call: not_utf8 },
    Side { name: "tokens", call: token_room },
    Side { name: "grammar", call: accepted },
];

/// Behind the last token, so that what comes before is read in full.
const NOT_UTF8: &[u8] = b"\xff";

/// The sources and the slices of the three calls.
struct Ends {
    not_utf8: Vec<u8>,
    slices: Slices,
    short: Slices,
}

/// The table of the parts' times.
pub fn run() {
    println!(
        "parts of the call, microseconds and percent, by the least times of three calls: one that"
    );
    println!("ends behind UTF-8, one behind the lexer and its words, and a whole one");
    print!("{:28} {:>9} {:>9}", "input", "bytes", "tokens");
    for side in &SIDES {
        print!("  {:>16}", side.name);
    }
    println!("  {:>10}", "whole");
    for input in inputs::scripts() {
        print_row(input.name, shortened(input.bytes));
    }
}

/// Cut at the end of a line, with room below the limit for what is put behind it.
fn shortened(mut source: Vec<u8>) -> Vec<u8> {
    source.truncate(source.len() - NOT_UTF8.len());
    while source.last() != Some(&b'\n') {
        source.pop();
    }
    source
}

fn print_row(name: &str, source: Vec<u8>) {
    let rooms = Rooms::ample(source.len() + NOT_UTF8.len());
    let mut slices = Slices::filled(rooms);
    assert_eq!(exported::parse_text(LIMIT, &source, (&mut slices).into()), 0);
    let tokens = slices.counts[0] as usize;
    let short = Slices::filled(Rooms { token_kinds: tokens - 1, ..rooms });
    let not_utf8 = [&source, NOT_UTF8].concat();
    let times = timing::time(&SIDES, &source, &mut Ends { not_utf8, slices, short });
    let whole = times[SIDES.len() - 1].least;
    print!("{name:28} {:9} {tokens:9}", source.len());
    let mut before = 0.0;
    for time in &times {
        let part = time.least - before;
        print!("  {part:10.1} {:3.0} %", 100.0 * part / whole);
        before = time.least;
    }
    println!("  {whole:10.1}");
}

fn not_utf8(_: &[u8], ends: &mut Ends) -> u64 {
    expect(2, exported::parse_text(LIMIT, &ends.not_utf8, (&mut ends.slices).into()))
}

fn token_room(source: &[u8], ends: &mut Ends) -> u64 {
    expect(3, exported::parse_text(LIMIT, source, (&mut ends.short).into()))
}

fn accepted(source: &[u8], ends: &mut Ends) -> u64 {
    expect(0, exported::parse_text(LIMIT, source, (&mut ends.slices).into()))
}

fn expect(expected: u64, status: u64) -> u64 {
    assert_eq!(status, expected);
    status
}
