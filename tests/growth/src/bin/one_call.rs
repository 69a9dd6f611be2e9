//! Makes an exported call once, on a source from standard input.
//!
//! Without words it is `masm_parse_text` at the unit's limit, with rooms that are enough for any
//! source of its length, and the status and the counts are printed. `limit N` is the same at another
//! limit. `lines ORDER STEP` is `masm_lines` with one offset for each STEP bytes, in the order `back`
//! each behind the source's start again, `lines ends` with all token ends and `lines starts` with the
//! starts of all diagnostics; 0 and how many were written are printed.

use std::{
    env,
    io::{self, Read},
};

use corpus::{
    offsets::{Order, ordered},
    random::Random,
};
use reference::{MAX_CONTROL_FLOW_NESTING, Reading, Rooms, Slices, reading};

fn main() {
    let words: Vec<String> = env::args().skip(1).collect();
    let words: Vec<&str> = words.iter().map(String::as_str).collect();
    let mut source = Vec::new();
    io::stdin().read_to_end(&mut source).expect("a source on standard input");
    match words[..] {
        [] => read(MAX_CONTROL_FLOW_NESTING, &source),
        ["limit", limit] => read(limit.parse().expect("a number"), &source),
        ["lines", ref which @ ..] => lines(&source, &offsets(&source, which)),
        _ => panic!("no call is named {words:?}"),
    }
}

fn read(limit: u64, source: &[u8]) {
    let mut slices = Slices::filled(Rooms::ample(source.len()));
    let status = exported::parse_text(limit, source, (&mut slices).into());
    let [tokens, events, diagnostics] = slices.counts[..] else { unreachable!("three counts") };
    println!("{status} {tokens} {events} {diagnostics}");
}

fn lines(source: &[u8], offsets: &[u32]) {
    let [mut lines, mut columns] = [0, 0].map(|fill| vec![fill; offsets.len()]);
    let written = exported::lines(source, offsets, &mut lines, &mut columns);
    assert_eq!(written, offsets.len() as u64, "every offset has a line");
    println!("0 {written}");
}

fn offsets(source: &[u8], which: &[&str]) -> Vec<u32> {
    match *which {
        ["ends"] => reading(MAX_CONTROL_FLOW_NESTING, source)
            .tokens()
            .iter()
            .map(|token| token.end)
            .collect(),
        ["starts"] => starts(&reading(MAX_CONTROL_FLOW_NESTING, source)),
        [order, step] => {
            let rising = (0..=source.len() as u32).step_by(step.parse().expect("a number"));
            if order == "back" {
                return rising.flat_map(|offset| [0, offset]).collect();
            }
            ordered(rising.collect(), named(order), &mut Random::new(102))
        },
        _ => panic!("no offsets are named {which:?}"),
    }
}

fn starts(reading: &Reading) -> Vec<u32> {
    match reading {
        Reading::Parsed(parsed) => parsed.diagnostics.iter().map(|found| found.start).collect(),
        _ => Vec::new(),
    }
}

fn named(order: &str) -> Order {
    match order {
        "rising" => Order::Rising,
        "falling" => Order::Falling,
        "fro" => Order::Fro,
        "mixed" => Order::Mixed,
        _ => panic!("no order is named {order}"),
    }
}
