//! Where an answer is not the reference's.

use std::fmt::Write;

use reference::{Answer, Slices};

/// A line for the status and for the first differing entry of each slice.
pub fn difference(status: u64, found: &Slices, expected: &Answer) -> String {
    let mut text = String::new();
    if status != expected.status {
        writeln!(text, "status {status}, expected {}", expected.status).unwrap();
    }
    let right = &expected.slices;
    entry(&mut text, "counts", &found.counts, &right.counts);
    entry(&mut text, "token_kinds", &found.token_kinds, &right.token_kinds);
    entry(&mut text, "token_ends", &found.token_ends, &right.token_ends);
    entry(&mut text, "events", &found.events, &right.events);
    entry(&mut text, "messages", &found.messages, &right.messages);
    entry(&mut text, "starts", &found.starts, &right.starts);
    entry(&mut text, "ends", &found.ends, &right.ends);
    text
}

fn entry<T: Copy + PartialEq + Into<u64>>(text: &mut String, name: &str, found: &[T], right: &[T]) {
    let mut entries = found.iter().zip(right).enumerate();
    if let Some((at, (found, right))) = entries.find(|(_, (found, right))| found != right) {
        let (found, right): (u64, u64) = ((*found).into(), (*right).into());
        writeln!(text, "{name}[{at}] is {found}, expected {right}").unwrap();
    }
}
