//! Mistakes of a program, each small.

use reference::{
    MAX_CONTROL_FLOW_NESTING, MAX_SOURCE,
    limits::{ALLOWED, at_least},
    messages::DEPTH,
    parsed::unwanted,
    tokens,
};

use crate::call::Call;

/// The right answer, but for the faults that answer in another way.
pub fn answer(call: &mut Call, fault: &str) -> [u64; 4] {
    match fault {
        "limit" if call.source.len() >= MAX_SOURCE => [1, 0, 0, 0],
        "flat" => flat(call),
        "early" => unwanted_first(call),
        "unit" | "more" | "bits" => at_another_limit(call, fault),
        "late" => limit_last(call),
        _ => call.answer(),
    }
}

/// Takes an allowed limit for the unit's or for a greater one, or any from 16 bits.
fn at_another_limit(call: &mut Call, fault: &str) -> [u64; 4] {
    let allowed = ALLOWED.contains(&call.limit);
    let other = match fault {
        "unit" if allowed => Some(MAX_CONTROL_FLOW_NESTING),
        "more" if allowed => at_least(call.limit + 1),
        "bits" => at_least(call.limit & 0xFFFF),
        _ => None,
    };
    call.limit = other.unwrap_or(call.limit);
    call.answer()
}

/// Looks at the source before the limit.
fn limit_last(call: &mut Call) -> [u64; 4] {
    let right = call.answer();
    let too_long = call.source.len() > MAX_SOURCE;
    if right[0] == 9 && too_long { [1, 0, 0, 0] } else { right }
}

/// Tokens alone, in one node: linear in the source.
fn flat(call: &mut Call) -> [u64; 4] {
    let source = call.source.clone();
    let Ok(text) = std::str::from_utf8(&source) else { return call.answer() };
    let tokens = tokens(text);
    call.put_tokens(&tokens);
    let leaf = |kind: u16| if kind == 1 { 60 } else { kind };
    let leaves = tokens.iter().map(|token| leaf(token.kind));
    let events: Vec<u16> = [2].into_iter().chain(leaves).chain([0]).collect();
    call.put_events(&events);
    [0, tokens.len() as u64, events.len() as u64, 0]
}

/// Looks for `use` before the tokens' room.
fn unwanted_first(call: &mut Call) -> [u64; 4] {
    let text = std::str::from_utf8(&call.source).unwrap_or_default();
    let offset = unwanted(text);
    let right = call.answer();
    match offset {
        Some(offset) if right[0] == 3 => [4, offset as u64, 0, 0],
        _ => right,
    }
}

/// Makes the fault's mistake where the case allows it.
pub fn spoil(fault: &str, call: &mut Call, numbers: &mut [u64; 4]) {
    let [status, .., events, diagnostics] = *numbers;
    let parsed = status == 0 || status == 5;
    let room = call.diagnostic_room();
    let written = room.min(diagnostics as usize);
    match fault {
        "event" => replace(&mut call.events, 60, 1),
        "message" => replace(&mut call.messages, 9, 8),
        "offset" if status == 2 && numbers[1] > 30 => numbers[1] += 1,
        "second" if status == 2 && numbers[2] == 3 => numbers[2] = 2,
        "nine" if status == 9 => call.kinds.iter_mut().take(1).for_each(|kind| *kind = 31),
        "tokens" if status == 3 => call.kinds.fill(43690),
        "first" if status == 4 && numbers[1] > 0 => numbers[1] -= 1,
        "touch" if status == 4 && !call.events.is_empty() => call.events[0] = 2,
        "events" if parsed => numbers[2] = events.min(call.events.len() as u64),
        "diagnostics" if parsed => numbers[3] = diagnostics.min(room as u64),
        "fits" if status == 5 && written < diagnostics as usize => numbers[0] = 0,
        "past" if call.starts.len() > room => call.starts[room] = 0,
        "anchor" => at_the_end(call, written, |_, stop| *stop += 1),
        "length" => {
            at_the_end(call, written, |start, stop| (*start, *stop) = (*start + 1, *stop + 1))
        },
        "depth" if parsed => missing_end_too(call, numbers, written),
        "join" if call.source.len() > 30 && written > 1 => call.messages.swap(0, 1),
        _ => {},
    }
}

fn replace(numbers: &mut [u16], old: u16, new: u16) {
    numbers.iter_mut().filter(|number| **number == old).for_each(|number| *number = new);
}

/// Changes the diagnostics at the end of the file, whose spans are empty.
fn at_the_end(call: &mut Call, written: usize, change: fn(&mut u32, &mut u32)) {
    let spans = call.starts.iter_mut().zip(&mut call.stops).take(written);
    for (start, stop) in spans.filter(|(start, stop)| start == stop) {
        change(start, stop);
    }
}

/// Reports a missing `end` behind the depth diagnostic.
fn missing_end_too(call: &mut Call, numbers: &mut [u64; 4], written: usize) {
    let deep = call.messages[..written].contains(&DEPTH);
    if deep && call.diagnostic_room() > written {
        call.messages[written] = 1;
        numbers[3] += 1;
    }
}
