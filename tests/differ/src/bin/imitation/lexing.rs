//! The lexer's answers, by a plain lexer, and its faults.

use reference::MAX_SOURCE;

use crate::{call::Call, output::put_row};

/// Status and two values, kinds and ends, each in a line.
pub fn put_answer(fault: &str, mut call: Call, out: &mut Vec<u8>) {
    let mut row = answer(&mut call, fault);
    spoil(fault, &mut call, &mut row);
    put_row(out, row.into_iter());
    put_row(out, call.kinds.iter().copied().map(u64::from));
    put_row(out, call.ends.iter().copied().map(u64::from));
}

fn answer(call: &mut Call, fault: &str) -> [u64; 3] {
    let limit = MAX_SOURCE - usize::from(fault == "limit");
    if call.source.len() > limit {
        return [1, 0, 0];
    }
    match plain::lex(&call.source, &mut call.kinds, &mut call.ends) {
        Ok(count) => [0, count as u64, 0],
        Err(error) => [2, error.valid_up_to() as u64, error.error_len().unwrap_or_default() as u64],
    }
}

/// Makes the fault's mistake where the case allows it.
fn spoil(fault: &str, call: &mut Call, row: &mut [u64; 3]) {
    let room = call.token_room();
    let [status, value, second] = row;
    match fault {
        "kind" => call.kinds.iter_mut().filter(|kind| **kind == 58).for_each(|kind| *kind = 57),
        "end" if room > 4 && *status == 0 => call.ends[4] += u32::from(call.ends[4] == 9),
        "past" if call.kinds.len() > room => call.kinds[room] = 0,
        "count" if *status == 0 => *value = (*value).min(room as u64),
        "offset" if *status == 2 && *value > 30 => *value += 1,
        "second" if *status == 2 && *second == 0 => *second = 1,
        "touch" if *status == 2 && room > 0 => call.kinds[0] = 1,
        "accept" if call.source == [0xED, 0xA0, 0x80] => (*status, *value) = (0, 1),
        _ => {},
    }
}
