//! The answers for lines and columns, by a walk from the start for each offset, and their faults.

use reference::MAX_SOURCE;

use crate::{call::Call, output::put_row};

/// How many were written, lines and columns, each in a line.
pub fn put_answer(fault: &str, mut call: Call, out: &mut Vec<u8>) {
    let mut written = answer(&mut call, fault);
    spoil(fault, &mut call, &mut written);
    put_row(out, [written as u64].into_iter());
    put_row(out, call.starts.iter().copied().map(u64::from));
    put_row(out, call.stops.iter().copied().map(u64::from));
}

fn answer(call: &mut Call, fault: &str) -> usize {
    let limit = MAX_SOURCE - usize::from(fault == "limit");
    if call.source.len() > limit {
        return 0;
    }
    let written = call.ends.len().min(call.starts.len()).min(call.stops.len());
    for at in 0..written {
        (call.starts[at], call.stops[at]) = place(&call.source, call.ends[at] as usize, fault);
    }
    written
}

/// Line and column: a CR counts where no LF follows.
fn place(source: &[u8], offset: usize, fault: &str) -> (u32, u32) {
    let (mut line, mut column) = (1, 1);
    for (at, byte) in source.iter().enumerate().take(offset) {
        let paired = source.get(at + 1) == Some(&b'\n');
        let ends = match byte {
            b'\n' => true,
            b'\r' if fault == "lone" => false,
            b'\r' => !paired || fault == "two",
            _ => false,
        };
        (line, column) = if ends { (line + 1, 1) } else { (line, column + 1) };
    }
    (line, column)
}

/// Makes the fault's mistake where the case allows it.
fn spoil(fault: &str, call: &mut Call, written: &mut usize) {
    let of_columns = call.stops.iter_mut().zip(&call.ends).take(*written);
    match fault {
        "zero" => of_columns.for_each(|(column, _)| *column -= 1),
        "clip" => of_columns
            .filter(|(_, offset)| **offset as usize > call.source.len())
            .for_each(|(column, _)| *column += 1),
        "past" if call.starts.len() > *written => call.starts[*written] = 1,
        "count" if *written > 4 => *written -= 1,
        _ => {},
    }
}
