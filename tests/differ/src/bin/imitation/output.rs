//! The text of an answer. The benchmark leaves out what functions of this module cost.

use crate::call::Call;

/// The four numbers in one line, then each slice.
pub fn put_answer(out: &mut Vec<u8>, numbers: [u64; 4], call: &Call) {
    put_row(out, numbers.into_iter());
    put_row(out, call.kinds.iter().copied().map(u64::from));
    put_row(out, call.ends.iter().copied().map(u64::from));
    put_row(out, call.events.iter().copied().map(u64::from));
    put_row(out, call.messages.iter().copied().map(u64::from));
    put_row(out, call.starts.iter().copied().map(u64::from));
    put_row(out, call.stops.iter().copied().map(u64::from));
}

pub fn put_row(out: &mut Vec<u8>, numbers: impl Iterator<Item = u64>) {
    for (index, number) in numbers.enumerate() {
        put_entry(out, index, number);
    }
    out.push(b'\n');
}

/// Not inlined, so that its cost can be told from the rest.
#[inline(never)]
fn put_entry(out: &mut Vec<u8>, index: usize, number: u64) {
    if index > 0 {
        out.push(b' ');
    }
    let (mut digits, mut at, mut rest) = ([0; 20], 20, number);
    loop {
        at -= 1;
        digits[at] = b'0' + (rest % 10) as u8;
        rest /= 10;
        if rest == 0 {
            break;
        }
    }
    for digit in &digits[at..] {
        out.push(*digit);
    }
}
