//! A program that answers as program `cases` must, for testing the harness and the benchmark.
//!
//! `IMITATION` names one fault; without it every answer is right. The parse is the reference's, the
//! lexer a plain one.

mod call;
mod faults;
mod lexing;
mod lines;
mod output;
mod serve;
mod trees;

use call::Call;
use serve::serve;

fn main() {
    serve(|fault, stdin, out| {
        let (part, call) = Call::next(stdin)?;
        match part {
            0 => lexing::put_answer(fault, call, out),
            1 => put_reading(fault, call, out),
            2 => trees::put_answer(fault, call, out),
            call::LINES => lines::put_answer(fault, call, out),
            _ => return None,
        }
        Some(())
    })
}

fn put_reading(fault: &str, mut call: Call, out: &mut Vec<u8>) {
    let mut numbers = faults::answer(&mut call, fault);
    faults::spoil(fault, &mut call, &mut numbers);
    output::put_answer(out, numbers, &call);
}
