//! What the lines of a script's places cost, beside its reading.

use crate::{
    callgrind::Counted,
    measure::{numbers, scripts},
    table::{grouped, line},
};

/// A source, what is asked of it, and the words for that.
type Asked = (&'static str, fn(usize) -> Vec<u8>, &'static str, [&'static str; 2]);

const ASKED: [Asked; 3] = [
    ("a script", scripts, "all token ends", ["lines", "ends"]),
    ("a script with faults", wrong, "all token ends", ["lines", "ends"]),
    ("a script with faults", wrong, "all diagnostics' starts", ["lines", "starts"]),
];

/// Prints the instructions of both calls on the same source.
pub fn print(
    reading: &Counted,
    lines: &Counted,
    size: usize,
    markdown: bool,
) -> Result<(), String> {
    let head = ["source", "bytes", "offsets", "reading", "lines", "multiple"];
    line(markdown, head.map(str::to_string));
    if markdown {
        println!("|---|--:|--:|--:|--:|--:|");
    }
    for (name, make, which, words) in ASKED {
        let source = make(size);
        let read = reading.run(&[], &source)?.instructions;
        let run = lines.run(&words, &source)?;
        let [_, count] = numbers(name, &run)?;
        line(
            markdown,
            [
                format!("{name}, {which}"),
                grouped(source.len() as u64),
                grouped(count),
                grouped(read),
                grouped(run.instructions),
                format!("{:.3}", run.instructions as f64 / read as f64),
            ],
        );
    }
    Ok(())
}

/// The script with a `)` at the start of each third line, cut to the size.
fn wrong(size: usize) -> Vec<u8> {
    let lines = scripts(size);
    let lines = lines.split_inclusive(|byte| *byte == b'\n').enumerate();
    let spoilt = lines.flat_map(|(number, line)| {
        let fault: &[u8] = if number % 3 == 2 { b") " } else { b"" };
        [fault, line].concat()
    });
    let mut source: Vec<u8> = spoilt.collect();
    source.truncate(size);
    let text = String::from_utf8_lossy(&source);
    text.trim_end_matches(char::REPLACEMENT_CHARACTER).as_bytes().to_vec()
}
