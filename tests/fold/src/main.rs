//! Checks what the example `fold` shows of scripts without end, against the reference's tree.

mod folded;
mod letters;
mod lines;
mod made;
mod marks;
mod open;
mod reports;
mod shown;
mod tree;
mod view;

use std::{env, path::PathBuf, process::ExitCode, time::Instant};

use folded::Seen;
use made::Script;
use view::View;

const USAGE: &str = "usage: fold_check --fold PROGRAM --files N --seed N";

/// After so many files it says how far it is.
const PROGRESS: u64 = 10_000;

/// How often a script that is shown wrongly is tried again with less.
const TRIES: usize = 1_000;

fn main() -> ExitCode {
    let arguments: Vec<String> = env::args().skip(1).collect();
    let words: Vec<&str> = arguments.iter().map(String::as_str).collect();
    let ["--fold", program, "--files", files, "--seed", seed] = words.as_slice() else {
        eprintln!("{USAGE}");
        return ExitCode::from(2);
    };
    match (files.parse(), seed.parse()) {
        (Ok(files), Ok(seed)) => run(PathBuf::from(program), files, seed),
        _ => {
            eprintln!("{USAGE}");
            ExitCode::from(2)
        },
    }
}

fn run(program: PathBuf, files: u64, seed: u64) -> ExitCode {
    let begun = Instant::now();
    let (mut total, mut bytes) = (Seen::default(), 0);
    for number in 0..files {
        if number > 0 && number.is_multiple_of(PROGRESS) {
            println!("{number} files, {:.0} s", begun.elapsed().as_secs_f64());
        }
        let (Script { source, limit }, mut random) = made::script(seed, number);
        let view = View::chosen(program.clone(), limit, &source, &mut random);
        bytes += source.len();
        match view.check(&source) {
            Ok(seen) => add(&mut total, &seen),
            Err(reason) => {
                println!("file {number} of seed {seed}: {reason}\n{view:?}");
                let small = smallest(&view, source);
                let reason = view.check(&small).err().unwrap_or_default();
                println!("smaller: {:?}\n{reason}", String::from_utf8_lossy(&small));
                return ExitCode::FAILURE;
            },
        }
    }
    println!(
        "fold_check: seed {seed}, {files} files of {bytes} bytes; rows: {}, marked: {}, unread: {}, \
         notes: {}, folds: {} of {} lines; {:.1} s",
        total.rows,
        total.marked,
        total.unread,
        total.doubts,
        total.folds,
        total.folded_lines,
        begun.elapsed().as_secs_f64()
    );
    ExitCode::SUCCESS
}

fn add(total: &mut Seen, seen: &Seen) {
    total.rows += seen.rows;
    total.folds += seen.folds;
    total.folded_lines += seen.folded_lines;
    total.doubts += seen.doubts;
    total.marked += seen.marked;
    total.unread += seen.unread;
}

/// Parts are left out, halves first, as long as something is wrong.
fn smallest(view: &View, mut source: Vec<u8>) -> Vec<u8> {
    let (mut width, mut tries) = (source.len(), 0);
    while width > 0 {
        let mut at = 0;
        while at < source.len() && tries < TRIES {
            let behind = source.len().min(at + width);
            let less = [&source[..at], &source[behind..]].concat();
            tries += 1;
            if view.check(&less).is_err() {
                source = less;
            } else {
                at = behind;
            }
        }
        width /= 2;
    }
    source
}
