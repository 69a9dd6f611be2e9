//! A function with a known pace in the place of the exported call, for testing the benchmark.
//!
//! `PACE` is `linear`, `quadratic` in runs of newlines, the same `outside` the function, `letters`, which goes on to the letter `o`,
//! or `refuse`.

use std::{
    env,
    hint::black_box,
    io::{self, Read},
};

fn main() {
    let pace = env::var("PACE").expect("PACE says which pace");
    let mut source = Vec::new();
    io::stdin().read_to_end(&mut source).expect("a source on standard input");
    if pace == "outside" {
        black_box(quadratic(&source));
    }
    let steps = paced(&source, &pace);
    let status = usize::from(pace == "refuse");
    println!("{status} {} 2 0", black_box(steps).min(source.len()));
}

/// What is counted.
#[unsafe(no_mangle)]
#[inline(never)]
fn paced(source: &[u8], pace: &str) -> usize {
    match pace {
        "quadratic" => quadratic(source),
        "letters" => source.split(|byte| *byte == b' ').map(to_letter).sum(),
        _ => source.iter().map(black_box).count(),
    }
}

/// How many bytes of a name stand before an `o`, and one.
fn to_letter(name: &[u8]) -> usize {
    1 + name.iter().map(black_box).take_while(|byte| **byte != b'o').count()
}

#[inline(never)]
fn quadratic(source: &[u8]) -> usize {
    (0..source.len()).map(|at| newlines(&source[at..])).sum()
}

/// How many newlines stand at the start, and one.
fn newlines(source: &[u8]) -> usize {
    1 + source.iter().map(black_box).take_while(|byte| **byte == b'\n').count()
}
