//! Interleaved timing: in each round every side runs once, in turn first.

use std::{
    hint::black_box,
    time::{Duration, Instant},
};

const ROUNDS: usize = 31;

/// After these rounds no other begins once the time is over.
const LEAST_ROUNDS: usize = 3;
const LONGEST: Duration = Duration::from_secs(4);

/// A measured run takes at least this many bytes, so that the clock does not matter.
const BYTES: usize = 1 << 20;

/// A call as long as this is a run by itself.
const LONG_CALL: f64 = 1e5;

/// One of the programs that are compared; `S` is what it writes to.
pub struct Side<S> {
    pub name: &'static str,
    pub call: fn(&[u8], &mut S) -> u64,
}

/// Microseconds for one call.
pub struct Times {
    pub least: f64,
    pub median: f64,
}

pub fn time<S>(sides: &[Side<S>], source: &[u8], slices: &mut S) -> Vec<Times> {
    let mut calls = Vec::new();
    for side in sides {
        let long = run(side, source, slices, 1) > LONG_CALL;
        calls.push(if long { 1 } else { (BYTES / source.len()).max(1) });
    }
    let mut runs = vec![Vec::new(); sides.len()];
    let begun = Instant::now();
    for round in 0..ROUNDS {
        if round >= LEAST_ROUNDS && begun.elapsed() > LONGEST {
            break;
        }
        for turn in 0..sides.len() {
            let side = (round + turn) % sides.len();
            runs[side].push(run(&sides[side], source, slices, calls[side]));
        }
    }
    runs.into_iter().map(summary).collect()
}

fn run<S>(side: &Side<S>, source: &[u8], slices: &mut S, calls: usize) -> f64 {
    let begun = Instant::now();
    for _ in 0..calls {
        black_box((side.call)(black_box(source), slices));
    }
    begun.elapsed().as_secs_f64() * 1e6 / calls as f64
}

fn summary(mut runs: Vec<f64>) -> Times {
    runs.sort_by(f64::total_cmp);
    Times { least: runs[0], median: runs[runs.len() / 2] }
}
