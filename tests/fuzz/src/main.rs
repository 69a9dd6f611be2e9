//! Checks the exported calls on inputs from a seed, or writes the seeds of the guided run.

use std::{
    env,
    path::Path,
    process::ExitCode,
    thread,
    time::{Duration, Instant},
};

use fuzz::{
    check::{Checker, EXPORTED, Mismatch},
    generate::case,
    seeds,
    shrink::smallest,
};

const USAGE: &str = "usage: fuzz --seed N --cases N
       fuzz --seed N --seconds N
       fuzz --seeds DIR    writes the seeds and the words of a guided run";

/// When a run ends.
enum End {
    Cases(u64),
    Time(Duration),
}

fn main() -> ExitCode {
    let arguments: Vec<String> = env::args().skip(1).collect();
    let words: Vec<&str> = arguments.iter().map(String::as_str).collect();
    let code = match words.as_slice() {
        ["--seeds", folder] => {
            seeds::write(Path::new(folder)).expect("the folder is written");
            Some(ExitCode::SUCCESS)
        },
        ["--seed", seed, "--cases", cases] => {
            number(seed, cases).map(|(seed, cases)| run(seed, End::Cases(cases)))
        },
        ["--seed", seed, "--seconds", seconds] => number(seed, seconds)
            .map(|(seed, seconds)| run(seed, End::Time(Duration::from_secs(seconds)))),
        _ => None,
    };
    code.unwrap_or_else(|| {
        eprintln!("{USAGE}");
        ExitCode::from(2)
    })
}

fn number(seed: &str, end: &str) -> Option<(u64, u64)> {
    Some((seed.parse().ok()?, end.parse().ok()?))
}

/// Says which case was under way where the reference itself stops.
struct Place(u64, u64);

impl Drop for Place {
    fn drop(&mut self) {
        if thread::panicking() {
            eprintln!("stopped in case {} of seed {}", self.1, self.0);
        }
    }
}

fn run(seed: u64, end: End) -> ExitCode {
    if !exported::LINKED {
        println!("{}", exported::MISSING);
        return ExitCode::FAILURE;
    }
    let begun = Instant::now();
    let mut checker = Checker::new(EXPORTED);
    let mut place = Place(seed, 0);
    let goes_on = |number| match end {
        End::Cases(cases) => number < cases,
        End::Time(time) => begun.elapsed() < time,
    };
    while goes_on(place.1) && checker.counters.mismatches == 0 {
        let (input, mut random) = case(seed, place.1);
        if let Err(mismatch) = checker.check(&input, &mut random) {
            let Mismatch(text) = smallest(EXPORTED, case(seed, place.1), mismatch);
            println!("mismatch in case {} of seed {seed}:\n{text}", place.1);
        }
        place.1 += 1;
    }
    print!("{}", checker.counters);
    println!("fuzz: seed {seed}, {} cases, {:.1} s", place.1, begun.elapsed().as_secs_f64());
    if checker.counters.mismatches == 0 { ExitCode::SUCCESS } else { ExitCode::FAILURE }
}
