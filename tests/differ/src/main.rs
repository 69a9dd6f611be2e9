//! Runs a program, or an exported call, over the corpus and compares its answers with the
//! reference.

mod calls;
mod larger;
mod lexer;
mod line_calls;
mod lines;
mod part;
mod readings;
mod run;
mod store;
mod trees;

use std::{env, path::Path, process::ExitCode, time::Duration};

use corpus::{Family, Size, cases, pairs_at_limits, pairs_of_lines};
use exported::accepted::accepted;
use part::{Limits, Part};
use readings::check_joins;
use reference::joined;

const USAGE: &str = "usage: differ PART --program PATH [OPTIONS]
       differ --store DIR N N N N
       differ calls [OPTIONS]
       differ lines [OPTIONS]
parts: lexer, readings, trees, lines; so many cases of each are stored
options: --large N, --every N, --family NAME, --patience SECONDS
         and the greatest lengths of slices: --tokens N, --events N, --diagnostics N";

const PARTS: [&str; 4] = ["lexer", "readings", "trees", "lines"];

const PATIENCE: Duration = Duration::from_secs(120);

/// What a run is told.
struct Options {
    size: Size,
    every: usize,
    family: Option<Family>,
    patience: Duration,
    limits: Limits,
}

fn main() -> ExitCode {
    let arguments: Vec<String> = env::args().skip(1).collect();
    let words: Vec<&str> = arguments.iter().map(String::as_str).collect();
    let answer = match words.as_slice() {
        ["--store", folder, counts @ ..] => store(folder, counts),
        [name, "--program", program, rest @ ..] => compare(name, program, rest),
        ["calls", rest @ ..] => compare_calls(rest),
        ["lines", rest @ ..] => compare_line_calls(rest),
        _ => None,
    };
    answer.unwrap_or_else(|| {
        eprintln!("{USAGE}");
        ExitCode::from(2)
    })
}

fn part(name: &str, limits: Limits) -> Option<Part> {
    match name {
        "lexer" => Some(lexer::part(limits)),
        "readings" => Some(readings::part(limits)),
        "trees" => Some(trees::part()),
        "lines" => Some(lines::part()),
        _ => None,
    }
}

/// Nothing if the words are not understood.
fn store(folder: &str, counts: &[&str]) -> Option<ExitCode> {
    if counts.len() != PARTS.len() {
        return None;
    }
    let chosen = PARTS.iter().zip(counts).map(|(name, count)| {
        let part = part(name, Limits::default())?;
        Some((part, count.parse().ok()?))
    });
    let chosen: Vec<(Part, usize)> = chosen.collect::<Option<_>>()?;
    store::store(&chosen, Path::new(folder)).expect("the folder is written");
    Some(ExitCode::SUCCESS)
}

/// Nothing if the words are not understood.
fn compare(name: &str, program: &str, options: &[&str]) -> Option<ExitCode> {
    let Options { size, every, family, patience, limits } = read_options(options)?;
    let part = part(name, limits)?;
    let families = chosen(part.families, family);
    let joins = !families.contains(&Family::Pairs)
        || check_joins("reference", pairs_at_limits(size).step_by(every), joined::obeyed);
    let cases = cases(&families, size).step_by(every);
    let outcome = run::run(&part, Path::new(program), patience, cases);
    outcome.print(part.name);
    Some(exit_code(joins && outcome.agrees()))
}

/// Nothing if the words are not understood.
fn compare_calls(options: &[&str]) -> Option<ExitCode> {
    let Options { size, every, family, .. } = read_options(options)?;
    if !exported::LINKED {
        println!("{}", exported::MISSING);
        return Some(ExitCode::FAILURE);
    }
    let obeyed = |limit: u64, first: &[u8], second: &[u8]| {
        let read = |source: &[u8], rooms| accepted(exported::parse_text, limit, source, rooms);
        joined::obeyed_by(read, first, second)
    };
    let families = chosen(&Family::ALL, family);
    let joins = !families.contains(&Family::Pairs)
        || check_joins("call", pairs_at_limits(size).step_by(every), obeyed);
    let at_limits = among(&families, &[Family::Limits, Family::Lower]);
    let larger = at_limits.is_empty()
        || larger::check(exported::parse_text, cases(&at_limits, size).step_by(every));
    let outcome = calls::run(exported::parse_text, cases(&families, size).step_by(every));
    outcome.print("calls");
    Some(exit_code(joins && larger && outcome.agrees()))
}

/// The same for lines and columns, but for the families that are read at several limits, and that of
/// tails, whose millions of ends have none that other families have not. Nothing if the words are not
/// understood.
fn compare_line_calls(options: &[&str]) -> Option<ExitCode> {
    let Options { size, every, family, .. } = read_options(options)?;
    if !exported::LINKED {
        println!("{}", exported::MISSING);
        return Some(ExitCode::FAILURE);
    }
    let families = chosen(Family::UNIT, family);
    let joins = !families.contains(&Family::Pairs)
        || line_calls::check_joins(exported::lines, pairs_of_lines(size).step_by(every));
    let outcome = line_calls::run(exported::lines, cases(&families, size).step_by(every));
    outcome.print("lines");
    Some(exit_code(joins && outcome.agrees()))
}

/// The family asked for, or all.
fn chosen(families: &[Family], family: Option<Family>) -> Vec<Family> {
    match family {
        Some(family) => among(families, &[family]),
        None => families.to_vec(),
    }
}

/// Those of the families that are wanted.
fn among(families: &[Family], wanted: &[Family]) -> Vec<Family> {
    families.iter().filter(|family| wanted.contains(family)).copied().collect()
}

fn exit_code(agrees: bool) -> ExitCode {
    if agrees { ExitCode::SUCCESS } else { ExitCode::FAILURE }
}

fn read_options(words: &[&str]) -> Option<Options> {
    let mut options = Options {
        size: Size::Ci,
        every: 1,
        family: None,
        patience: PATIENCE,
        limits: Limits::default(),
    };
    for option in words.chunks(2) {
        let [name, value] = option else { return None };
        let number = || value.parse::<usize>().ok();
        match *name {
            "--large" => options.size = Size::Large(number()?),
            "--every" => options.every = number().filter(|step| *step > 0)?,
            "--family" => options.family = Some(Family::named(value)?),
            "--patience" => options.patience = Duration::from_secs(number()? as u64),
            "--tokens" => options.limits.tokens = number()?,
            "--events" => options.limits.events = number()?,
            "--diagnostics" => options.limits.diagnostics = number()?,
            _ => return None,
        }
    }
    Some(options)
}
