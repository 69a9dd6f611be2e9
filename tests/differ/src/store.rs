//! Writes examples, short cases and their answers into two files, for runs without Rust.

use std::{fs, io, path::Path};

use corpus::{
    Case, Family, edges, examples, limits, lines, near, rooms::Plan, spread::spread_over, tails,
    utf8,
};

use crate::part::{Exchange, Part};

/// Longer cases are not picked from the families.
const LONGEST: usize = 60;

/// Longer examples show no more of the lexer.
const LEXER_LONGEST: usize = 15;

/// Writes the cases of each part, with so many beside its examples.
pub fn store(chosen: &[(Part, usize)], folder: &Path) -> io::Result<()> {
    let (mut stdin, mut stdout) = (Vec::new(), Vec::new());
    for (part, count) in chosen {
        let mut stored = 0;
        for Exchange { frame, expected } in exchanges(part, *count) {
            stdin.extend(frame);
            stdout.extend(expected);
            stored += 1;
        }
        println!("{}: {stored} cases stored", part.name);
    }
    fs::create_dir_all(folder)?;
    fs::write(folder.join("stdin"), stdin)?;
    fs::write(folder.join("stdout"), stdout)
}

/// What is always stored, `count` cases, spread evenly over the families at the unit's limit and over each family, and some at
/// other limits.
fn exchanges(part: &Part, count: usize) -> impl Iterator<Item = Exchange> {
    let at_unit = &part.families[..part.families.len().min(Family::UNIT.len())];
    let cases = always(part.name).chain(spread_over(at_unit, count, short));
    cases.chain(at_limits(part.name)).map(|case| (part.exchange)(&case))
}

/// What is stored of a part besides.
fn always(part: &'static str) -> Box<dyn Iterator<Item = Case>> {
    match part {
        "lines" => Box::new(of_lines()),
        _ => Box::new(of_reader(part)),
    }
}

/// M-102's table and sources like it, line ends around the first 1,024 bytes, and short slices.
fn of_lines() -> impl Iterator<Item = Case> {
    let case = |family, plan| move |source| Case::at_unit(family, source, plan);
    let few = lines::few().map(case(Family::Examples, Plan::AMPLE));
    let at_bounds = lines::few_at_bounds().map(case(Family::Lines, Plan::AMPLE));
    let short = Plan::each().into_iter().filter(short_for_lines);
    let short = short.map(move |plan| case(Family::Examples, plan)(b"a\r\nb\r".to_vec()));
    few.chain(at_bounds).chain(short)
}

/// Whether only slices that are lent for lines may be short.
fn short_for_lines(plan: &Plan) -> bool {
    let Plan { token_ends, starts, ends, .. } = *plan;
    *plan == Plan { token_ends, starts, ends, ..Plan::AMPLE }
}

/// The examples, names that are nearly a word and texts that break off, with room enough; the
/// bounds of table 3-7, or for `tree` those of its room and a few sources with line ends of every
/// sort.
fn of_reader(part: &'static str) -> impl Iterator<Item = Case> {
    let bounds: Vec<Vec<u8>> = match part {
        "trees" => edges::tree_bounds().chain(lines::few()).collect(),
        _ => utf8::bounds().collect(),
    };
    let longest = if part == "lexer" { LEXER_LONGEST } else { usize::MAX };
    let examples = examples::all().chain(near::few()).chain(tails::few());
    let sources = examples.filter(move |source| source.len() <= longest).chain(bounds);
    sources.map(|source| Case::at_unit(Family::Examples, source, Plan::AMPLE))
}

/// M-104's examples, few sources around the limits, of which `tree` has fewer, and numbers that are none; the lexer and the
/// lines know no limit.
fn at_limits(part: &'static str) -> impl Iterator<Item = Case> {
    let limits: &[u64] = match part {
        "readings" => &limits::LOWER,
        "trees" => &[1, 64],
        _ => &[],
    };
    let stored = !limits.is_empty();
    let around = limits.iter().flat_map(|limit| limits::few_around(*limit));
    let beside = limits::examples().chain(limits::few_refusals()).filter(move |_| stored);
    around.chain(beside).map(|(limit, source)| {
        let case = Case::at_unit(Family::Limits, source, Plan::AMPLE);
        Case { limit, ..case }
    })
}

fn short(case: &Case) -> bool {
    case.source.len() <= LONGEST && case.family != Family::Examples
}
