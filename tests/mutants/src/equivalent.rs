//! The mutants that read every source as the sources do, with the reasons.

use std::collections::BTreeMap;

use crate::{MUTANTS, Mutant};

const TABLE: &str = include_str!("../equivalent.txt");

/// A mutant as the table names it.
pub fn named(mutant: &Mutant) -> String {
    let Mutant { place, from, to } = mutant;
    format!("{place} `{from}` becomes `{to}`")
}

/// The numbers of the mutants in the table; stops at a line that names none.
pub fn numbers() -> Vec<usize> {
    let all: BTreeMap<String, usize> =
        MUTANTS.iter().enumerate().map(|(at, mutant)| (named(mutant), at + 1)).collect();
    let lines = TABLE.lines().filter(|line| !line.is_empty() && !line.starts_with('#'));
    lines.map(|line| *all.get(line).unwrap_or_else(|| panic!("no mutant: {line}"))).collect()
}
