//! Writes tests/corpus/src/chosen.rs: sources of the pool, as few and short as a greedy choice finds, that
//! with the other examples tell every mutant that any source of the pool tells.

use std::collections::BTreeSet;

use corpus::examples;
use mutants::{ITSELF, MUTANTS, on_large_stack, pool::pool, reading};

const HEADER: &str = "\
//! Sources chosen by the mutants of the reference: each tells one that the other examples do not.
//!
//! Written, in tests/, by: cargo run --release -p mutants --bin choose > corpus/src/chosen.rs

#[rustfmt::skip]
pub const CHOSEN: &[&str] = &[";

fn main() {
    println!("{HEADER}");
    for source in on_large_stack(choose) {
        println!("    {:?},", String::from_utf8(source).expect("accepted sources are text"));
    }
    println!("];");
}

/// The sources, in the order of the pool.
fn choose() -> Vec<Vec<u8>> {
    let given: Vec<Vec<u8>> =
        examples::documented().chain(examples::neighbours()).chain(examples::deepest()).collect();
    let pool = pool();
    let told = told_by(&given, (1..=MUTANTS.len()).collect());
    let told: BTreeSet<usize> = told.into_iter().flatten().collect();
    let left = (1..=MUTANTS.len()).filter(|mutant| !told.contains(mutant)).collect();
    let mut by_source = told_by(&pool, left);
    let mut chosen = BTreeSet::new();
    while let Some(best) = most(&by_source) {
        let gone = std::mem::take(&mut by_source[best]);
        by_source.iter_mut().for_each(|told| told.retain(|mutant| !gone.contains(mutant)));
        chosen.insert(best);
    }
    chosen.into_iter().map(|at| pool[at].clone()).collect()
}

/// For each source the mutants that it tells from the sources as they are.
fn told_by(sources: &[Vec<u8>], mutants: Vec<usize>) -> Vec<BTreeSet<usize>> {
    let tells = |source: &Vec<u8>| {
        let expected = reading(ITSELF, source);
        let told = mutants.iter().filter(|mutant| reading(**mutant, source) != expected);
        told.copied().collect()
    };
    sources.iter().map(tells).collect()
}

/// The source that tells most, the first of these; nothing where none tells any.
fn most(by_source: &[BTreeSet<usize>]) -> Option<usize> {
    let best = by_source.iter().map(BTreeSet::len).max().filter(|most| *most > 0)?;
    by_source.iter().position(|told| told.len() == best)
}
