//! Runs the stored answers against every mutant: each that is not listed as equivalent must be caught.

use std::{collections::BTreeSet, process::ExitCode};

use mutants::{
    MUTANTS,
    equivalent::{named, numbers},
    on_large_stack,
    stores::{Store, differential, stores},
};

fn main() -> ExitCode {
    if on_large_stack(check) { ExitCode::SUCCESS } else { ExitCode::FAILURE }
}

fn check() -> bool {
    let (stores, corpus) = (stores(), differential());
    let equivalent: BTreeSet<usize> = numbers().into_iter().collect();
    let mut counts = vec![0; stores.len()];
    let (mut caught, mut left, mut wrong, mut shown) = (0, 0, 0, 0);
    for (number, mutant) in (1..).zip(&MUTANTS) {
        let listed = equivalent.contains(&number);
        let stored = caught_by(&stores, number, &mut counts);
        let differs = corpus.catches(number);
        caught += usize::from(stored.is_some());
        shown += usize::from(differs.is_some());
        if stored.is_none() && !listed {
            left += 1;
            println!("not caught: {}", named(mutant));
        }
        if let Some(source) = stored.or(differs).filter(|_| listed) {
            wrong += 1;
            println!("not equivalent, by {}: {}", source.escape_ascii(), named(mutant));
        }
    }
    for (store, count) in stores.iter().zip(&counts) {
        println!("{}: {} cases catch {count} mutants", store.name, store.len());
    }
    println!("examples and places of the corpus: {} cases catch {shown} mutants", corpus.len());
    let (all, same) = (MUTANTS.len(), equivalent.len());
    println!("{all} mutants: {caught} caught by stored answers, {same} equivalent");
    println!("{left} left over, {wrong} wrongly listed as equivalent");
    left + wrong == 0
}

/// Counts the stores that catch a mutant, and gives a source of one.
fn caught_by<'s>(stores: &'s [Store], mutant: usize, counts: &mut [usize]) -> Option<&'s [u8]> {
    let mut found = None;
    for (store, count) in stores.iter().zip(counts) {
        if let Some(source) = store.catches(mutant) {
            *count += 1;
            found = Some(source);
        }
    }
    found
}
