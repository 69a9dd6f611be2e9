//! Searches short sources for the mutants that neither examples nor the pool tell from the sources as they are.
//!
//! Takes the number of sources to try for each. What it finds it shrinks and prints, to be added to the
//! corpus's examples.

use std::env;

use corpus::{damage::damaged, examples, random::Random, sequences};
use mutants::{
    ITSELF, MUTANTS,
    equivalent::named,
    on_large_stack,
    pool::{accepted, pool},
    reading,
};

fn main() {
    let tries = env::args().nth(1).and_then(|count| count.parse().ok()).expect("how many tries");
    on_large_stack(move || search(tries));
}

fn search(tries: usize) {
    let pool: Vec<Vec<u8>> =
        examples::all().filter(|source| accepted(source)).chain(pool()).collect();
    let tried: Vec<Vec<u8>> = {
        let mut random = Random::new(5);
        (0..tries).map(|_| sample(&mut random, &pool)).filter(|source| accepted(source)).collect()
    };
    let sources: Vec<&Vec<u8>> = pool.iter().chain(&tried).collect();
    let expected: Vec<_> = sources.iter().map(|source| reading(ITSELF, source)).collect();
    for (number, mutant) in (1..).zip(&MUTANTS) {
        let found = (0..sources.len()).find(|&at| reading(number, sources[at]) != expected[at]);
        match found {
            Some(at) if at < pool.len() => {},
            Some(at) => {
                let small = shrunk(number, sources[at].clone());
                println!("{:?} shows {}", String::from_utf8_lossy(&small), named(mutant));
            },
            None => println!("nothing shows {}", named(mutant)),
        }
    }
}

fn sample(random: &mut Random, pool: &[Vec<u8>]) -> Vec<u8> {
    match random.below(4) {
        0 => sequences::sample(random),
        1 => {
            let both = [0, 1].map(|_| pool[random.below(pool.len())].clone());
            damaged(random, &both.concat())
        },
        _ => {
            let source = pool[random.below(pool.len())].clone();
            damaged(random, &source)
        },
    }
}

/// Leaves out bytes as long as the mutant is shown.
fn shrunk(mutant: usize, mut source: Vec<u8>) -> Vec<u8> {
    loop {
        let shorter = (1..=source.len().min(12)).rev().find_map(|length| {
            (0..=source.len() - length).find_map(|start| {
                let rest = [&source[..start], &source[start + length..]].concat();
                (accepted(&rest) && reading(mutant, &rest) != reading(ITSELF, &rest))
                    .then_some(rest)
            })
        });
        match shorter {
            Some(rest) => source = rest,
            None => return source,
        }
    }
}
