//! A reading by one mutant, with a bound on its steps.

use std::{cell::Cell, panic, thread};

use crate::{
    answer::{self, Reading},
    limits::MAX_CONTROL_FLOW_NESTING,
    parsed::{self, Token},
};

/// The number of the sources as they are; mutants are counted from 1.
pub const ITSELF: usize = 0;

/// How many calls of functions a reading of this many bytes may take; a longer one counts as endless.
fn bound(bytes: usize) -> usize {
    50_000 + 3_000 * bytes
}

thread_local! {
    static MUTANT: Cell<usize> = const { Cell::new(ITSELF) };
    static STEPS: Cell<usize> = const { Cell::new(0) };
}

/// The mutant that runs.
#[inline]
pub fn mutant() -> usize {
    MUTANT.get()
}

/// Counts a step; a reading with too many ends in a panic.
#[inline]
pub fn step() {
    let left = STEPS.get();
    assert!(left > 0, "too many steps");
    STEPS.set(left - 1);
}

/// What a mutant makes of a source; nothing where it panics or does not end.
pub fn reading(mutant: usize, source: &[u8]) -> Option<Reading> {
    run(mutant, source, || answer::reading(MAX_CONTROL_FLOW_NESTING, source))
}

/// The lexer's tokens alone.
pub fn tokens(mutant: usize, source: &[u8]) -> Option<Vec<Token>> {
    run(mutant, source, || answer::text(source).map_or(Vec::new(), parsed::tokens))
}

fn run<T>(mutant: usize, source: &[u8], work: impl FnOnce() -> T + panic::UnwindSafe) -> Option<T> {
    MUTANT.set(mutant);
    STEPS.set(bound(source.len()));
    panic::catch_unwind(work).ok()
}

/// Enough for readings that nest without a limit.
const STACK: usize = 1 << 29;

/// Does work on a large stack, and prints no panic of a mutant.
pub fn on_large_stack<T: Send + 'static>(work: impl FnOnce() -> T + Send + 'static) -> T {
    let quiet = || {
        let shown = panic::take_hook();
        panic::set_hook(Box::new(move |panic| {
            if mutant() == ITSELF {
                shown(panic);
            }
        }));
        work()
    };
    let run = thread::Builder::new().stack_size(STACK).spawn(quiet).expect("a thread starts");
    run.join().expect("the work ends")
}
