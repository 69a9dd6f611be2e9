//! What a run has done so far.

use std::{
    fmt,
    hash::{DefaultHasher, Hash, Hasher},
};

/// Bits by which sources are told apart, as a power of two.
const BITS: u32 = 30;

/// Those that document 01 and M-104 name.
const STATUSES: [u64; 8] = [0, 1, 2, 3, 4, 5, 6, 9];

#[derive(Default)]
pub struct Counters {
    /// Sources that are no part of a pair, and those of them that a call with room enough accepted.
    pub sources: u64,
    pub accepted: u64,
    /// Accepted sources that are surely not the same as one before: their bit was not set.
    pub different: u64,
    pub longest: u64,
    /// Pairs, and those inside demand 3's premise.
    pub pairs: u64,
    pub inside: u64,
    /// Calls at a limit that is as large or larger, which must give the same.
    pub larger: u64,
    /// Calls by the status returned, those for pairs too.
    pub statuses: [u64; STATUSES.len()],
    /// Calls for lines and columns.
    pub lines: u64,
    pub mismatches: u64,
    seen: Vec<u64>,
}

impl Counters {
    /// One call. Another status is a mismatch and not counted.
    pub fn call(&mut self, status: u64) {
        if let Some(place) = STATUSES.iter().position(|known| *known == status) {
            self.statuses[place] += 1;
        }
    }

    /// One accepted source.
    pub fn accept(&mut self, source: &[u8]) {
        self.accepted += 1;
        self.longest = self.longest.max(source.len() as u64);
        let mut hasher = DefaultHasher::new();
        source.hash(&mut hasher);
        let place = hasher.finish() >> (64 - BITS);
        if self.seen.is_empty() {
            self.seen = vec![0; 1 << (BITS - 6)];
        }
        let (word, bit) = (&mut self.seen[(place >> 6) as usize], 1 << (place & 63));
        self.different += u64::from(*word & bit == 0);
        *word |= bit;
    }
}

/// One line for each number, which the script `run` adds up.
impl fmt::Display for Counters {
    fn fmt(&self, f: &mut fmt::Formatter) -> fmt::Result {
        let mut line = |name: &str, number: u64| writeln!(f, "fuzz: {name} {number}");
        line("sources", self.sources)?;
        line("accepted", self.accepted)?;
        line("different", self.different)?;
        line("longest", self.longest)?;
        line("pairs", self.pairs)?;
        line("inside", self.inside)?;
        line("larger", self.larger)?;
        line("calls", self.statuses.iter().sum())?;
        for (status, count) in STATUSES.iter().zip(&self.statuses) {
            line(&format!("status-{status}"), *count)?;
        }
        line("lines", self.lines)?;
        line("mismatches", self.mismatches)
    }
}
