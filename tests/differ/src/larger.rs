//! What M-104 says of the answers at one limit and at larger ones, held to the call alone.

use corpus::{
    Case,
    random::Random,
    rooms::{Needs, Plan},
};
use exported::{
    accepted::accepted,
    zones::{Call, call},
};
use reference::{MAX_CONTROL_FLOW_NESTING, limits::ALLOWED, parsed::most_open, reading};

use crate::run::shortened;

/// What the call does with a case.
#[derive(Debug, Clone, Copy, PartialEq, Eq, PartialOrd, Ord)]
enum Found {
    /// Larger limits give the same.
    Alike,
    /// The message is there: larger limits may give more.
    Deeper,
    /// More nodes are open than the limit allows.
    TooManyOpen,
    Unlike,
}

/// Room enough, and no more counts than are written.
const ENOUGH: Plan = Plan { counts: 3, ..Plan::AMPLE };

/// Whether at most 2n + 4 nodes are open at limit n, and sources without the message about nesting are
/// read alike at larger limits, into the same slices. Prints the counts and the shortest source that is not.
pub fn check(made: Call, cases: impl Iterator<Item = Case>) -> bool {
    let (mut counts, mut random) = ([0; 4], Random::new(104));
    let mut shortest: Option<(Case, Found)> = None;
    for case in cases.filter(|case| ALLOWED.contains(&case.limit)) {
        let found = found(made, &case, &mut random);
        counts[found as usize] += 1;
        let shorter = |(other, _): &(Case, Found)| case.source.len() < other.source.len();
        if found > Found::Deeper && shortest.as_ref().is_none_or(shorter) {
            shortest = Some((case, found));
        }
    }
    if let Some((Case { limit, source, plan, .. }, found)) = shortest {
        println!("{found:?} at limit {limit}, with {plan:?}: {}", shortened(&source, 0));
    }
    let [alike, deeper, open, unlike] = counts;
    println!(
        "limits of the call: {alike} cases alike at larger ones, {deeper} deeper, {} failures",
        open + unlike
    );
    open + unlike == 0
}

fn found(made: Call, Case { limit, source, plan, .. }: &Case, random: &mut Random) -> Found {
    let needs = Needs::of(&reading(*limit, source));
    if let Some(parsed) = accepted(made, *limit, source, ENOUGH.rooms(needs)) {
        if most_open(&parsed.events) as u64 > 2 * limit + 4 {
            return Found::TooManyOpen;
        }
        if parsed.is_too_deep() {
            return Found::Deeper;
        }
    }
    let answer = |limit: u64| call(made, limit, source, plan.rooms(needs));
    let here = answer(*limit);
    let alike = larger(*limit, random).into_iter().all(|larger| answer(larger) == here);
    if alike { Found::Alike } else { Found::Unlike }
}

/// The next limit, any larger one and the greatest.
fn larger(limit: u64, random: &mut Random) -> [u64; 3] {
    let next = MAX_CONTROL_FLOW_NESTING.min(limit + 1);
    let any = random.between(next as usize, MAX_CONTROL_FLOW_NESTING as usize);
    [next, any as u64, MAX_CONTROL_FLOW_NESTING]
}

#[cfg(test)]
#[path = "larger_tests.rs"]
mod tests;
