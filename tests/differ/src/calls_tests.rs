//! A call that is right, and calls with one fault, each of which is found. No archive is needed.

use corpus::{Case, Family, Size, cases, limits};
use exported::{Lent, accepted::accepted, imitation::answer_into, zones::Call};
use reference::{
    MAX_CONTROL_FLOW_NESTING, MAX_SOURCE,
    answer::FILL_U64,
    joined,
    limits::{ALLOWED, at_least},
};

use super::{compare, run};
use crate::readings::check_joins;

/// Where the limit does not matter.
const LIMIT: u64 = MAX_CONTROL_FLOW_NESTING;

fn right(limit: u64, source: &[u8], mut lent: Lent) -> u64 {
    answer_into(limit, source, &mut lent)
}

/// Says `accepted` of slices that are too short.
fn wrong_status(limit: u64, source: &[u8], mut lent: Lent) -> u64 {
    let status = answer_into(limit, source, &mut lent);
    if status == 5 { 0 } else { status }
}

/// Changes the last event, which is beyond the tree where the room is ample.
fn wrong_entry(limit: u64, source: &[u8], mut lent: Lent) -> u64 {
    let status = answer_into(limit, source, &mut lent);
    lent.events.last_mut().into_iter().for_each(|event| *event = 7);
    status
}

/// Gives one count too many where there is a diagnostic.
fn wrong_count(limit: u64, source: &[u8], mut lent: Lent) -> u64 {
    let status = answer_into(limit, source, &mut lent);
    lent.counts.iter_mut().skip(2).filter(|count| **count == 1).for_each(|count| *count = 2);
    status
}

/// Says of every source that is no UTF-8 that it is cut off.
fn wrong_second(limit: u64, source: &[u8], mut lent: Lent) -> u64 {
    let status = answer_into(limit, source, &mut lent);
    if status == 2 {
        lent.counts[1] = 0;
    }
    status
}

/// Drops the diagnostics of long sources, so that those of a join are not its parts'.
fn wrong_join(limit: u64, source: &[u8], mut lent: Lent) -> u64 {
    let status = answer_into(limit, source, &mut lent);
    lent.counts.iter_mut().skip(2).filter(|_| source.len() > 40).for_each(|count| *count = 0);
    status
}

/// Reads at another limit, or at the next with which the reference is compiled.
fn at(other: u64, source: &[u8], mut lent: Lent) -> u64 {
    answer_into(at_least(other).unwrap_or(other), source, &mut lent)
}

/// Cuts the limit to 8 bits, to 16 or to 32; takes an allowed one for the unit's, or for one more or less.
const AT_OTHER_LIMITS: [Call; 6] = [
    |limit, source, lent| at(if limit == 256 { limit } else { limit & 0xFF }, source, lent),
    |limit, source, lent| at(limit & 0xFFFF, source, lent),
    |limit, source, lent| at(limit & 0xFFFF_FFFF, source, lent),
    |limit, source, lent| at(allowed(limit, MAX_CONTROL_FLOW_NESTING), source, lent),
    |limit, source, lent| at(allowed(limit, limit + 1), source, lent),
    |limit, source, lent| at(allowed(limit, limit.saturating_sub(1).max(1)), source, lent),
];

/// The other limit in the place of one that is allowed.
fn allowed(limit: u64, other: u64) -> u64 {
    if ALLOWED.contains(&limit) { other } else { limit }
}

/// Changes what the call returns at a number that is no limit.
fn at_none(limit: u64, source: &[u8], mut lent: Lent, change: fn(&[u8], &mut Lent) -> u64) -> u64 {
    let status = answer_into(limit, source, &mut lent);
    if status == 9 { change(source, &mut lent) } else { status }
}

/// Takes 0 for the least limit; looks for sources that are too long before the limit, or that are no UTF-8;
/// writes a token, an event or a diagnostic, or no counts.
const AT_NONE: [Call; 7] = [
    |limit, source, lent| at(limit.max(1), source, lent),
    |limit, source, lent| {
        at_none(limit, source, lent, |source, _| if source.len() > MAX_SOURCE { 1 } else { 9 })
    },
    |limit, source, lent| {
        at_none(
            limit,
            source,
            lent,
            |source, _| if str::from_utf8(source).is_err() { 2 } else { 9 },
        )
    },
    |limit, source, lent| at_none(limit, source, lent, |_, lent| first(lent.token_kinds)),
    |limit, source, lent| at_none(limit, source, lent, |_, lent| first(lent.events)),
    |limit, source, lent| at_none(limit, source, lent, |_, lent| first(lent.messages)),
    |limit, source, lent| at_none(limit, source, lent, |_, lent| unwritten(lent.counts)),
];

fn first(numbers: &mut [u16]) -> u64 {
    numbers.iter_mut().take(1).for_each(|number| *number = 0);
    9
}

fn unwritten(counts: &mut [u64]) -> u64 {
    counts.fill(FILL_U64);
    9
}

/// Looks at the limit before the counts.
fn nine_before_six(limit: u64, source: &[u8], mut lent: Lent) -> u64 {
    let status = answer_into(limit, source, &mut lent);
    if ALLOWED.contains(&limit) { status } else { 9 }
}

fn some_cases() -> impl Iterator<Item = Case> {
    cases(&[Family::Examples, Family::Slices], Size::Ci)
}

#[test]
fn right_answers_pass() {
    assert!(run(right, some_cases()).agrees());
}

#[test]
fn faults_are_found() {
    for fault in [wrong_status, wrong_entry, wrong_count] {
        assert!(!run(fault, some_cases()).agrees());
    }
}

#[test]
fn second_numbers_are_compared() {
    let some = || cases(&[Family::Tails], Size::Ci).step_by(97);
    assert!(run(right, some()).agrees());
    assert!(!run(wrong_second, some()).agrees());
}

#[test]
fn the_mismatch_is_shown() {
    let mut found = some_cases().filter_map(|case| compare(wrong_entry, case));
    let first = found.next().unwrap();
    assert!(first.case.source.is_empty());
    assert!(String::from_utf8(first.expected).unwrap().contains("\n2 0 43690 43690 43690\n"));
    assert!(String::from_utf8(first.found).unwrap().contains("\n2 0 43690 43690 7\n"));
}

/// Each by the cases of M-104 alone.
#[test]
fn wrong_limits_are_found() {
    let around = || cases(&[Family::Limits], Size::Ci).step_by(53);
    let refused = || cases(&[Family::Refusals], Size::Ci);
    assert!(run(right, around()).agrees() && run(right, refused()).agrees());
    for (number, fault) in AT_OTHER_LIMITS.into_iter().enumerate() {
        let found = if number < 3 { run(fault, refused()) } else { run(fault, around()) };
        assert!(!found.agrees(), "limit {number}");
    }
    for (number, fault) in AT_NONE.into_iter().chain([nine_before_six as Call]).enumerate() {
        assert!(!run(fault, refused()).agrees(), "no limit {number}");
    }
}

/// Sources of the other families tell a wrong limit too, wherever it is wrong by one.
#[test]
fn lower_limits_are_compared() {
    let lower = || cases(&[Family::Lower], Size::Ci).take(2_000);
    assert!(run(right, lower()).agrees());
    for fault in &AT_OTHER_LIMITS[3..] {
        assert!(!run(*fault, lower()).agrees());
    }
}

#[test]
fn joins_are_held_to_demand_3() {
    let (first, second) =
        (b"proc a ) end\n".as_slice(), b"begin ( end # a longer source".as_slice());
    let by = |made| {
        joined::obeyed_by(|source, rooms| accepted(made, LIMIT, source, rooms), first, second)
    };
    assert_eq!(by(right), Some(true));
    assert_eq!(by(wrong_join), Some(false));
}

/// Reads longer sources at the next limit, so that what was too deep in a part is not in the join.
fn another_join(limit: u64, source: &[u8], lent: Lent) -> u64 {
    let long = source.len() > 40;
    at(if long { limit + 1 } else { limit }, source, lent)
}

#[test]
fn joins_are_held_to_demand_3_at_every_limit() {
    let joins = |made: Call| {
        check_joins("call", limits::pairs(), |limit, first, second| {
            joined::obeyed_by(|source, rooms| accepted(made, limit, source, rooms), first, second)
        })
    };
    assert!(joins(right));
    assert!(!joins(another_join));
}
