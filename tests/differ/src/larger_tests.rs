//! A call that is right, and calls that go wrong with the limit, each of which is found. No archive is needed.

use corpus::{Case, Family, Size, cases};
use exported::{Lent, imitation::answer_into};
use reference::{MAX_CONTROL_FLOW_NESTING, limits::ALLOWED};

use super::check;

fn right(limit: u64, source: &[u8], mut lent: Lent) -> u64 {
    answer_into(limit, source, &mut lent)
}

/// Takes each limit for the unit's.
fn too_many_open(limit: u64, source: &[u8], lent: Lent) -> u64 {
    right(if ALLOWED.contains(&limit) { MAX_CONTROL_FLOW_NESTING } else { limit }, source, lent)
}

/// One event less above limit 200.
fn one_event_less(limit: u64, source: &[u8], mut lent: Lent) -> u64 {
    let status = answer_into(limit, source, &mut lent);
    lent.counts
        .iter_mut()
        .skip(1)
        .take(1)
        .filter(|count| limit > 200 && **count > 0)
        .for_each(|count| *count -= 1);
    status
}

/// Leaves the limit in an entry that is not written.
fn other_slices(limit: u64, source: &[u8], mut lent: Lent) -> u64 {
    let status = answer_into(limit, source, &mut lent);
    lent.counts.iter_mut().skip(3).for_each(|count| *count = limit);
    status
}

/// Says 5 of an accepted source where the limit is above the number of events that have room.
fn another_status(limit: u64, source: &[u8], lent: Lent) -> u64 {
    let (status, room) = (0, lent.events.len() as u64);
    let right = right(limit, source, lent);
    if right == status && room < limit { 5 } else { right }
}

fn some_cases() -> impl Iterator<Item = Case> {
    let around = cases(&[Family::Limits], Size::Ci).step_by(97);
    around.chain(cases(&[Family::Lower], Size::Ci).take(500))
}

#[test]
fn the_right_call_passes() {
    assert!(check(right, some_cases()));
}

#[test]
fn wrong_calls_are_found() {
    for fault in [too_many_open, one_event_less, other_slices, another_status] {
        assert!(!check(fault, some_cases()));
    }
}
