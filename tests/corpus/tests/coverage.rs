//! What the cases reach in the reference; the tails, most of which it refuses, are left out where they would only take time.

use std::collections::{BTreeMap, BTreeSet};

use corpus::{Case, Family, Size, cases, limits, rooms::Needs};
use reference::{
    LIMITS, MAX_SOURCE, Reading,
    messages::{self, DEPTH},
    parsed::most_open,
    reading,
};

/// One case in so many is looked at, so that the test stays short.
const STEP: usize = 7;

#[test]
fn every_kind_message_and_status_occurs() {
    let (mut kinds, mut statuses) = (BTreeSet::new(), BTreeSet::new());
    let (mut opened, mut shown) = (BTreeSet::new(), BTreeSet::new());
    let looked_at = |case: &(usize, Case)| {
        case.0.is_multiple_of(STEP) || matches!(case.1.family, Family::Examples | Family::Edges)
    };
    for (_, case) in cases(Family::PROGRAM, Size::Ci).enumerate().filter(looked_at) {
        let reading = reading(case.limit, &case.source);
        let found = reading.answer(case.plan.rooms(Needs::of(&reading)));
        statuses.insert(found.status);
        if found.status == 0 {
            let [tokens, events, diagnostics] = found.counts.map(|count| count as usize);
            kinds.extend(&found.slices.token_kinds[..tokens]);
            opened.extend(found.slices.events[..events].iter().filter(|event| **event < 27));
            shown.extend(&found.slices.messages[..diagnostics]);
        }
    }
    assert_eq!(statuses, (0..=6).chain([9]).collect());
    assert_eq!(kinds, [1].into_iter().chain(27..=59).collect());
    assert_eq!(shown, messages::rows().iter().map(|row| row.number).collect());
    // Extern packages and imports (5, 7, 8, 9) are refused.
    assert_eq!(opened, (0..=26).filter(|kind| ![5, 7, 8, 9].contains(kind)).collect());
}

/// What document 01 and M-104 say of every parse.
#[test]
fn bounds_hold() {
    for case in cases(Family::PROGRAM, Size::Ci).step_by(STEP) {
        let Reading::Parsed(parsed) = reading(case.limit, &case.source) else { continue };
        let tokens = parsed.tokens.len();
        assert!(parsed.events.len() <= 7 * tokens + 2);
        assert!(parsed.diagnostics.len() <= 2 * tokens);
        assert!(most_open(&parsed.events) <= most_allowed(case.limit));
    }
}

/// The most nodes that may be open at a limit.
fn most_allowed(limit: u64) -> usize {
    2 * limit as usize + 4
}

/// So many are open in some source, and so deep are sources that are closed; each limit is met, by one form more too.
#[test]
fn sources_go_up_to_each_limit() {
    let (mut most, mut closed, mut met) = (BTreeMap::new(), BTreeSet::new(), BTreeMap::new());
    for (limit, source) in limits::around() {
        let Reading::Parsed(parsed) = reading(limit, &source) else { continue };
        let open = most_open(&parsed.events);
        let deepest: &mut usize = most.entry(limit).or_default();
        *deepest = open.max(*deepest);
        if parsed.diagnostics.is_empty() && open + 1 >= most_allowed(limit) {
            closed.insert(limit);
        }
        let depth = parsed.diagnostics.iter().filter(|found| found.message == DEPTH).count();
        *met.entry(limit).or_insert(0) += depth;
    }
    assert_eq!(most, LIMITS.map(|limit| (limit, most_allowed(limit))).into());
    assert_eq!(closed, LIMITS.into());
    assert!(met.len() == LIMITS.len() && met.values().all(|count| *count > 200), "{met:?}");
}

#[test]
fn cases_are_the_same_at_every_run() {
    let sample = || cases(Family::PROGRAM, Size::Ci).step_by(997).collect::<Vec<Case>>();
    assert!(sample() == sample());
}

#[test]
fn every_family_has_cases() {
    let mut counts = BTreeMap::new();
    for case in cases(&Family::ALL, Size::Ci) {
        assert!(case.source.len() <= MAX_SOURCE + 1);
        *counts.entry(case.family).or_insert(0) += 1;
    }
    println!("{counts:?}");
    assert_eq!(counts.into_keys().collect::<Vec<_>>(), Family::ALL);
}
