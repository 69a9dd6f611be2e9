//! What the generator reaches in the reference, and that it is the same at every run.

use std::collections::BTreeSet;

use fuzz::{check::Input, generate::case};
use reference::{Reading, messages, reading};

const CASES: u64 = 100_000;

#[test]
fn every_kind_node_and_message_occurs() {
    let (mut kinds, mut opened, mut shown) = (BTreeSet::new(), BTreeSet::new(), BTreeSet::new());
    for number in 0..CASES {
        let (Input::Source(limit, source), _) = case(1, number) else { continue };
        let Reading::Parsed(parsed) = reading(limit, &source) else { continue };
        kinds.extend(parsed.tokens.iter().map(|token| token.kind));
        opened.extend(parsed.events.iter().filter(|event| **event < 27));
        shown.extend(parsed.diagnostics.iter().map(|found| found.message));
    }
    assert_eq!(kinds, [1].into_iter().chain(27..=59).collect());
    assert_eq!(shown, messages::rows().iter().map(|row| row.number).collect());
    // Extern packages and imports (5, 7, 8, 9) are refused.
    assert_eq!(opened, (0..=26).filter(|kind| ![5, 7, 8, 9].contains(kind)).collect());
}

#[test]
fn a_seed_gives_the_same_cases() {
    for number in 0..100 {
        assert_eq!(case(3, number).0, case(3, number).0);
    }
    assert!((0..100).any(|number| case(3, number).0 != case(4, number).0));
}
