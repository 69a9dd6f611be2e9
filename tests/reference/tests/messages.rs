//! docs/MESSAGES.md against the reference.

use std::collections::HashSet;

use reference::{
    LIMITS, MAX_CONTROL_FLOW_NESTING,
    messages::{number_of, rows},
    parsed,
};

#[test]
fn numbers_run_from_1_without_gaps() {
    let numbers: Vec<u16> = rows().iter().map(|row| row.number).collect();
    assert_eq!(numbers, (1..=53).collect::<Vec<u16>>());
}

#[test]
fn texts_differ() {
    let texts: HashSet<&str> = rows().iter().map(|row| row.text.as_str()).collect();
    assert_eq!(texts.len(), rows().len());
}

/// The inputs are for the unit's limit; a smaller one has a smaller depth input.
#[test]
fn smallest_inputs_show_their_messages() {
    for row in rows() {
        let text = std::str::from_utf8(&row.smallest).unwrap();
        assert!(reference::parsed::unwanted(text).is_none(), "message {}", row.number);
        let shown = parsed(MAX_CONTROL_FLOW_NESTING, text).diagnostics;
        assert!(shown.iter().any(|found| found.message == row.number), "message {}", row.number);
    }
}

/// No byte of a smallest input can be left out.
#[test]
fn smallest_inputs_have_no_byte_to_spare() {
    for row in rows() {
        for at in 0..row.smallest.len().min(40) {
            let mut bytes = row.smallest.clone();
            bytes.remove(at);
            let text = std::str::from_utf8(&bytes).unwrap();
            let shown = parsed(MAX_CONTROL_FLOW_NESTING, text).diagnostics;
            assert!(
                shown.iter().all(|found| found.message != row.number),
                "message {} is shown by {text:?}",
                row.number
            );
        }
    }
}

/// The depth text names the limit in force; its number is the same.
#[test]
fn the_depth_text_names_its_limit() {
    for limit in LIMITS {
        let text = format!("begin{} x", " if".repeat(limit as usize + 1));
        let found = parsed(limit, &text).diagnostics;
        let expected = format!("control-flow nesting depth exceeded the maximum depth of {limit}");
        assert_eq!((found.len(), found[0].message, &found[0].text), (1, 49, &expected));
        let named = LIMITS.map(|other| number_of(other, &expected));
        assert_eq!(named, LIMITS.map(|other| (other == limit).then_some(49)));
    }
}
