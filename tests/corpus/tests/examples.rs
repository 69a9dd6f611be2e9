//! What the examples, the bounds of table 3-7 and of `tree`, and the samples hold.

use std::collections::BTreeSet;

use corpus::{edges, examples, lexical, places, samples, utf8};
use reference::{
    MAX_CONTROL_FLOW_NESTING as UNIT, Reading,
    messages::{self, DEPTH},
    parsed, reading,
    tree::tree,
};

fn text(source: &[u8]) -> &str {
    str::from_utf8(source).expect("the source is text")
}

#[test]
fn the_limit_is_met_at_the_last_word_or_not_at_all() {
    let mut met = 0;
    for source in examples::deepest() {
        let text = text(&source);
        let parsed = parsed(UNIT, text);
        let last = text.rfind(' ').expect("words") + 1;
        let depths = parsed.diagnostics.iter().filter(|found| found.message == DEPTH);
        let starts: Vec<usize> = depths.map(|found| found.start as usize).collect();
        assert!(starts.is_empty() || starts == [last], "{starts:?} in {text}");
        met += starts.len();
    }
    assert_eq!(met + 1, examples::deepest().count());
}

#[test]
fn chosen_sources_are_accepted_and_stand_once() {
    let before: BTreeSet<Vec<u8>> = examples::documented().chain(examples::neighbours()).collect();
    let mut seen = BTreeSet::new();
    for source in examples::chosen() {
        assert!(matches!(reading(UNIT, &source), Reading::Parsed(_)), "{}", source.escape_ascii());
        assert!(!before.contains(&source), "{} is an example anyway", source.escape_ascii());
        assert!(seen.insert(source));
    }
    assert!(!seen.is_empty());
}

/// A newline there ends the name, and the key is then no part of the declaration.
#[test]
fn a_key_stands_on_the_line_of_its_name() {
    let source = b"adv_map X\n(a) = 1".to_vec();
    assert_eq!(parsed(UNIT, text(&source)).diagnostics.len(), 1);
    assert!(examples::all().any(|other| other == source));
    assert!(samples::sources().any(|other| other == source));
}

#[test]
fn samples_show_every_message_and_every_kind() {
    let (mut shown, mut kinds) = (BTreeSet::new(), BTreeSet::new());
    for source in samples::sources() {
        let parsed = parsed(UNIT, text(&source));
        shown.extend(parsed.diagnostics.iter().map(|found| found.message));
        kinds.extend(parsed.tokens.iter().map(|token| token.kind));
    }
    assert_eq!(shown, messages::rows().iter().map(|row| row.number).collect());
    assert_eq!(kinds, [1].into_iter().chain(27..=59).collect());
}

/// Every bound of the table has a sequence inside and one outside.
#[test]
fn bounds_of_the_table_have_neighbours() {
    let all: BTreeSet<Vec<u8>> = utf8::bounds().collect();
    let pairs: [(&[u8], &[u8]); 9] = [
        (b"\xC2\x80", b"\xC1\x80"),
        (b"\xE0\xA0\x80", b"\xE0\x9F\x80"),
        (b"\xED\x9F\x80", b"\xED\xA0\x80"),
        (b"\xEC\x80\x80", b"\xEC\x7F\x80"),
        (b"\xEE\xBF\x80", b"\xEE\xC0\x80"),
        (b"\xF0\x90\x80\x80", b"\xF0\x8F\x80\x80"),
        (b"\xF3\x80\x80\x80", b"\xF3\x7F\x80\x80"),
        (b"\xF4\x8F\x80\x80", b"\xF4\x90\x80\x80"),
        (b"\xF1\x80\x80\xBF", b"\xF1\x80\x80\xC0"),
    ];
    for (inside, outside) in pairs {
        assert!(all.contains(inside) && str::from_utf8(inside).is_ok());
        assert!(all.contains(outside) && str::from_utf8(outside).is_err());
    }
}

#[test]
fn tree_is_full_too_long_and_without_room() {
    let answers: Vec<Vec<u8>> = edges::tree_bounds().map(|source| tree(UNIT, &source)).collect();
    let starts: [&[u8]; 3] = [b"ok 1 3 0\n", b"long\n", b"no 5 "];
    assert_eq!(answers.len(), starts.len());
    assert!(answers.iter().zip(starts).all(|(answer, start)| answer.starts_with(start)));
}

/// A mark that is left in a source would be one Error token there, and no place.
#[test]
fn places_are_filled() {
    assert!(places::all().chain(lexical::bounds()).any(|source| source == b"begin a * b end"));
    assert!(places::all().all(|source| !source.contains(&b'%')));
}
