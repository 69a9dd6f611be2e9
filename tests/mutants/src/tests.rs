//! Tests of the mutants: what is changed, and how their readings end.

use std::collections::BTreeSet;

use crate::{
    ITSELF, MUTANTS,
    equivalent::named,
    make::{
        calls,
        changes::{self, Change},
        functions::functions,
    },
    reading,
};

const FUNCTION: &str = "\
impl Parser {
    fn parse_name(&mut self, message: &'static str) -> bool {
        self.bump();
        if self.at_keyword(\"mod\") && matches!(self.kind(), SyntaxKind::Ident | SyntaxKind::Number) {
            return true;
        }
        false
    }
}
";

/// The number of the mutant with this name.
fn number(name: &str) -> usize {
    let at = MUTANTS.iter().position(|mutant| named(mutant) == name);
    at.unwrap_or_else(|| panic!("no mutant: {name}")) + 1
}

#[test]
fn a_function_is_found_with_its_parameters() {
    let found = functions(FUNCTION);
    assert_eq!(found.len(), 1);
    assert_eq!((found[0].name.as_str(), found[0].lines.clone()), ("parse_name", 1..8));
    assert_eq!(found[0].parameters, ["self", "message"]);
}

#[test]
fn every_sort_of_change_is_made() {
    let function = &functions(FUNCTION)[0];
    let results: BTreeSet<String> =
        changes::all(function).iter().map(|change| change.of(&function.body)).collect();
    let expected = [
        ("        self.bump();\n", "        \n"),
        ("self.bump();", "self.bump(); self.bump_regular_trivia();"),
        ("&&", "||"),
        ("\"mod\"", "\"?\""),
        ("::Ident", "::Tombstone"),
        ("::Number", "::Number | SyntaxKind::At"),
        ("self.at_keyword(\"mod\")", "true"),
        ("return true;", ""),
        ("return true;", "return false;"),
    ];
    for (from, to) in expected {
        let result = function.body.replacen(from, to, 1);
        assert!(result != function.body && results.contains(&result), "{from} becomes {to}");
    }
    assert!(!results.contains(&function.body));
}

#[test]
fn parentheses_are_matched() {
    assert_eq!(calls::closed("f(a(b)c)d", 2), 8);
}

#[test]
fn a_change_replaces_its_place() {
    assert_eq!(Change::new(1..2, "xy").of("abc"), "axyc");
}

#[test]
fn names_are_different() {
    let names: BTreeSet<String> = MUTANTS.iter().map(named).collect();
    assert_eq!(names.len(), MUTANTS.len());
}

/// With the mutants woven in, the sources still read as the reference does.
#[test]
fn no_mutant_is_the_reference() {
    for source in corpus::examples::all() {
        let found = reading(ITSELF, &source).expect("a reading");
        assert_eq!(
            format!("{found:?}"),
            format!("{:?}", reference::reading(reference::MAX_CONTROL_FLOW_NESTING, &source))
        );
    }
}

#[test]
fn a_newline_skipped_before_a_key_is_seen() {
    let skips =
        number("parser.rs:666:14 `bump_inline_whitespace()` becomes `bump_regular_trivia()`");
    let (near, same) = (b"adv_map X\n(a) = 1", b"adv_map X (a) = 1");
    assert_ne!(reading(skips, near), reading(ITSELF, near));
    assert_eq!(reading(skips, same), reading(ITSELF, same));
}

/// The loop over items takes no token: the reading has no end, and is ended.
#[test]
fn an_endless_mutant_has_no_reading() {
    let stays = number("parser.rs:251:13 `self.parse_source_item();` becomes ``");
    assert_eq!(reading(stays, b"a"), None);
    assert!(reading(stays, b"").is_some());
}
