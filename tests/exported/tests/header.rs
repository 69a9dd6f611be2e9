//! The C header names the upstream kinds, each with its number.

use reference::{MAX_CONTROL_FLOW_NESTING, MAX_SOURCE, syntax::MasmLanguage};
use rowan::Language;

const HEADER: &str = include_str!("../../../include/masm_cst.h");

#[test]
fn kinds_are_the_upstream_kinds() {
    for number in 0..60 {
        let name = format!("{:?}", MasmLanguage::kind_from_raw(rowan::SyntaxKind(number)));
        let line = format!("    MASM_{} = {number}", capitals(&name));
        let named = |found: &str| found == line || found.strip_suffix(',') == Some(&line);
        assert!(HEADER.lines().any(named), "{line}");
    }
}

#[test]
fn the_limit_is_document_01s() {
    assert!(HEADER.contains(&format!("#define MASM_MAX_SOURCE {MAX_SOURCE}u\n")));
}

#[test]
fn the_greatest_limit_on_nesting_is_the_references() {
    let line = format!("#define MASM_MAX_CONTROL_FLOW_NESTING {MAX_CONTROL_FLOW_NESTING}u\n");
    assert!(HEADER.contains(&line));
}

/// `ColonColon` as COLON_COLON, `RArrow` as R_ARROW.
fn capitals(name: &str) -> String {
    let mut text = String::new();
    for letter in name.chars() {
        if letter.is_uppercase() && !text.is_empty() {
            text.push('_');
        }
        text.push(letter.to_ascii_uppercase());
    }
    text
}
