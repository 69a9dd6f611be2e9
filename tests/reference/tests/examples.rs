//! Document 01's examples, run on the reference.

use reference::{Answer, MAX_CONTROL_FLOW_NESTING, MAX_SOURCE, Parsed, Rooms, answer, tokens};

fn parsed(text: &str) -> Parsed {
    reference::parsed(MAX_CONTROL_FLOW_NESTING, text)
}

fn tree(source: &[u8]) -> Vec<u8> {
    reference::tree::tree(MAX_CONTROL_FLOW_NESTING, source)
}

/// (start, end) of each diagnostic.
fn spans(text: &str) -> Vec<(u32, u32)> {
    parsed(text).diagnostics.iter().map(|found| (found.start, found.end)).collect()
}

/// (kind, end) of each token.
fn lexed(text: &str) -> Vec<(u16, u32)> {
    tokens(text).iter().map(|token| (token.kind, token.end)).collect()
}

fn ample(source: &[u8]) -> Answer {
    answer(MAX_CONTROL_FLOW_NESTING, source, Rooms::ample(source.len()))
}

#[test]
fn t1_empty() {
    assert_eq!(parsed("").events, [2, 0]);
    assert_eq!(spans(""), []);
}

#[test]
fn t2_begin_alone() {
    assert_eq!(parsed("begin").events, [2, 13, 31, 18, 0, 0, 0]);
    assert_eq!(spans("begin"), [(4, 4)]);
}

#[test]
fn t3_newlines() {
    assert_eq!(lexed("\r\r\n"), [(28, 1), (28, 3)]);
}

#[test]
fn t4_quotes() {
    assert_eq!(lexed("\"\""), [(34, 2)]);
    assert_eq!(lexed("\"a b\""), [(35, 5)]);
}

#[test]
fn t5_quotes_over_lines() {
    assert_eq!(lexed("\"a\\\nb\""), [(35, 6)]);
    assert_eq!(lexed("\"a\n"), [(1, 2), (28, 3)]);
}

#[test]
fn t6_binary_number() {
    assert_eq!(lexed("0b12"), [(33, 3), (33, 4)]);
}

#[test]
fn t7_closing_parenthesis() {
    assert_eq!(parsed(")").events, [2, 1, 55, 0, 0]);
    assert_eq!(spans(")").len(), 1);
}

#[test]
fn t8_constant_in_procedure() {
    assert_eq!(spans("proc a const X = 1"), [(7, 12)]);
}

#[test]
fn t9_do_while() {
    assert_eq!(spans("begin do while.true end while end end"), []);
}

#[test]
fn t10_type_body_to_the_end() {
    let events = parsed("type T = felt\nfoo").events;
    assert_eq!(events, [2, 11, 31, 27, 31, 27, 26, 44, 27, 31, 28, 31, 0, 0, 0]);
}

#[test]
fn depth_256_and_257() {
    let deep = |count: usize| format!("begin{}", " if".repeat(count));
    assert_eq!(parsed(&deep(256)).diagnostics.len(), 1);
    assert_eq!(parsed(&deep(256)).diagnostics[0].message, 3);
    assert_eq!(spans(&deep(257)), [(774, 776)]);
    assert_eq!(parsed(&deep(257)).diagnostics[0].message, 49);
}

#[test]
fn join_needs_its_premise() {
    let (a, b) = ("proc a pub ( end\n", ") proc b end");
    let separate = parsed(a).diagnostics.len() + parsed(b).diagnostics.len();
    assert_ne!(parsed(&format!("{a}{b}")).diagnostics.len(), separate);
}

#[test]
fn space_leaves_the_expression() {
    assert_eq!(lexed("const X = 1 \n").len(), 9);
    let alone = parsed("const X = 1 \n").events;
    let followed = parsed("const X = 1 \nproc").events;
    let (in_expr, after_expr) = ([33, 27, 0], [33, 0, 27]);
    assert!(alone.windows(3).any(|window| window == in_expr));
    assert!(followed.windows(3).any(|window| window == after_expr));
}

#[test]
fn sizes() {
    let spaces = vec![b' '; MAX_SOURCE];
    let found = ample(&spaces);
    assert_eq!((found.status, found.counts), (0, [1, 3, 0]));
    let found = ample(&vec![b' '; MAX_SOURCE + 1]);
    assert_eq!((found.status, found.counts), (1, [0, 0, 0]));
}

#[test]
fn program_tree() {
    let expected = "ok 6 14 0\n+ 2\n+ 13\n= 31 0 5\n= 27 5 6\n+ 18\n+ 23\n= 31 6 9\n-\n= 27 9 10\n-\n\
                    = 31 10 13\n-\n= 28 13 14\n-\n";
    assert_eq!(String::from_utf8(tree(b"begin add end\n")).unwrap(), expected);
    assert_eq!(tree(&[b' '; 2_049]), b"long\n");
    assert_eq!(tree(b"a\xFF"), b"no 2 1 1 0\n");
    assert_eq!(tree(b"a\xC3"), b"no 2 1 0 0\n");
    let expected = "ok 2 6 2\n+ 2\n= 28 0 1\n+ 1\n= 1 1 3\n-\n-\n\
                    ! 2 1 1 3 unexpected top-level token\n! 2 1 1 3 unrecognized token `$x`\n";
    assert_eq!(String::from_utf8(tree(b"\n$x")).unwrap(), expected);
}

/// Where `tree` says that the first diagnostic is.
#[test]
fn program_tree_counts_lines_by_m_102() {
    let first = |source: &[u8]| {
        let text = String::from_utf8(tree(source)).unwrap();
        let line = text.lines().find(|line| line.starts_with('!')).expect("a diagnostic");
        line.split(' ').take(5).collect::<Vec<_>>().join(" ")
    };
    assert_eq!(first(b"\r$x"), "! 2 1 1 3");
    assert_eq!(first(b"\r\n$x"), "! 2 1 2 4");
    assert_eq!(first(b"begin\r\n"), "! 1 7 6 6");
    assert_eq!(first(b"begin\r"), "! 1 6 5 5");
    assert_eq!(first(b"begin a.\"b\\\rc\" $x"), "! 2 4 15 17");
}
