//! Where `!` and `?` must stand, from the rules in words.

use std::collections::BTreeSet;

use reference::{Diagnostic, syntax::SyntaxKind as Kind};

use crate::tree::{Item, Tree};

/// Messages that speak of the token at which they stand.
const ABOUT_TOKENS: [u16; 8] = [22, 45, 46, 49, 50, 51, 52, 53];

/// Messages that an attribute says.
const ABOUT_ATTRIBUTES: [u16; 2] = [38, 39];

/// Words that start an item, where they begin a line.
const STARTERS: [&[u8]; 9] =
    [b"namespace", b"pub", b"mod", b"proc", b"begin", b"const", b"type", b"enum", b"adv_map"];

/// The tokens to which diagnostics belong.
pub fn reported(tree: &Tree) -> BTreeSet<usize> {
    tree.diagnostics.iter().map(|diagnostic| reported_at(tree, diagnostic)).collect()
}

fn reported_at(tree: &Tree, diagnostic: &Diagnostic) -> usize {
    let start = diagnostic.start as usize;
    if ABOUT_TOKENS.contains(&diagnostic.message) {
        return tree.token_at(start);
    }
    let at_end = diagnostic.start == diagnostic.end;
    let before = |token: usize| at_end || tree.tokens[token].start < start;
    let count = tree.items.partition_point(|item| before(item.first));
    let item = &tree.items[count - 1];
    if ABOUT_ATTRIBUTES.contains(&diagnostic.message) {
        return tree.attributes(item).filter(|&token| before(token)).last().expect("an attribute");
    }
    tree.head(item)
}

/// What is doubtful about an item: the tokens that begin doubtful lines, and the words of its rows.
#[derive(Debug, Default)]
pub struct Doubts {
    pub tokens: Vec<usize>,
    pub words: Vec<String>,
}

/// Of text that is no item nothing more is said.
pub fn doubts(tree: &Tree, item: &Item) -> Doubts {
    if item.kind == Kind::Error as u16 {
        return Doubts::default();
    }
    let end = item.end.min(tree.read_end);
    let starts: Vec<usize> =
        (item.first + 1..end).filter(|&token| begins_line(tree, token)).collect();
    let proper = proper(tree, item);
    let (starters, others): (Vec<usize>, Vec<usize>) = starts
        .into_iter()
        .partition(|token| !proper.contains(token) && starter(tree, *token).is_some());
    let strays: Vec<usize> =
        others.into_iter().filter(|&token| is_stray(tree, item, token)).collect();
    let mut words = Vec::new();
    let holds_block = [Kind::Procedure as u16, Kind::BeginBlock as u16].contains(&item.kind);
    let open = openers(tree, item.first, end);
    if !holds_block && !open.is_empty() {
        words.push(format!("still open at its end: {}", open.join(", ")));
    }
    if let Some(&first) = starters.first() {
        let word = starter(tree, first).expect("a starter");
        let line = tree.line_of(tree.tokens[first].start);
        let more = more(starters.len());
        words.push(format!("runs over line {line}, which begins with `{word}`{more}"));
    }
    if let Some(&first) = strays.first() {
        let line = tree.line_of(tree.tokens[first].start);
        words.push(format!("goes on in line {line}, outside all brackets{}", more(strays.len())));
    }
    Doubts { tokens: [starters, strays].concat(), words }
}

fn more(lines: usize) -> String {
    match lines {
        1 => String::new(),
        2 => ", and 1 more such line".to_string(),
        _ => format!(", and {} more such lines", lines - 1),
    }
}

/// Whether only blanks stand between the last line break and a word.
fn begins_line(tree: &Tree, token: usize) -> bool {
    let before = |back: usize| tree.tokens[token - back].kind;
    tree.is_word(token)
        && (before(1) == Kind::Newline as u16
            || (token > 1
                && before(1) == Kind::Whitespace as u16
                && before(2) == Kind::Newline as u16))
}

/// The tokens that may begin a line though they start items: of attributes, of a visibility, and
/// the item's keyword, which is its own first word.
fn proper(tree: &Tree, item: &Item) -> BTreeSet<usize> {
    let own = |token: &usize| tree.tokens[*token].node == item.node && tree.is_word(*token);
    let keyword = (item.first..item.end).find(own);
    tree.attributes(item).chain(tree.inside(item, Kind::Visibility)).chain(keyword).collect()
}

fn starter(tree: &Tree, token: usize) -> Option<String> {
    let text = tree.text(token);
    let kind = tree.tokens[token].kind;
    let found = kind == Kind::At as u16 || (kind == Kind::Ident as u16 && STARTERS.contains(&text));
    found.then(|| String::from_utf8_lossy(text).into_owned())
}

/// Whether a word goes on behind the end of a type, outside all delimiters.
fn is_stray(tree: &Tree, item: &Item, token: usize) -> bool {
    let words = Kind::Ident as u16..=Kind::QuotedString as u16;
    let closers =
        [Kind::RParen, Kind::RBracket, Kind::RBrace, Kind::RAngle].map(|kind| kind as u16);
    let body = tree.nodes[tree.tokens[token].node].kind == Kind::TypeBody as u16;
    let before = (item.first..token).rev().find(|&before| tree.is_word(before));
    body && words.contains(&tree.tokens[token].kind)
        && before.is_some_and(|before| {
            let kind = tree.tokens[before].kind;
            words.contains(&kind) || closers.contains(&kind)
        })
        && openers(tree, item.first, token).is_empty()
}

/// The outermost opener of each delimiter that is open behind these tokens, with its line.
fn openers(tree: &Tree, first: usize, end: usize) -> Vec<String> {
    let pairs = [
        ('(', Kind::LParen, Kind::RParen),
        ('[', Kind::LBracket, Kind::RBracket),
        ('{', Kind::LBrace, Kind::RBrace),
    ];
    let mut found = Vec::new();
    for (sign, open, close) in pairs {
        let mut stack = Vec::new();
        for token in first..end {
            if tree.tokens[token].kind == open as u16 {
                stack.push(token);
            } else if tree.tokens[token].kind == close as u16 {
                stack.pop();
            }
        }
        if let Some(&outermost) = stack.first() {
            found.push(format!("{sign} of line {}", tree.line_of(tree.tokens[outermost].start)));
        }
    }
    found
}
