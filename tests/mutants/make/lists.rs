//! Kinds, words and variants: taken from a list, put into it, or exchanged.

use super::changes::Change;

/// The kinds that a token can have, in the order of `SyntaxKind`.
const TOKENS: [&str; 34] = [
    "Error", "Whitespace", "Newline", "Comment", "DocComment", "Ident", "SpecialIdent", "Number",
    "QuotedIdent", "QuotedString", "At", "Bang", "Colon", "ColonColon", "Comma", "Dot", "DotDot",
    "DotDotDot", "Equal", "LAngle", "LBrace", "LBracket", "LParen", "Minus", "Plus", "RAngle",
    "RArrow", "RBrace", "RBracket", "RParen", "Semicolon", "Slash", "SlashSlash", "Star",
];

/// No token has this kind.
const NO_KIND: &str = "Tombstone";

/// The words that lists have, and some that none has. `use` and `extern` are refused.
const WORDS: [&str; 17] = [
    "a", "adv_map", "begin", "const", "do", "else", "end", "enum", "if", "mod", "namespace",
    "package", "proc", "pub", "repeat", "type", "while",
];

/// What lists of characters get: no kind of space or line end but the lexer's own.
const CHARACTERS: [&str; 3] = ["\\x0B", "\\x0C", "\\u{A0}"];

const ENUMS: [(&str, &[&str]); 3] = [
    ("BlockOwner::", &["Begin", "Procedure", "If", "While", "DoWhileBody", "DoWhile", "Repeat"]),
    ("BlockParseOutcome::", &["FoundTerminator", "RecoveredImplicitEnd", "ReachedEof"]),
    ("BlockRecoveryBoundary::", &["Else", "TopLevelItem"]),
];

pub fn changes(body: &str) -> Vec<Change> {
    let mut changes = Vec::new();
    for prefix in ["SyntaxKind::", "Self::"] {
        for (at, _) in body.match_indices(prefix) {
            changes.extend(kind(body, at, prefix));
        }
    }
    for (prefix, variants) in ENUMS {
        for (at, _) in body.match_indices(prefix) {
            changes.extend(variant(body, at + prefix.len(), variants));
        }
    }
    changes.extend(list_ends(body, '"').flat_map(|(end, list)| words(end, &list)));
    changes.extend(list_ends(body, '\'').flat_map(|(end, _)| {
        CHARACTERS.map(|character| Change::new(end..end, format!(" | '{character}'")))
    }));
    changes
}

/// One kind: exchanged, or, at the end of a list, all others put in.
fn kind(body: &str, at: usize, prefix: &str) -> Vec<Change> {
    let start = at + prefix.len();
    let name = identifier(&body[start..]);
    let place = start..start + name.len();
    if prefix == "Self::" && !TOKENS.contains(&name) {
        return Vec::new();
    }
    if in_pattern(body, at, place.end) {
        let mut changes = vec![Change::new(place.clone(), NO_KIND)];
        if is_list_end(body, at, place.end) {
            let list = list_before(body, place.end);
            let absent = TOKENS.iter().filter(|other| !list.contains(&format!("{prefix}{other}")));
            changes.extend(
                absent
                    .map(|other| Change::new(place.end..place.end, format!(" | {prefix}{other}"))),
            );
        }
        return changes;
    }
    others(&TOKENS, name).into_iter().map(|other| Change::new(place.clone(), other)).collect()
}

/// The neighbours in the list and the kind that no token has; a node's kind becomes another node's.
fn others(kinds: &[&'static str], name: &str) -> Vec<&'static str> {
    match kinds.iter().position(|kind| *kind == name) {
        Some(at) => {
            let last = kinds.len() - 1;
            vec![
                NO_KIND,
                kinds[if at == 0 { last } else { at - 1 }],
                kinds[if at == last { 0 } else { at + 1 }],
            ]
        },
        None => vec!["Doc", "Error"],
    }
}

fn variant(body: &str, start: usize, variants: &[&'static str]) -> Vec<Change> {
    let name = identifier(&body[start..]);
    let place = start..start + name.len();
    // The texts for a closer that is missing are not reported where it was met.
    if body[place.end..].starts_with(" =>")
        || body[place.end..].starts_with(".missing_end_message()")
    {
        return Vec::new();
    }
    let others = variants.iter().filter(|other| **other != name);
    others.map(|other| Change::new(place.clone(), *other)).collect()
}

fn identifier(text: &str) -> &str {
    let end = text.find(|character: char| !character.is_alphanumeric()).unwrap_or(text.len());
    &text[..end]
}

/// Whether alternatives stand around, or an arrow behind.
fn in_pattern(body: &str, start: usize, end: usize) -> bool {
    let behind = body[end..].trim_start_matches(')').trim_start();
    let compared = body[..start].ends_with("= ");
    bar_before(body, start) || is_bar(behind) || behind.starts_with("=>") && !compared
}

/// The end of a list of two or more, or of one kind in `Some`. Where a list only answers None, no other kind is
/// put in: None and a kind that nobody asks for are the same.
fn is_list_end(body: &str, start: usize, end: usize) -> bool {
    let behind = body[end..].trim_start();
    let list = bar_before(body, start) || body[..start].ends_with("Some(");
    list && !is_bar(behind) && !behind.starts_with("=> return None")
}

fn bar_before(body: &str, at: usize) -> bool {
    let before = body[..at].trim_end();
    before.ends_with('|') && !before.ends_with("||") && !closure(before)
}

/// A closure's parameters end in a bar too.
fn closure(before: &str) -> bool {
    let start = before.rfind('\n').map_or(0, |at| at + 1);
    let line = &before[start..];
    line.matches('|').count() == 2 && line.contains("(|")
}

fn is_bar(text: &str) -> bool {
    text.starts_with('|') && !text.starts_with("||")
}

/// The alternatives up to here.
fn list_before(body: &str, end: usize) -> Vec<String> {
    let start = body[..end].rfind(['(', '{', ',', ';']).map_or(0, |at| at + 1);
    body[start..end].split('|').map(|item| item.trim().to_string()).collect()
}

/// The ends of lists of quoted alternatives, with the list.
fn list_ends(body: &str, quote: char) -> impl Iterator<Item = (usize, Vec<String>)> {
    let ends = body.match_indices(quote).map(|(at, _)| at + 1);
    ends.filter_map(move |end| {
        let closing =
            body[end..].trim_start().starts_with([')', '=']) || body[end..].starts_with("\n");
        let list = list_before(body, end);
        let quoted =
            |item: &String| item.len() > 2 && item.starts_with(quote) && item.ends_with(quote);
        let whole = list.len() > 1 && list.iter().all(quoted) && !list[0].contains('$');
        (closing && whole && !is_bar(body[end..].trim_start())).then_some((end, list))
    })
}

fn words(end: usize, list: &[String]) -> Vec<Change> {
    let absent = WORDS.iter().filter(|word| !list.contains(&format!("\"{word}\"")));
    absent.map(|word| Change::new(end..end, format!(" | \"{word}\""))).collect()
}
