//! The unfolded view gives back every byte of the source, but for line ends, and the number of each line.

use crate::{
    lines,
    marks::doubts,
    shown::Row,
    tree::{Tree, is_blank},
};

/// Checks the rows between the first and the summary; their number.
pub fn check(tree: &Tree, rows: &[Row]) -> Result<u64, String> {
    let (mut from, mut notes, mut rest) = (0, Vec::new(), rows.iter());
    while from < tree.source.len() {
        let to = tree.end_of_line(from);
        notes.clear();
        let row = loop {
            let row = rest.next().ok_or(format!("the byte at {from} is not shown"))?;
            if !row.own {
                break row;
            }
            notes.push((row.left.clone(), row.words()));
        };
        let expected = expected_notes(tree, from, to);
        if notes != expected {
            return Err(format!("{notes:?}, not {expected:?}, before {row:?}"));
        }
        let left = left(tree, from, to);
        if row.left != left || row.text != lines::text(&tree.source[from..to]) {
            return Err(format!("{row:?}, not {left:?} and the bytes {from} to {to}"));
        }
        from = to;
    }
    match rest.next() {
        Some(row) => Err(format!("behind the last row: {row:?}")),
        None => Ok(rows.len() as u64),
    }
}

fn left(tree: &Tree, from: usize, to: usize) -> String {
    let touches = |token: usize| tree.tokens[token].start < to;
    let first = tree.token_at(from);
    let tokens: Vec<usize> =
        (first..tree.tokens.len()).take_while(|&token| touches(token)).collect();
    let starting = || tokens.iter().filter(|&&token| tree.tokens[token].start >= from);
    let text = tokens.iter().find(|&&token| !is_blank(tree.tokens[token].kind));
    let depth = tree.tokens[*text.unwrap_or(&first)].depth;
    let opens = starting().any(|&token| tree.tokens[token].opens);
    let closes = starting().any(|&token| tree.tokens[token].closes);
    let sign = match (opens, closes) {
        (true, true) => '*',
        (true, false) => '+',
        (false, true) => '-',
        (false, false) => ' ',
    };
    let unread = tokens.iter().any(|&token| tree.tokens[token].unread);
    let unread = if unread { "unread" } else { "" };
    format!("{:7} {depth:3} {sign} {unread:7}", tree.line_of(from))
}

fn expected_notes(tree: &Tree, from: usize, to: usize) -> Vec<(String, String)> {
    let here = |token: usize| (from..to).contains(&tree.tokens[token].start);
    let mut notes = Vec::new();
    let first = tree.items.partition_point(|item| tree.tokens[item.first].start < from);
    for item in tree.items[first..].iter().take_while(|item| here(item.first)) {
        let line = tree.line_of(tree.tokens[item.first].start);
        let left = format!("{line:7}  ? {:10}", tree.item_label(item));
        notes.extend(doubts(tree, item).words.into_iter().map(|words| (left.clone(), words)));
    }
    if tree.read_end < tree.tokens.len() && here(tree.read_end) {
        notes.push(tree.depth_note());
    }
    notes
}
