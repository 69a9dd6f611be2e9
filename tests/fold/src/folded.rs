//! The folded view: every byte that is no blank is shown once, in order and at its line, or lies in
//! the fold of a procedure or `begin` block whose row counts it.

use std::{collections::BTreeSet, ops::Range};

use reference::syntax::SyntaxKind as Kind;

use crate::{
    lines::is_break,
    marks::{doubts, reported},
    shown::Row,
    tree::{Item, Tree, is_blank, is_comment},
};

/// What was seen, for the figures.
#[derive(Debug, Default, Clone)]
pub struct Seen {
    pub rows: u64,
    pub folds: u64,
    pub folded_lines: u64,
    pub doubts: u64,
    pub marked: u64,
    pub unread: u64,
}

struct Check<'a, 'b> {
    tree: &'a Tree<'b>,
    /// Of each item the tokens that are to be folded.
    folds: Vec<Option<Range<usize>>>,
    reported: BTreeSet<usize>,
    doubtful: BTreeSet<usize>,
    /// Everything before it is shown or folded, but for blanks.
    done: usize,
    /// Rows of fold's own before the next text.
    notes: Vec<(String, String)>,
    seen: Seen,
}

type Checked = Result<(), String>;

/// Checks the rows between the first and the summary.
pub fn check(tree: &Tree, rows: &[Row], named: &[String]) -> Result<Seen, String> {
    let mut check = Check {
        tree,
        folds: tree.items.iter().map(|item| folded(tree, item, named)).collect(),
        reported: reported(tree),
        doubtful: tree.items.iter().flat_map(|item| doubts(tree, item).tokens).collect(),
        done: 0,
        notes: Vec::new(),
        seen: Seen::default(),
    };
    for row in rows {
        check.row(row).map_err(|reason| format!("{reason}: {row:?}"))?;
    }
    match check.next() {
        Some(next) => Err(format!("the byte at {next} is neither shown nor folded")),
        None if !check.notes.is_empty() => Err(format!("notes at the end: {:?}", check.notes)),
        None => Ok(check.seen),
    }
}

impl Check<'_, '_> {
    fn row(&mut self, row: &Row) -> Checked {
        self.seen.rows += 1;
        if row.own && !row.left.contains("folded") {
            self.notes.push((row.left.clone(), row.words()));
            return Ok(());
        }
        let next = self.next().ok_or("nothing is left to show")?;
        self.notes(next)?;
        if row.own { self.fold(row, next) } else { self.text(row, next) }
    }

    /// The next byte to show: no blank, and not the break of a line inside a token.
    fn next(&self) -> Option<usize> {
        let (mut at, source) = (self.done, self.tree.source);
        while at < source.len() {
            let token = &self.tree.tokens[self.tree.token_at(at)];
            if is_blank(token.kind) {
                at = token.end;
            } else if at > token.start && is_break(source[at]) {
                at += 1;
            } else {
                return Some(at);
            }
        }
        None
    }

    /// The rows of fold's own stand right before the item of which they speak, and before the text
    /// that was not read.
    fn notes(&mut self, next: usize) -> Checked {
        let (tree, token) = (self.tree, self.tree.token_at(next));
        let mut expected = Vec::new();
        let item = tree.tokens[token].item.map(|item| &tree.items[item]);
        if let Some(item) = item.filter(|item| tree.tokens[item.first].start == next) {
            let line = tree.line_of(next);
            let left = format!("{line:7}  ? {:10}", tree.item_label(item));
            expected
                .extend(doubts(tree, item).words.into_iter().map(|words| (left.clone(), words)));
        }
        if token == tree.read_end && tree.tokens[token].start == next {
            expected.push(tree.depth_note());
        }
        self.seen.doubts += expected.len() as u64;
        let found = std::mem::take(&mut self.notes);
        if found == expected { Ok(()) } else { Err(format!("{found:?}, not {expected:?}, before")) }
    }

    fn fold(&mut self, row: &Row, next: usize) -> Checked {
        let (tree, token) = (self.tree, self.tree.token_at(next));
        let tokens = self.fold_around(token).filter(|tokens| tokens.start == token);
        let tokens = tokens.ok_or("a fold where none may be")?;
        let depth = tree.tokens[token].item.map_or(0, |item| tree.items[item].depth);
        let end = tree.tokens[tokens.end - 1].end;
        let (first, last) = (tree.line_of(next), tree.line_of(end - 1));
        let comments = tokens.clone().filter(|&token| is_comment(tree.tokens[token].kind)).count();
        let lines = last - first + 1;
        let range = if lines > 1 { format!("{first}-{last}: ") } else { String::new() };
        let plural = |count: usize| if count == 1 { "" } else { "s" };
        let words = format!(
            "{range}{lines} line{}, {comments} comment{}, depth {depth}",
            plural(lines),
            plural(comments),
        );
        let left = self.left(first, tokens.clone(), false, "folded");
        self.done = end;
        self.seen.folds += 1;
        self.seen.folded_lines += lines as u64;
        same(&left, &row.left)?;
        same(&words, &row.words())
    }

    /// The fold that a token lies in.
    fn fold_around(&self, token: usize) -> Option<Range<usize>> {
        let fold = self.folds[self.tree.tokens[token].item?].clone();
        fold.filter(|tokens| tokens.contains(&token))
    }

    fn left(&mut self, line: usize, tokens: Range<usize>, unread: bool, label: &str) -> String {
        let marked = unread || self.reported.range(tokens.clone()).next().is_some();
        let doubtful = self.doubtful.range(tokens).next().is_some();
        self.seen.marked += u64::from(marked);
        self.seen.unread += u64::from(unread);
        let sign = |sign: char, set: bool| if set { sign } else { ' ' };
        format!("{line:7} {}{} {label:10}", sign('!', marked), sign('?', doubtful))
    }

    fn text(&mut self, row: &Row, next: usize) -> Checked {
        let (tree, source) = (self.tree, self.tree.source);
        let token = tree.token_at(next);
        let starts_token = tree.tokens[token].start == next;
        if !starts_token && !tree.starts_line(next) {
            return Err("the row before ends inside a token".to_string());
        }
        let indent = self.indent(next, token);
        let from = next - indent;
        let to = from + row.text.len();
        if source.get(from..to) != Some(row.text.as_slice()) || to <= next {
            return Err(format!("the bytes at {from} are others"));
        }
        self.one_line(next, to)?;
        self.one_item(token, to)?;
        self.full(token, to)?;
        let label = tree.label(token);
        let behind = tree.token_at(to - 1) + 1;
        let first = if starts_token { token } else { token + 1 };
        let left =
            self.left(tree.line_of(next), first..behind.max(first), label == "unread", label);
        self.done = to;
        same(&left, &row.left)
    }

    /// The blanks before the first text of a row's line.
    fn indent(&self, next: usize, token: usize) -> usize {
        let before = token.checked_sub(1).map(|before| &self.tree.tokens[before]);
        match before {
            Some(blank)
                if blank.end == next
                    && blank.kind == Kind::Whitespace as u16
                    && self.tree.starts_line(blank.start) =>
            {
                blank.end - blank.start
            },
            _ => 0,
        }
    }

    /// No line ends inside the row, and it ends in no blank and no part of a line end.
    fn one_line(&self, next: usize, to: usize) -> Checked {
        let inside = (next + 1..to).any(|at| self.tree.starts_line(at));
        let last = &self.tree.tokens[self.tree.token_at(to - 1)];
        if inside || is_blank(last.kind) || is_break(self.tree.source[to - 1]) {
            return Err("the row does not end with its line".to_string());
        }
        Ok(())
    }

    /// All words of the row are of one item, or all of unread text, and none of them is folded.
    fn one_item(&self, token: usize, to: usize) -> Checked {
        let tree = self.tree;
        let of = |token: usize| (self.group(token), tree.label(token));
        let words = (token..tree.tokens.len()).take_while(|&token| tree.tokens[token].start < to);
        for word in words.filter(|&token| !is_blank(tree.tokens[token].kind)) {
            if of(word) != of(token) || self.fold_around(word).is_some() {
                return Err(format!("token {word} has no place in the row"));
            }
        }
        Ok(())
    }

    /// What a token shares rows with: those of its item; all unread text is one.
    fn group(&self, token: usize) -> usize {
        match (self.tree.label(token), self.tree.tokens[token].item) {
            ("unread", _) => usize::MAX,
            (_, Some(item)) => item,
            (_, None) => usize::MAX - 1 - token,
        }
    }

    /// The row goes as far as its line and its item go.
    fn full(&self, token: usize, to: usize) -> Checked {
        let (tree, source) = (self.tree, self.tree.source);
        if to == source.len() {
            return Ok(());
        }
        let at = tree.token_at(to);
        let early = Err("the row ends early".to_string());
        if tree.tokens[at].start < to {
            // Only the break of a line may be left out of a token.
            return if is_break(source[to]) { Ok(()) } else { early };
        }
        let spaces = |token: &usize| tree.tokens[*token].kind == Kind::Whitespace as u16;
        let Some(behind) = (at..tree.tokens.len()).find(|token| !spaces(token)) else {
            return Ok(());
        };
        if tree.tokens[behind].kind == Kind::Newline as u16 {
            return Ok(());
        }
        let alike =
            self.group(behind) == self.group(token) && tree.label(behind) == tree.label(token);
        if alike && self.fold_around(behind).is_none() { early } else { Ok(()) }
    }
}

/// The tokens of an item that are to be folded.
fn folded(tree: &Tree, item: &Item, named: &[String]) -> Option<Range<usize>> {
    let blank = |token: &usize| is_blank(tree.tokens[*token].kind);
    let (block, end) = (item.block?, item.end.min(tree.read_end));
    let first = (block..end).find(|token| !blank(token))?;
    let last = (first..end).rfind(|token| !blank(token))?;
    let header = (item.first..block).rfind(|token| !blank(token))?;
    let line = |token: usize| tree.line_of(tree.tokens[token].end - 1);
    (line(header) != line(last) && !is_named(tree, item, named)).then_some(first..last + 1)
}

fn is_named(tree: &Tree, item: &Item, named: &[String]) -> bool {
    if item.kind == Kind::BeginBlock as u16 {
        return named.iter().any(|name| name == "begin");
    }
    let quoted = |text: &[u8]| text.len() > 1 && text[0] == b'"';
    tree.name(item).is_some_and(|text| {
        let bare = if quoted(text) { &text[1..text.len() - 1] } else { text };
        named.iter().any(|name| name.as_bytes() == text || name.as_bytes() == bare)
    })
}

fn same(expected: &str, found: &str) -> Checked {
    if expected == found { Ok(()) } else { Err(format!("{found:?}, not {expected:?}")) }
}
