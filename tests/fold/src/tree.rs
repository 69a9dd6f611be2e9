//! The reference's tree, with what the checks ask of it. Nothing here is shared with `fold`.

use reference::{Diagnostic, Parsed, syntax::SyntaxKind as Kind};

use crate::lines;

pub struct Token {
    pub kind: u16,
    pub start: usize,
    pub end: usize,
    /// The innermost node around it.
    pub node: usize,
    /// The child of the root that it is in; none where it is one itself.
    pub item: Option<usize>,
    pub depth: usize,
    pub unread: bool,
    pub opens: bool,
    pub closes: bool,
}

pub struct Node {
    pub kind: u16,
    pub parent: usize,
    pub first: usize,
    pub end: usize,
}

/// A child of the root that is a node.
pub struct Item {
    pub node: usize,
    pub kind: u16,
    pub first: usize,
    pub end: usize,
    /// Its block's first token, where it has one, and the most blocks open together.
    pub block: Option<usize>,
    pub depth: usize,
    /// Its first word outside attributes.
    pub head: Option<usize>,
}

pub struct Tree<'a> {
    pub source: &'a [u8],
    /// Where line ends are completed.
    line_ends: Vec<usize>,
    pub tokens: Vec<Token>,
    pub nodes: Vec<Node>,
    pub items: Vec<Item>,
    pub diagnostics: Vec<Diagnostic>,
    /// How deep blocks may lie.
    pub limit: u64,
    /// The first token that was not read because blocks lie too deep; else their number.
    pub read_end: usize,
}

pub fn is_blank(kind: u16) -> bool {
    kind == Kind::Whitespace as u16 || kind == Kind::Newline as u16
}

pub fn is_comment(kind: u16) -> bool {
    kind == Kind::Comment as u16 || kind == Kind::DocComment as u16
}

/// The nodes that are open, and whether blocks opened and closed since the last token.
#[derive(Default)]
struct Walk {
    open: Vec<usize>,
    opens: bool,
    closes: bool,
}

/// An event below this number opens or closes a node.
const FIRST_TOKEN: u16 = Kind::Whitespace as u16;

impl<'a> Tree<'a> {
    pub fn new(source: &'a [u8], parsed: &Parsed, limit: u64) -> Self {
        let diagnostics = parsed.diagnostics.clone();
        let mut tree = Self {
            source,
            line_ends: lines::ends(source),
            tokens: Vec::new(),
            nodes: Vec::new(),
            items: Vec::new(),
            diagnostics,
            limit,
            read_end: parsed.tokens.len(),
        };
        tree.build(parsed);
        for item in 0..tree.items.len() {
            tree.items[item].head = tree.head_word(&tree.items[item]);
        }
        if let Some(deep) = tree.diagnostics.iter().find(|diagnostic| diagnostic.message == 49) {
            tree.read_end = tree.token_at(deep.start as usize);
        }
        tree
    }

    fn build(&mut self, parsed: &Parsed) {
        let mut walk = Walk::default();
        for &event in &parsed.events {
            match event {
                0 => self.close(&mut walk),
                kind if kind < FIRST_TOKEN => self.open(kind, &mut walk),
                _ => self.take(parsed.tokens[self.tokens.len()], &mut walk),
            }
        }
        if let Some(last) = self.tokens.last_mut() {
            last.opens |= walk.opens;
            last.closes |= walk.closes;
        }
    }

    /// How many nodes of a kind are open.
    fn count(&self, walk: &Walk, kind: Kind) -> usize {
        walk.open.iter().filter(|&&node| self.nodes[node].kind == kind as u16).count()
    }

    fn open(&mut self, kind: u16, walk: &mut Walk) {
        let (node, first) = (self.nodes.len(), self.tokens.len());
        let parent = walk.open.last().copied().unwrap_or(0);
        self.nodes.push(Node { kind, parent, first, end: first });
        walk.open.push(node);
        if walk.open.len() == 2 {
            let (block, depth, head) = (None, 0, None);
            self.items.push(Item { node, kind, first, end: first, block, depth, head });
        }
        if kind == Kind::Block as u16 {
            walk.opens = true;
            let depth = self.count(walk, Kind::Block);
            let item = self.items.last_mut().expect("an item");
            item.depth = item.depth.max(depth);
            item.block.get_or_insert(first);
        }
    }

    fn close(&mut self, walk: &mut Walk) {
        let node = walk.open.pop().expect("an open node");
        self.nodes[node].end = self.tokens.len();
        walk.closes |= self.nodes[node].kind == Kind::Block as u16;
        if walk.open.len() == 1 {
            self.items.last_mut().expect("an item").end = self.tokens.len();
        }
    }

    fn take(&mut self, token: reference::Token, walk: &mut Walk) {
        let in_error = self.count(walk, Kind::Error) > 0;
        self.tokens.push(Token {
            kind: token.kind,
            start: self.tokens.last().map_or(0, |token| token.end),
            end: token.end as usize,
            node: *walk.open.last().expect("the root"),
            item: (walk.open.len() > 1).then(|| self.items.len() - 1),
            depth: self.count(walk, Kind::Block),
            unread: in_error || token.kind == Kind::Error as u16,
            opens: walk.opens,
            closes: walk.closes,
        });
        (walk.opens, walk.closes) = (false, false);
    }

    /// What is said where nothing was read any more: whose row it is, and the words.
    pub fn depth_note(&self) -> (String, String) {
        let line = self.line_of(self.tokens[self.read_end].start);
        let words = format!("from here on nothing was read: blocks lie deeper than {}", self.limit);
        (format!("{line:7} !  {:10}", "unread"), words)
    }

    pub fn token_at(&self, offset: usize) -> usize {
        self.tokens.partition_point(|token| token.end <= offset)
    }

    pub fn text(&self, token: usize) -> &[u8] {
        &self.source[self.tokens[token].start..self.tokens[token].end]
    }

    pub fn line_of(&self, offset: usize) -> usize {
        lines::line_of(&self.line_ends, offset)
    }

    /// Whether a line starts at an offset: at the start, and where a line end is completed.
    pub fn starts_line(&self, offset: usize) -> bool {
        offset == 0 || self.line_ends.binary_search(&offset).is_ok()
    }

    /// Where the line of an offset ends, its line end included.
    pub fn end_of_line(&self, offset: usize) -> usize {
        lines::end_of_line(&self.line_ends, offset, self.source.len())
    }

    /// How many lines there are: those that have a line end, and what stands behind the last.
    pub fn line_count(&self) -> usize {
        let behind = self.line_ends.last().copied().unwrap_or(0);
        self.line_ends.len() + usize::from(behind < self.source.len())
    }

    pub fn is_word(&self, token: usize) -> bool {
        let kind = self.tokens[token].kind;
        !is_blank(kind) && !is_comment(kind)
    }

    /// The token at which an item's messages stand: its first word outside attributes, else the
    /// start of its last attribute.
    pub fn head(&self, item: &Item) -> usize {
        if item.kind != Kind::Procedure as u16 {
            return item.first;
        }
        item.head.unwrap_or_else(|| self.attributes(item).last().expect("an attribute"))
    }

    fn head_word(&self, item: &Item) -> Option<usize> {
        let outside =
            |token: &usize| self.nodes[self.tokens[*token].node].kind != Kind::Attribute as u16;
        (item.first..item.end).find(|token| self.is_word(*token) && outside(token))
    }

    /// Where the item's attributes start.
    pub fn attributes(&self, item: &Item) -> impl Iterator<Item = usize> {
        self.inside(item, Kind::Attribute)
    }

    /// Where an item's own nodes of a kind start.
    pub fn inside(&self, item: &Item, kind: Kind) -> impl Iterator<Item = usize> {
        let own = self.nodes[item.node + 1..].iter().take_while(|node| node.parent >= item.node);
        let found = own.filter(|node| node.parent == item.node && node.kind == kind as u16);
        let starts: Vec<usize> = found.map(|node| node.first).collect();
        starts.into_iter()
    }

    pub fn label(&self, token: usize) -> &'static str {
        if token >= self.read_end {
            return "unread";
        }
        let Some(item) = self.tokens[token].item else { return "comment" };
        let item = &self.items[item];
        match item.kind {
            kind if kind == Kind::Error as u16 => "unread",
            kind if kind == Kind::Doc as u16 => "doc",
            kind if kind == Kind::Namespace as u16 => "namespace",
            kind if kind == Kind::Submodule as u16 => "submodule",
            kind if kind == Kind::Constant as u16 => "constant",
            kind if kind == Kind::TypeDecl as u16 => "type",
            kind if kind == Kind::AdviceMap as u16 => "advice map",
            kind if kind == Kind::BeginBlock as u16 => "begin",
            _ if item.head.is_none_or(|head| token < head) => "attribute",
            _ => "procedure",
        }
    }

    /// A procedure's name: its second word of its own, before its block.
    pub fn name(&self, item: &Item) -> Option<&[u8]> {
        let own = |token: &usize| self.tokens[*token].node == item.node && self.is_word(*token);
        let named = item.kind == Kind::Procedure as u16;
        let name = (item.first..item.block.unwrap_or(item.end)).filter(own).nth(1);
        name.filter(|_| named).map(|token| self.text(token))
    }

    pub fn item_label(&self, item: &Item) -> &'static str {
        match item.kind {
            kind if kind == Kind::Procedure as u16 => "procedure",
            _ => self.label(item.first),
        }
    }
}
