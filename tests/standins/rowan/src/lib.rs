//! Stand-in for `rowan`: the builder keeps the sequence of its calls, which is the tree.

use std::{fmt::Debug, hash::Hash, marker::PhantomData, sync::Arc};

#[derive(Debug, Clone, Copy, PartialEq, Eq, PartialOrd, Ord, Hash)]
pub struct SyntaxKind(pub u16);

pub trait Language: Sized + Copy + Debug + Eq + Ord + Hash {
    type Kind: Sized + Copy + Debug + Eq + Ord + Hash;

    fn kind_from_raw(raw: SyntaxKind) -> Self::Kind;
    fn kind_to_raw(kind: Self::Kind) -> SyntaxKind;
}

/// One call of the builder. A token's text ends at this offset of the text built so far.
#[derive(Debug, Clone, Copy, PartialEq, Eq)]
pub enum Event {
    Start(SyntaxKind),
    Token(SyntaxKind, usize),
    Finish,
}

#[derive(Debug, Default)]
struct Recorded {
    events: Vec<Event>,
    text: String,
}

/// A finished tree.
#[derive(Debug, Clone)]
pub struct GreenNode(Arc<Recorded>);

impl GreenNode {
    pub fn events(&self) -> &[Event] {
        &self.0.events
    }

    /// The texts of all tokens in order.
    pub fn text(&self) -> &str {
        &self.0.text
    }
}

/// Records nodes and tokens; refuses calls that make no tree, as rowan does.
#[derive(Debug, Default)]
pub struct GreenNodeBuilder<'cache> {
    recorded: Recorded,
    open: usize,
    roots: usize,
    cache: PhantomData<&'cache ()>,
}

impl GreenNodeBuilder<'_> {
    pub fn new() -> Self {
        Self::default()
    }

    pub fn start_node(&mut self, kind: SyntaxKind) {
        if self.open == 0 {
            self.roots += 1;
        }
        self.open += 1;
        self.recorded.events.push(Event::Start(kind));
    }

    pub fn token(&mut self, kind: SyntaxKind, text: &str) {
        assert!(self.open > 0, "a token outside of all nodes");
        self.recorded.text.push_str(text);
        self.recorded.events.push(Event::Token(kind, self.recorded.text.len()));
    }

    pub fn finish_node(&mut self) {
        assert!(self.open > 0, "no node is open");
        self.open -= 1;
        self.recorded.events.push(Event::Finish);
    }

    pub fn finish(self) -> GreenNode {
        assert!(self.open == 0 && self.roots == 1, "not one finished root");
        GreenNode(Arc::new(self.recorded))
    }
}

#[derive(Debug, Clone, Copy, PartialEq, Eq)]
pub struct TextSize(u32);

impl From<TextSize> for u32 {
    fn from(size: TextSize) -> Self {
        size.0
    }
}

#[derive(Debug, Clone, Copy, PartialEq, Eq)]
pub struct TextRange {
    start: TextSize,
    end: TextSize,
}

impl TextRange {
    pub fn start(self) -> TextSize {
        self.start
    }

    pub fn end(self) -> TextSize {
        self.end
    }
}

/// A root with its tree. Walking down the tree is left out.
#[derive(Debug, Clone)]
pub struct SyntaxNode<L: Language> {
    green: GreenNode,
    language: PhantomData<L>,
}

impl<L: Language> SyntaxNode<L> {
    pub fn new_root(green: GreenNode) -> Self {
        Self { green, language: PhantomData }
    }

    pub fn green(&self) -> &GreenNode {
        &self.green
    }

    pub fn text_range(&self) -> TextRange {
        TextRange { start: TextSize(0), end: TextSize(self.green.text().len() as u32) }
    }
}

#[derive(Debug, Clone)]
pub struct SyntaxToken<L: Language> {
    range: TextRange,
    language: PhantomData<L>,
}

impl<L: Language> SyntaxToken<L> {
    pub fn text_range(&self) -> TextRange {
        self.range
    }
}

#[derive(Debug, Clone)]
pub enum NodeOrToken<N, T> {
    Node(N),
    Token(T),
}

pub type SyntaxElement<L> = NodeOrToken<SyntaxNode<L>, SyntaxToken<L>>;
