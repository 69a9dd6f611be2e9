//! Sources of one shape and any length, for differential runs, growth and times.

use crate::{limits::UNIT, random::Random, script};

/// A text that repeats one piece.
#[derive(Debug, Clone, Copy, PartialEq, Eq)]
pub struct Shape {
    pub name: &'static str,
    /// How many forms are open around the rest.
    deep: usize,
    head: &'static str,
    piece: &'static str,
    tail: &'static str,
}

/// On the first four the upstream parser's time is quadratic.
pub const SHAPES: [Shape; 31] = [
    shape("newlines in a type body", "type T = felt", "\n", "foo"),
    shape("line ends in a type body", "type T = a", "\n# c", "\nfoo"),
    shape("doc comments in a block", "begin\n", "#! d\n", "end\n"),
    deep("doc comments in deep blocks", "", "#! d\n", "end\n"),
    deep("doc comments, then an item", "", "#! d\n", "proc b end\n"),
    deep("newlines, then an item", "#! d", "\n", "proc b end\n"),
    deep("`pub (` in deep blocks", "", "pub ( ", "proc b end\n"),
    shape("pub pub", "", "pub ", "proc a end\n"),
    shape("pub ( pub (", "", "pub ( ", "proc a end\n"),
    shape("pub ( x ) pub ( x )", "", "pub ( x ) ", "proc a end\n"),
    shape("pub ( x ) in a block", "begin a ", "pub ( x ) ", "end\n"),
    shape("pub pub in a constant", "const A = 1 ", "pub ", "\n"),
    shape("newlines behind `pub`", "pub", "\n", "x"),
    shape("one quote", "begin push.\"", "q", "\" end\n"),
    shape("spaces", "", " ", ""),
    shape("newlines", "", "\n", ""),
    shape("comments", "", "# comment\n", ""),
    shape("doc comments", "", "#! doc\n", "begin end\n"),
    shape("error characters", "", "%", ""),
    shape("@$", "", "@$", ""),
    shape("attributes", "", "@a(b) ", "proc a end\n"),
    shape("identifiers", "", "word_12 ", ""),
    shape("instructions", "begin\n", "word_12 ", "\nend\n"),
    shape("one instruction", "begin push", ".1", "\nend\n"),
    shape("loops", "begin\n", "while.true add end\n", "end\n"),
    shape("procedures", "", "proc a add end\n", ""),
    shape("open parentheses", "const A = ", "(", ""),
    shape("closing parentheses", "begin a", ")", " end\n"),
    shape("unbalanced delimiters", "begin a", "(]}[)", " end\n"),
    shape("a long path", "namespace a", "::a", "\n"),
    shape("words of a constant", "const A = 1", " a", "\nproc a end\n"),
];

const fn shape(
    name: &'static str,
    head: &'static str,
    piece: &'static str,
    tail: &'static str,
) -> Shape {
    Shape { name, deep: 0, head, piece, tail }
}

const fn deep(
    name: &'static str,
    head: &'static str,
    piece: &'static str,
    tail: &'static str,
) -> Shape {
    Shape { name, deep: UNIT, head, piece, tail }
}

impl Shape {
    pub fn times(&self, count: usize) -> Vec<u8> {
        let opened = match self.deep {
            0 => String::new(),
            deep => format!("begin {}", "if ".repeat(deep)),
        };
        [&opened, self.head, &self.piece.repeat(count), self.tail].concat().into_bytes()
    }

    /// The longest of at most this many bytes.
    pub fn sized(&self, size: usize) -> Vec<u8> {
        let around = self.times(0).len();
        self.times(size.saturating_sub(around) / self.piece.len())
    }
}

/// A script of at most this size, cut at the end of a line.
pub fn script(size: usize) -> Vec<u8> {
    let mut bytes = script::script(&mut Random::new(7), size).into_bytes();
    while bytes.len() > size || bytes.last() != Some(&b'\n') {
        bytes.pop();
    }
    bytes
}

/// Each shape with few pieces and with up to 2,000.
pub fn all() -> impl Iterator<Item = Vec<u8>> {
    let counts = (0..=12).chain([100, 500, 2_000]);
    counts.flat_map(|count| SHAPES.iter().map(move |shape| shape.times(count)))
}
