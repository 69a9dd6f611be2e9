//! What `parse_text` makes of a text, in the numbers of document 01.

use miden_utils_diagnostics::miette::MietteDiagnostic;
use rowan::Event;

use crate::{lexer, limits, messages, syntax::SyntaxKind};

/// The event for a token of kind Error; kind 1 itself would open an Error node.
const ERROR_TOKEN: u16 = 60;

#[derive(Debug, Clone, Copy, PartialEq, Eq)]
pub struct Token {
    pub kind: u16,
    pub end: u32,
}

#[derive(Debug, Clone, PartialEq, Eq)]
pub struct Diagnostic {
    pub message: u16,
    pub start: u32,
    pub end: u32,
    pub text: String,
}

#[derive(Debug, Clone, PartialEq, Eq)]
pub struct Parsed {
    pub tokens: Vec<Token>,
    pub events: Vec<u16>,
    pub diagnostics: Vec<Diagnostic>,
}

impl Parsed {
    /// Whether forms are nested deeper than the limit allows.
    pub fn is_too_deep(&self) -> bool {
        self.diagnostics.iter().any(|found| found.message == messages::DEPTH)
    }
}

/// The lexer's tokens alone.
pub fn tokens(text: &str) -> Vec<Token> {
    lexer::tokenize_text(text)
        .iter()
        .map(|token| Token {
            kind: token.kind() as u16,
            end: token.span().into_slice_index().end as u32,
        })
        .collect()
}

/// Where the first identifier `use` or `extern` starts.
pub fn unwanted(text: &str) -> Option<usize> {
    lexer::tokenize_text(text)
        .iter()
        .find(|token| token.kind() == SyntaxKind::Ident && matches!(token.text(), "use" | "extern"))
        .map(|token| token.span().into_slice_index().start)
}

/// Tokens, events and diagnostics of a text without `use` and `extern`, at a limit on nesting.
pub fn parsed(limit: u64, text: &str) -> Parsed {
    let (green, diagnostics) = limits::parse(limit, text);
    assert_eq!(green.text(), text, "the leaves are not the source");
    let events = green.events().iter().map(event_number).collect();
    let diagnostics = diagnostics.iter().map(|found| numbered(limit, found)).collect();
    Parsed { tokens: tokens(text), events, diagnostics }
}

/// The most nodes that are open together.
pub fn most_open(events: &[u16]) -> usize {
    let (mut open, mut most) = (0, 0);
    for event in events {
        match event {
            0 => open -= 1,
            1..=26 => open += 1,
            _ => {},
        }
        most = most.max(open);
    }
    most
}

fn event_number(event: &Event) -> u16 {
    match event {
        Event::Start(kind) => kind.0,
        Event::Token(kind, _) if kind.0 == SyntaxKind::Error as u16 => ERROR_TOKEN,
        Event::Token(kind, _) => kind.0,
        Event::Finish => 0,
    }
}

fn numbered(limit: u64, diagnostic: &MietteDiagnostic) -> Diagnostic {
    let labels = diagnostic.labels.as_deref().unwrap_or_default();
    let [label] = labels else { panic!("a diagnostic with {} labels", labels.len()) };
    let text = label.label.clone();
    let message = messages::number_of(limit, &text)
        .unwrap_or_else(|| panic!("docs/MESSAGES.md has no number for: {text}"));
    Diagnostic { message, start: label.range.start, end: label.range.end, text }
}
