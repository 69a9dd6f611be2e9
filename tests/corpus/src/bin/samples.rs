//! Prints crates/samples/specs/Samples.antt: sources with the reference's answers.

use corpus::samples::sources;
use reference::{Diagnostic, MAX_CONTROL_FLOW_NESTING, parsed};

const HEADER: &str = "\
-- The compiled reference's answers to NUMBER sources: the test corpus's examples, among them those chosen by mutants of the reference, and
-- short sources at equal distances. Of each the source, the tokens' kinds and ends, the events and the diagnostics. The definitions give
-- the same, by computation.
-- Generated, in tests/, by: cargo run --release --bin samples > ../crates/samples/specs/Samples.antt
-- Assumes nothing.
use Rattle.std.specs.Prelude.{◌≡◌, List, [], ◌∷◌, map, refl}
use Rattle.grammar.specs.Source.{Reading}
use Rattle.grammar.specs.Compute.{◌from◌to◌, read, again}

pub samples : List Reading
samples =
";

const FOOTER: &str = "

pub samples_agree : map again samples ≡ samples
unfolding again samples
samples_agree = refl";

fn main() {
    let entries: Vec<String> = sources().map(|source| entry(&source)).collect();
    let header = HEADER.replace("NUMBER", &entries.len().to_string());
    println!("{header}    {}\n    ∷ []{FOOTER}", entries.join("\n    ∷ "));
}

/// A source and its kinds, ends, events and diagnostics, in antt.
fn entry(source: &[u8]) -> String {
    let text = str::from_utf8(source).expect("the source is accepted");
    let found = parsed(MAX_CONTROL_FLOW_NESTING, text);
    let kinds = list(found.tokens.iter().map(|token| token.kind));
    let ends = list(found.tokens.iter().map(|token| token.end));
    let events = list(&found.events);
    let diagnostics = list(found.diagnostics.iter().map(place));
    format!("read {text:?} {kinds} {ends} {events} {diagnostics}")
}

fn place(diagnostic: &Diagnostic) -> String {
    let Diagnostic { message, start, end, .. } = diagnostic;
    format!("{message} from {start} to {end}")
}

fn list(items: impl IntoIterator<Item = impl ToString>) -> String {
    let items: String = items.into_iter().map(|item| item.to_string() + " ∷ ").collect();
    if items.is_empty() { "[]".into() } else { format!("({items}[])") }
}
