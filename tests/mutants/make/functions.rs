//! The functions of a formatted Rust file.

use std::ops::Range;

pub struct Function {
    pub name: String,
    /// From `fn` or `pub fn` to the closing brace, as lines of the file.
    pub lines: Range<usize>,
    /// From `fn` up to the opening brace, on one line.
    pub header: String,
    /// What is between the braces.
    pub body: String,
    /// The line of the body's start, counted from 0.
    pub body_line: usize,
    /// The type whose trait this function belongs to, if any.
    pub of_trait: bool,
    /// The parameters' names; the first may be `self`.
    pub parameters: Vec<String>,
}

/// All functions of a file, in its order.
pub fn functions(text: &str) -> Vec<Function> {
    let lines: Vec<&str> = text.lines().collect();
    let mut found = Vec::new();
    let mut of_trait = false;
    let mut at = 0;
    while at < lines.len() {
        if lines[at].starts_with("impl") {
            of_trait = lines[at].contains(" for ");
        }
        let start = lines[at].trim_start();
        if start.starts_with("fn ") || start.starts_with("pub fn ") {
            let function = function(&lines, at, of_trait);
            at = function.lines.end;
            found.push(function);
        } else {
            at += 1;
        }
    }
    found
}

fn function(lines: &[&str], start: usize, of_trait: bool) -> Function {
    let indent = lines[start].len() - lines[start].trim_start().len();
    let opening = (start..).find(|&line| lines[line].ends_with('{')).expect("an opening brace");
    let closing = " ".repeat(indent) + "}";
    let end = (opening..).find(|&line| lines[line] == closing).expect("a closing brace");
    let header: Vec<&str> = lines[start..=opening].iter().map(|line| line.trim()).collect();
    let header = header.join(" ").trim_end_matches('{').trim().to_string();
    let from = header.find("fn ").expect("a function") + 3;
    let name = header[from..].split(['(', '<']).next().unwrap().to_string();
    Function {
        parameters: parameters(&header[from + name.len()..]),
        name,
        lines: start..end + 1,
        header,
        body: lines[opening + 1..end].join("\n"),
        body_line: opening + 1,
        of_trait,
    }
}

/// The names before the colons in `(a: A, b: B) -> C`.
fn parameters(rest: &str) -> Vec<String> {
    let open = rest.find('(').expect("parameters");
    let mut names = Vec::new();
    let (mut depth, mut start) = (0, open + 1);
    for (at, character) in rest.char_indices().skip(open) {
        match character {
            '(' | '<' | '[' => depth += 1,
            '>' if rest[..at].ends_with('-') => {},
            ')' | '>' | ']' => depth -= 1,
            _ => {},
        }
        if depth == 0 || depth == 1 && character == ',' {
            names.push(name(&rest[start..at]));
            start = at + 1;
        }
        if depth == 0 {
            break;
        }
    }
    names.retain(|name| !name.is_empty());
    names
}

fn name(parameter: &str) -> String {
    let name = parameter.split(':').next().unwrap().trim();
    name.trim_start_matches('&').trim_start_matches("mut ").to_string()
}
