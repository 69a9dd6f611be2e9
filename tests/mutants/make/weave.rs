//! Every mutant is a copy of its function; the function itself only says which copy runs.

use super::{
    changes::{self, Change},
    functions::{Function, functions},
    kept::kept,
};

/// All mutants so far, each as an item of the table.
#[derive(Default)]
pub struct Woven {
    rows: Vec<String>,
}

/// What is shown of a text.
const LONGEST: usize = 60;

impl Woven {
    /// The text with its mutants. Every function counts a step, so that a mutant can't run for ever.
    pub fn file(&mut self, file: &str, text: &str) -> String {
        let lines: Vec<&str> = text.lines().collect();
        let (mut out, mut aside) = (String::new(), String::new());
        let mut next = 0;
        for function in functions(text) {
            out += &joined(&lines[next..function.lines.start]);
            next = function.lines.end;
            let changes = if kept(&function.name) { changes::all(&function) } else { Vec::new() };
            let first = self.rows.len() + 1;
            self.rows.extend(changes.iter().map(|change| row(file, &function, change)));
            let copies = copies(&function, first, &changes);
            out += &switch(&function, first, changes.len());
            if function.of_trait { aside += &copies } else { out += &copies }
        }
        out += &joined(&lines[next..]);
        if !aside.is_empty() {
            // The only trait with mutants is the lexer's `Iterator`.
            let aside = aside.replace("Self::Item", "Token<'input>");
            out += &format!("impl<'input> Lexer<'input> {{\n{aside}}}\n");
        }
        out
    }

    pub fn table(&self) -> String {
        let (count, rows) = (self.rows.len(), self.rows.concat());
        format!("pub static MUTANTS: [Mutant; {count}] = [\n{rows}];\n")
    }
}

fn joined(lines: &[&str]) -> String {
    lines.iter().map(|line| format!("{line}\n")).collect()
}

/// The function, running the copy that is asked for. Where there are no mutants it stays as it is.
fn switch(function: &Function, first: usize, count: usize) -> String {
    let Function { header, body, .. } = function;
    if count == 0 {
        return format!("{header} {{\ncrate::step();\n{body}\n}}\n");
    }
    let arms =
        (first..first + count).map(|number| format!("{number} => {},\n", call(function, number)));
    let arms: String = arms.collect();
    let itself = call(function, 0);
    format!("{header} {{\ncrate::step();\nmatch crate::mutant() {{\n{arms}_ => {itself},\n}}\n}}\n")
}

/// The call of a copy; number 0 is the function as it was.
fn call(function: &Function, number: usize) -> String {
    let Function { name, parameters, .. } = function;
    let (place, arguments) = match parameters.split_first() {
        Some((first, rest)) if first == "self" => ("self.", rest),
        _ if function.header.contains("Self") => ("Self::", parameters.as_slice()),
        _ => ("", parameters.as_slice()),
    };
    format!("{place}{name}_{number}({})", arguments.join(", "))
}

fn copies(function: &Function, first: usize, changes: &[Change]) -> String {
    if changes.is_empty() {
        return String::new();
    }
    let itself = copy(function, 0, &function.body);
    let changed = changes.iter().enumerate();
    let changed =
        changed.map(|(at, change)| copy(function, first + at, &change.of(&function.body)));
    itself + &changed.collect::<String>()
}

fn copy(function: &Function, number: usize, body: &str) -> String {
    let Function { name, header, .. } = function;
    let header = header.replacen(&format!("fn {name}"), &format!("fn {name}_{number}"), 1);
    format!("{header} {{\n{body}\n}}\n")
}

/// Where a mutant is, what stands there and what it puts there.
fn row(file: &str, function: &Function, change: &Change) -> String {
    let Change { place, text } = change;
    let before = &function.body[..place.start];
    let line = function.body_line + before.matches('\n').count() + 1;
    let column = before.rsplit('\n').next().unwrap_or_default().chars().count() + 1;
    let (from, to) = (shown(&function.body[place.clone()]), shown(text));
    format!("Mutant {{ place: \"{file}.rs:{line}:{column}\", from: {from:?}, to: {to:?} }},\n")
}

/// On one line, the middle of a long text left out.
fn shown(text: &str) -> String {
    let line: Vec<char> = text.split_whitespace().collect::<Vec<_>>().join(" ").chars().collect();
    if line.len() <= LONGEST {
        return line.into_iter().collect();
    }
    let (start, end) = (&line[..LONGEST / 2], &line[line.len() - LONGEST / 2..]);
    format!("{} … {}", String::from_iter(start), String::from_iter(end))
}
