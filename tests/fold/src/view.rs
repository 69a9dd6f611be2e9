//! One run of `fold` on one script, and whether all is right with what it shows.

use std::{
    io::Write,
    path::PathBuf,
    process::{Command, Stdio},
};

use corpus::random::Random;
use reference::{MAX_CONTROL_FLOW_NESTING, Reading, limits::ALLOWED};

use crate::{
    folded::{self, Seen},
    open, reports,
    shown::{Page, Row, rows},
    tree::Tree,
};

const MISSING: &str = "no_such_name";

const CUT_OFF: &str = "the file ends in the middle of a character, as when a transfer breaks off";

/// How `fold` is called.
#[derive(Debug, Clone)]
pub struct View {
    pub program: PathBuf,
    pub limit: u64,
    pub page: Page,
    pub open: bool,
    pub names: Vec<String>,
}

struct Outcome {
    status: Option<i32>,
    output: String,
    errors: String,
}

impl View {
    /// A view chosen for a script at a limit: of some width, now and then in ASCII or with a name.
    pub fn chosen(program: PathBuf, limit: u64, source: &[u8], random: &mut Random) -> Self {
        let width = random.pick(&[80, 80, 80, 40, 41, 57, 100, 1000]);
        let page = Page { width, ascii: random.one_in(6) };
        let open = random.one_in(3);
        let mut names = Vec::new();
        if !open && random.one_in(5) {
            names.extend(name(limit, source, random));
        }
        Self { program, limit, page, open, names }
    }

    fn run(&self, source: &[u8]) -> Outcome {
        let mut command = Command::new(&self.program);
        command.env_remove("COLUMNS").arg("-").args(&self.names);
        if self.page.width != 80 {
            command.arg(format!("--width={}", self.page.width));
        }
        if self.limit != MAX_CONTROL_FLOW_NESTING {
            command.arg(format!("--limit={}", self.limit));
        }
        if self.page.ascii {
            command.arg("--ascii");
        }
        if self.open {
            command.arg("--open");
        }
        command.stdin(Stdio::piped()).stdout(Stdio::piped()).stderr(Stdio::piped());
        let mut child = command.spawn().expect("fold starts");
        // Of a source that is too long fold leaves the rest.
        let _ = child.stdin.take().expect("a pipe").write_all(source);
        let output = child.wait_with_output().expect("fold ends");
        Outcome {
            status: output.status.code(),
            output: String::from_utf8_lossy(&output.stdout).into_owned(),
            errors: String::from_utf8_lossy(&output.stderr).into_owned(),
        }
    }

    /// Shows a script and checks what is shown.
    pub fn check(&self, source: &[u8]) -> Result<Seen, String> {
        let outcome = self.run(source);
        if !ALLOWED.contains(&self.limit) {
            return check_bad_limit(&outcome);
        }
        let reading = reference::reading(self.limit, source);
        if let (true, Reading::Parsed(_)) =
            (self.names.iter().any(|name| name == MISSING), &reading)
        {
            return self.check_missing(&outcome);
        }
        if !outcome.errors.is_empty() {
            return Err(format!("on standard error: {}", outcome.errors));
        }
        let rows = rows(&outcome.output, &self.page)?;
        let (status, seen) = match &reading {
            Reading::Parsed(parsed) => {
                let tree = Tree::new(source, parsed, self.limit);
                (i32::from(!tree.diagnostics.is_empty()), self.check_rows(&tree, &rows)?)
            },
            Reading::Refused(numbers) => {
                self.check_refusal(source, numbers, &rows)?;
                (2, Seen::default())
            },
            Reading::Unwanted(_, offset) => {
                self.check_refusal(source, &[4, *offset as u64, 0, 0], &rows)?;
                (2, Seen::default())
            },
        };
        if outcome.status != Some(status) {
            return Err(format!("exit status {:?}, not {status}", outcome.status));
        }
        Ok(seen)
    }

    fn check_missing(&self, outcome: &Outcome) -> Result<Seen, String> {
        let expected = format!("fold: {MISSING}: no procedure of this name is in the script\n");
        let said = outcome.errors.replace("\n    : ", "");
        let fits = outcome.errors.lines().all(|line| line.len() <= self.page.width);
        let right =
            outcome.status == Some(3) && outcome.output.is_empty() && said == expected && fits;
        if right { Ok(Seen::default()) } else { Err("a missing name is not told".to_string()) }
    }

    fn check_rows(&self, tree: &Tree, rows: &[Row]) -> Result<Seen, String> {
        let left = if self.open { "   line dep" } else { "   line    item" };
        let [head, rows @ ..] = rows else { return Err("no rows".to_string()) };
        check_head(head, left)?;
        let blank = |row: &Row| row.own && row.left.trim().is_empty();
        let end = rows.iter().position(blank).ok_or("no summary")?;
        let (view, behind) = rows.split_at(end);
        let lines = tree.line_count();
        let diagnostics = tree.diagnostics.len();
        let (seen, folded) = if self.open {
            (Seen { rows: open::check(tree, view)?, ..Seen::default() }, ";".to_string())
        } else {
            let seen = folded::check(tree, view, &self.names)?;
            let folds = if seen.folds == 1 { "fold" } else { "folds" };
            let text = format!(", folded: {} in {} {folds};", seen.folded_lines, seen.folds);
            (seen, text)
        };
        let summary = format!("lines: {lines}{folded} diagnostics: {diagnostics}");
        if behind[0].words() != summary {
            return Err(format!("{:?}, not {summary:?}", behind[0]));
        }
        reports::check(tree.source, &tree.diagnostics, &behind[1..], &self.page)?;
        Ok(seen)
    }

    fn check_refusal(&self, source: &[u8], numbers: &[u64; 4], rows: &[Row]) -> Result<(), String> {
        let [head, rows @ ..] = rows else { return Err("no rows".to_string()) };
        check_head(head, "   line    item")?;
        let [status, offset, second] = [0, 1, 2].map(|at| numbers[at] as usize);
        let (words, length) = match status {
            2 if second == 0 => (CUT_OFF, source.len() - offset),
            2 if second == 1 => ("a byte that cannot stand here: not UTF-8", 1),
            2 => ("bytes that cannot stand here: not UTF-8", second),
            4 if source[offset] == b'u' => ("`use` and `extern` are not allowed", 3),
            4 => ("`use` and `extern` are not allowed", 6),
            _ => {
                let long =
                    matches!(rows, [row] if row.words() == "it is longer than 1048576 bytes");
                return if long { Ok(()) } else { Err(format!("refused with {status}: {rows:?}")) };
            },
        };
        let rest = reports::report(
            source,
            (offset, offset + length),
            ("refused", words),
            rows,
            &self.page,
        )?;
        if rest.is_empty() { Ok(()) } else { Err(format!("behind a refusal: {rest:?}")) }
    }
}

fn check_bad_limit(outcome: &Outcome) -> Result<Seen, String> {
    let said = outcome.errors == "fold: --limit: needs a depth from 1 to 256\n";
    let right = outcome.status == Some(3) && outcome.output.is_empty() && said;
    if right { Ok(Seen::default()) } else { Err("a bad limit is not told".to_string()) }
}

fn check_head(head: &Row, left: &str) -> Result<(), String> {
    let right = !head.own && head.left.trim_end() == left && head.words() == "standard input";
    if right { Ok(()) } else { Err(format!("the first row is {head:?}")) }
}

/// A name that is in the script, or one that is not.
fn name(limit: u64, source: &[u8], random: &mut Random) -> Option<String> {
    let Reading::Parsed(parsed) = reference::reading(limit, source) else { return None };
    let tree = Tree::new(source, &parsed, limit);
    let mut names: Vec<String> = vec![MISSING.to_string()];
    let of = |name: &[u8]| String::from_utf8(name.to_vec()).ok();
    names.extend(tree.items.iter().filter_map(|item| of(tree.name(item)?)).take(20));
    if tree.items.iter().any(|item| tree.item_label(item) == "begin") {
        names.push("begin".to_string());
    }
    Some(names.swap_remove(random.below(names.len())))
}
