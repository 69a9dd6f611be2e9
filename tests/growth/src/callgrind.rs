//! One run under callgrind: how many instructions a function took, with all that it called.

use std::{
    io::{self, Write},
    path::PathBuf,
    process::{Command, Output, Stdio},
};

/// A program that reads a source from standard input, calls a function on it once, and prints the
/// answer.
#[derive(Clone)]
pub struct Counted {
    pub program: PathBuf,
    /// Only what runs inside it is counted.
    pub function: String,
}

pub struct Run {
    pub instructions: u64,
    /// The line that the program printed.
    pub answer: String,
}

pub fn is_there() -> bool {
    let tried = Command::new("valgrind").arg("--version").stdout(Stdio::null()).status();
    tried.is_ok_and(|status| status.success())
}

impl Counted {
    /// The run of the program with these words behind its name.
    pub fn run(&self, words: &[&str], source: &[u8]) -> Result<Run, String> {
        let name = self.program.display();
        let Output { status, stdout, stderr } =
            self.output(words, source).map_err(|error| format!("{name}: {error}"))?;
        let said = String::from_utf8_lossy(&stderr);
        if !status.success() {
            return Err(format!("{name} ended with {status}\n{said}"));
        }
        let instructions = collected(&said)
            .filter(|instructions| *instructions > 0)
            .ok_or_else(|| format!("{name}: nothing was counted in {}\n{said}", self.function))?;
        Ok(Run { instructions, answer: String::from_utf8_lossy(&stdout).trim_end().to_string() })
    }

    /// Counting starts where the function is entered, and stops where it returns.
    fn output(&self, words: &[&str], source: &[u8]) -> io::Result<Output> {
        let mut child = Command::new("valgrind")
            .args(["--tool=callgrind", "--callgrind-out-file=/dev/null", "--collect-atstart=no"])
            .arg(format!("--toggle-collect={}", self.function))
            .arg(&self.program)
            .args(words)
            .stdin(Stdio::piped())
            .stdout(Stdio::piped())
            .stderr(Stdio::piped())
            .spawn()?;
        // A program that ends without reading is told by how it ended.
        let _ = child.stdin.take().expect("standard input is a pipe").write_all(source);
        child.wait_with_output()
    }
}

/// The count in callgrind's line `Collected : N`.
fn collected(said: &str) -> Option<u64> {
    let (_, count) = said.lines().find_map(|line| line.split_once("Collected : "))?;
    count.trim().parse().ok()
}
