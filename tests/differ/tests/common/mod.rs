//! Runs of the harness over the imitation.

use std::process::{Command, Output};

pub const DIFFER: &str = env!("CARGO_BIN_EXE_differ");
const IMITATION: &str = env!("CARGO_BIN_EXE_imitation");

/// A part that the imitation answers.
pub struct Imitated {
    pub part: &'static str,
}

impl Imitated {
    /// Runs with these options; whether it agrees, and what it prints.
    pub fn run(&self, fault: &str, options: &str) -> (bool, String) {
        let Output { status, stdout, .. } = Command::new(DIFFER)
            .args([self.part, "--program", IMITATION])
            .args(options.split_whitespace())
            .env("IMITATION", fault)
            .output()
            .unwrap();
        (status.success(), String::from_utf8(stdout).unwrap())
    }

    #[track_caller]
    pub fn passes(&self, fault: &str, options: &str) {
        let (success, text) = self.run(fault, options);
        assert!(success, "{text}");
        assert!(last_line(&text).starts_with(&format!("{}: ", self.part)));
        assert!(last_line(&text).ends_with(" cases, 0 mismatches"));
    }

    #[track_caller]
    pub fn caught(&self, fault: &str, options: &str, sign: &str) {
        let (success, text) = self.run(fault, options);
        assert!(!success, "fault {fault} was not caught");
        assert!(text.contains(sign), "fault {fault} shows no `{sign}`:\n{text}");
    }
}

fn last_line(text: &str) -> &str {
    text.lines().last().unwrap_or_default()
}
