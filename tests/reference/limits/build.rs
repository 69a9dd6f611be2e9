//! Finds the upstream sources, checks that they are the expected ones and names them as modules.
//!
//! `MASM_CST_SRC` is their folder (a relative path starts at the repository root). The limit on control-flow nesting stands in
//! the package's name.

use std::{
    env, fs,
    path::{Path, PathBuf},
    process::{Command, exit},
};

const DEFAULT_SOURCES: &str = "../shared/docs/src/crates/assembly-syntax-cst/src";

fn main() {
    let limits = PathBuf::from(env::var("CARGO_MANIFEST_DIR").unwrap()).join("..");
    let folder = limits.join("../../..").join(setting("MASM_CST_SRC", DEFAULT_SOURCES));
    let sums = limits.join("../sources.sha256");
    println!("cargo::rerun-if-changed={}", sums.display());

    let mut modules = String::new();
    for line in fs::read_to_string(&sums).unwrap().lines() {
        let (expected, name) = line.split_once("  ").expect("lines of the form `SUM  NAME`");
        let path = folder.join(name);
        check_sum(&path, expected);
        let module = name.strip_suffix(".rs").expect("a Rust file");
        modules += &format!("#[path = {:?}]\npub mod {module};\n", path.canonicalize().unwrap());
    }

    let limit = limit(&env::var("CARGO_PKG_NAME").unwrap());
    modules += &format!("pub const MAX_CONTROL_FLOW_NESTING: usize = {limit};\n");
    let out = PathBuf::from(env::var("OUT_DIR").unwrap()).join("sources.rs");
    fs::write(out, modules).unwrap();
}

/// The number behind `limit_`.
fn limit(package: &str) -> usize {
    let number = package.strip_prefix("limit_").and_then(|number| number.parse().ok());
    number.expect("a package named by its limit")
}

fn setting(name: &str, default: &str) -> String {
    println!("cargo::rerun-if-env-changed={name}");
    env::var(name).unwrap_or_else(|_| default.to_string())
}

fn check_sum(path: &Path, expected: &str) {
    println!("cargo::rerun-if-changed={}", path.display());
    if !path.is_file() {
        stop(&format!("{} is missing: set MASM_CST_SRC to the sources' folder", path.display()));
    }
    let output = Command::new("sha256sum").arg("--").arg(path).output().expect("sha256sum runs");
    let printed = String::from_utf8_lossy(&output.stdout);
    let found = printed.split_whitespace().next().unwrap_or_default();
    if found != expected {
        let path = path.display();
        stop(&format!("{path} is not the expected source: SHA-256 {found}, expected {expected}"));
    }
}

fn stop(reason: &str) -> ! {
    println!("cargo::error={reason}");
    exit(1);
}
