//! Weaves the mutants into the upstream sources, which the reference's build has checked.

mod make;

use std::{env, fs, path::PathBuf};

const DEFAULT_SOURCES: &str = "../shared/docs/src/crates/assembly-syntax-cst/src";

fn main() {
    println!("cargo::rerun-if-changed=make");
    println!("cargo::rerun-if-env-changed=MASM_CST_SRC");
    let package = PathBuf::from(env::var("CARGO_MANIFEST_DIR").unwrap());
    let sources = env::var("MASM_CST_SRC").unwrap_or_else(|_| DEFAULT_SOURCES.to_string());
    let folder = package.join("../..").join(sources);
    let out = PathBuf::from(env::var("OUT_DIR").unwrap());
    let mut woven = make::weave::Woven::default();
    for name in ["syntax", "lexer", "parser"] {
        let path = folder.join(format!("{name}.rs"));
        println!("cargo::rerun-if-changed={}", path.display());
        let text = fs::read_to_string(path).expect("the upstream sources are there");
        let patched = woven.file(name, &text);
        fs::write(out.join(format!("{name}.rs")), patched).unwrap();
    }
    fs::write(out.join("table.rs"), woven.table()).unwrap();
}
