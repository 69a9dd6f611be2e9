//! Links the archive of the proved reader where there is one.
//!
//! `MASM_CST_ARCHIVE` is its path (a relative path starts at the repository root).

use std::{env, path::PathBuf};

const DEFAULT_ARCHIVE: &str = "target/staticlib/libmasm.a";

fn main() {
    println!("cargo::rerun-if-env-changed=MASM_CST_ARCHIVE");
    println!("cargo::rustc-check-cfg=cfg(masm_cst)");
    let root = PathBuf::from(env::var("CARGO_MANIFEST_DIR").unwrap()).join("../..");
    let named = env::var("MASM_CST_ARCHIVE").unwrap_or_else(|_| DEFAULT_ARCHIVE.to_string());
    let archive = root.join(named);
    println!("cargo::rerun-if-changed={}", archive.display());
    let Ok(archive) = archive.canonicalize() else { return };
    let (folder, name) = (archive.parent().unwrap(), archive.file_name().unwrap());
    println!("cargo::rustc-cfg=masm_cst");
    println!("cargo::rustc-link-search=native={}", folder.display());
    println!("cargo::rustc-link-lib=static:+verbatim={}", name.display());
}
