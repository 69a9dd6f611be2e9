//! Cases of every part are stored beside its examples, and the imitation replays them.

use std::{
    env,
    fs::{self, File},
    path::Path,
    process::{Command, id},
};

const DIFFER: &str = env!("CARGO_BIN_EXE_differ");
const IMITATION: &str = env!("CARGO_BIN_EXE_imitation");

/// Stores so many cases of each part; how many it says that there are.
fn stores(folder: &Path, counts: [usize; 4]) -> Vec<usize> {
    let stored = Command::new(DIFFER)
        .args(["--store", folder.to_str().unwrap()])
        .args(counts.map(|count| count.to_string()))
        .output()
        .unwrap();
    let printed = String::from_utf8(stored.stdout).unwrap();
    let parts = ["lexer: ", "readings: ", "trees: ", "lines: "];
    let numbers = parts.iter().zip(printed.lines()).map(|(part, line)| {
        let number = line.strip_prefix(part).unwrap().strip_suffix(" cases stored");
        number.unwrap().parse().unwrap()
    });
    numbers.collect()
}

#[test]
fn stored_cases_replay() {
    let folder = env::temp_dir().join(format!("differ-store-{}", id()));
    let counts = [200, 600, 100, 200];
    let examples = stores(&folder, [0; 4]);
    assert!(examples.len() == 4 && examples.iter().all(|count| *count > 0));
    let expected: Vec<usize> =
        examples.iter().zip(counts).map(|(some, more)| some + more).collect();
    assert_eq!(stores(&folder, counts), expected);

    let frames = File::open(folder.join("stdin")).unwrap();
    let answers = Command::new(IMITATION).stdin(frames).output().unwrap().stdout;
    assert!(answers == fs::read(folder.join("stdout")).unwrap(), "the answers are other ones");
    fs::remove_dir_all(&folder).unwrap();
}

#[test]
fn a_count_for_each_part_is_asked() {
    let folder = env::temp_dir().join(format!("differ-no-store-{}", id()));
    let status = Command::new(DIFFER).args(["--store", folder.to_str().unwrap(), "5"]).output();
    assert_eq!(status.unwrap().status.code(), Some(2));
    assert!(!folder.exists());
}
