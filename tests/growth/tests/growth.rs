//! The benchmark over a function with a known pace: linear growth passes, quadratic growth is
//! found, what runs outside the function is not counted, and names are told by their lengths.

use std::process::{Command, Output};

fn growth(only: &str, pace: &str, function: &str) -> (bool, String) {
    let Output { status, stdout, stderr } = Command::new(env!("CARGO_BIN_EXE_growth"))
        .args(["--size", "2048", "--only", only, "--markdown"])
        .args(["--program", env!("CARGO_BIN_EXE_pace"), function])
        .env("PACE", pace)
        .output()
        .unwrap();
    (status.success(), String::from_utf8([stdout, stderr].concat()).unwrap())
}

const NEWLINES: &str = "newlines behind";

const NAMES: &str = "names ";

/// Offsets of lines that are asked in rising order.
const RISING: &str = ", rising";

/// Sources that are nested deeper than a limit.
const LIMITED: &str = "`if`s beyond limit";

/// Nothing can be counted without valgrind.
fn can_count() -> bool {
    Command::new("valgrind").arg("--version").output().is_ok()
}

#[test]
fn growth_is_told() {
    if !can_count() {
        println!("no valgrind: nothing is tested");
        return;
    }
    for pace in ["linear", "outside"] {
        let (success, text) = growth(NEWLINES, pace, "paced");
        assert!(success && text.contains("growth: 1 families, 0 above 2.1"), "{pace}: {text}");
    }

    let (success, text) = growth(NEWLINES, "quadratic", "paced");
    let found = |line: &str| line.starts_with("| newlines behind") && line.ends_with(" above |");
    assert!(!success && text.lines().any(found), "{text}");

    let (success, text) = growth(NEWLINES, "refuse", "paced");
    assert!(!success && text.contains("newlines behind `pub`: not 0, but answered `1 "), "{text}");

    let (success, text) = growth(NAMES, "linear", "paced");
    assert!(success && text.contains("growth: 2 families, 0 above 2.1"), "{text}");

    let (success, text) = growth(NAMES, "letters", "paced");
    assert!(!success && text.contains("names of no word's length take"), "{text}");

    let (success, text) = growth(RISING, "linear", "paced");
    assert!(success && text.contains("| offsets |"), "{text}");
    assert!(text.contains("growth: 4 families, 0 above 2.1"), "{text}");

    let (success, text) = growth(LIMITED, "linear", "paced");
    assert!(success && text.contains("growth: 2 families, 0 above 2.1"), "{text}");

    let (success, text) = growth(NEWLINES, "linear", "unpaced");
    assert!(!success && text.contains("nothing was counted in unpaced"), "{text}");
}
