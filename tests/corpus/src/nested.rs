//! Control forms left open in front of a boundary: each open block meets it in turn.

use std::collections::BTreeSet;

use crate::edges::FORMS;

const OWNERS: [&str; 2] = ["begin ", "proc a\n"];

/// What stands behind the open forms.
const BEHIND: [&str; 18] = [
    "",
    "else",
    "else add end end",
    "end else",
    "proc b end",
    "pub proc b end\n",
    "pub ( x",
    "const X = 1",
    "@a proc b end",
    "begin end",
    "#! d",
    "#! d\nproc b end",
    "#! d\nelse end",
    "#! d\n#! e\n\n# c\n\n#! f\npub ( package ) proc b end",
    "#! d\nend\n#! e\nbegin end",
    "#! d\nif end",
    "while end while end",
    "do while .a end",
];

/// Few forms, and as many as a limit allows, one less and more.
pub fn all(limit: usize) -> impl Iterator<Item = Vec<u8>> {
    let depths: BTreeSet<usize> = (0..=3).chain(limit - 1..=limit + 2).collect();
    depths.into_iter().flat_map(|depth| {
        FORMS.iter().flat_map(move |(open, middle, _)| {
            let opened = open.repeat(depth);
            // With and without the last form's second block.
            [opened.clone(), format!("{opened}add {middle}")].into_iter().flat_map(behind)
        })
    })
}

fn behind(opened: String) -> impl Iterator<Item = Vec<u8>> {
    OWNERS.iter().flat_map(move |owner| {
        let opened = opened.clone();
        BEHIND.iter().map(move |behind| format!("{owner}{opened}{behind}").into_bytes())
    })
}
