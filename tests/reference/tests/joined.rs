//! Demand 3's premise, and the reference's readings of joined files.

use reference::{LIMITS, MAX_CONTROL_FLOW_NESTING, joined::obeyed};

/// Files that may stand first: a closed procedure or `begin` block and a newline end them.
const FIRST: [&str; 6] = [
    "begin end\n",
    "proc a add end\n",
    "proc a pub ( end\n",
    "proc a end\r\n",
    "const X = )\n#! doc\n@a pub proc b if add end end\n",
    "# c\n) begin $x\nend\n",
];

const SECOND: [&str; 12] = [
    "", "\n", "x )", "( )", "begin", "begin add end\n", "proc", "end", "else", "# c\n#! d\n",
    "pub (", "é",
];

#[test]
fn files_join() {
    for first in FIRST {
        for second in SECOND {
            let found = obeyed(MAX_CONTROL_FLOW_NESTING, first.as_bytes(), second.as_bytes());
            assert_eq!(found, Some(true), "{first:?} and {second:?}");
        }
    }
}

#[test]
fn the_premise_is_checked() {
    let outside = [
        ("", "begin end"),
        ("end\n", ""),
        ("begin end", ""),
        ("begin end\r", ""),
        ("begin end \n", ""),
        ("begin if end\n", ""),
        ("begin if end end end\n", ""),
        ("type a = end\n", "x"),
        ("proc end\n", "end"),
        ("begin end type a = end\n", "x"),
        ("type T = a begin end\n", ""),
        ("begin end\"\\\n", "\""),
        ("begin end\n", ") a"),
        ("begin end\n", " \n# c\n#! d\n )"),
        ("use a\nbegin end\n", ""),
        ("begin end\n", "extern"),
    ];
    for (first, second) in outside {
        let found = obeyed(MAX_CONTROL_FLOW_NESTING, first.as_bytes(), second.as_bytes());
        assert_eq!(found, None, "{first:?} and {second:?}");
    }
    assert_eq!(obeyed(MAX_CONTROL_FLOW_NESTING, b"begin end\n", b"\xFF"), None);
}

/// At one limit for both files and the whole: a second file may be too deep for it, and a first one that is ends in no closed item.
#[test]
fn files_join_at_each_limit() {
    for limit in LIMITS {
        let nested = |depth: u64| {
            let depth = depth as usize;
            format!("begin {}{}end\n", "if ".repeat(depth), "end ".repeat(depth))
        };
        let [deep, deeper] = [nested(limit), nested(limit + 1)];
        let joined =
            |first: &String, second: &String| obeyed(limit, first.as_bytes(), second.as_bytes());
        assert_eq!(joined(&deep, &deep), Some(true));
        assert_eq!(joined(&deep, &deeper), Some(true));
        assert_eq!(joined(&deeper, &deep), None);
    }
}
