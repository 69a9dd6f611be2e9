//! M-104's examples and the bounds of each limit.

use reference::{Answer, LIMITS, MAX_SOURCE, Rooms, answer, parsed, tree::tree};

/// Status and counts, and (message, start, end) of the first diagnostic.
fn read(limit: u64, text: &str) -> ([u64; 4], Option<(u16, u32, u32)>) {
    let Answer { status, counts: [a, b, c], slices } =
        answer(limit, text.as_bytes(), Rooms::ample(text.len()));
    let first = (slices.messages[0], slices.starts[0], slices.ends[0]);
    ([status, a, b, c], (c > 0).then_some(first))
}

#[test]
fn m_104_examples() {
    assert_eq!(read(1, "begin if if x end"), ([0, 9, 21, 1], Some((49, 9, 11))));
    assert_eq!(read(1, "begin if end if end end"), ([0, 11, 25, 0], None));
    assert_eq!(read(1, "begin do while.x").1, Some((49, 9, 14)));
    assert_eq!(read(1, "begin do while x").1, Some((6, 15, 15)));
    let long = vec![b' '; MAX_SOURCE + 1];
    let status = |limit, counts| answer(limit, &long, Rooms { counts, ..Rooms::NONE }).status;
    assert_eq!([status(257, 3), status(1, 3), status(257, 2)], [9, 1, 6]);
}

/// The limits are different, and each is the depth that is still read.
#[test]
fn each_limit_is_in_force() {
    assert_eq!(LIMITS, [1, 2, 3, 64, 255, 256]);
    for limit in LIMITS {
        let text = |depth: u64| format!("begin{}", " if".repeat(depth as usize));
        let messages = |depth| {
            let found = parsed(limit, &text(depth)).diagnostics;
            found.iter().map(|found| found.message).collect::<Vec<_>>()
        };
        assert_eq!([messages(limit), messages(limit + 1), messages(limit + 9)], [[3], [49], [49]]);
    }
}

#[test]
#[should_panic(expected = "no parser is compiled with limit 4")]
fn another_limit_is_not_read() {
    parsed(4, "begin");
}

#[test]
fn tree_names_the_limit_and_refuses_others() {
    let text =
        String::from_utf8(tree(64, format!("begin{}", " do".repeat(65)).as_bytes())).unwrap();
    let last = text.lines().last().unwrap();
    assert_eq!(last, "! 1 199 198 200 control-flow nesting depth exceeded the maximum depth of 64");
    for limit in [0, 257] {
        assert_eq!(tree(limit, b"begin"), b"no 9 0 0 0\n");
    }
    assert_eq!(tree(0, &[b' '; 2_049]), b"long\n");
}
