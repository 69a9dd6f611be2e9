//! A call that is right, and calls with one fault, each of which is found. No archive is needed.

use corpus::random::Random;
use exported::{
    Lent,
    imitation::{answer_into, lines_into},
    zones::{Call, LinesCall},
};
use fuzz::{
    check::{Calls, Checker, Input, Mismatch},
    generate::case,
};
use reference::MAX_CONTROL_FLOW_NESTING;

/// A fault is found within so many cases.
const CASES: u64 = 2_000;

fn right(limit: u64, source: &[u8], mut lent: Lent) -> u64 {
    answer_into(limit, source, &mut lent)
}

/// The first mismatch among the cases of seed 1.
fn first_mismatch(made: Call) -> Option<String> {
    first_of(Calls { parse: made, lines: lines_into })
}

/// The same where the call for lines has the fault.
fn first_of_lines(made: LinesCall) -> Option<String> {
    first_of(Calls { parse: right, lines: made })
}

fn first_of(made: Calls) -> Option<String> {
    let mut checker = Checker::new(made);
    (0..CASES).find_map(|number| {
        let (input, mut random) = case(1, number);
        checker.check(&input, &mut random).err().map(|Mismatch(text)| text)
    })
}

/// Both calls, of which one may have a fault.
fn checker(parse: Call) -> Checker {
    Checker::new(Calls { parse, lines: lines_into })
}

/// The right answer, then a change to what is lent.
fn spoiled(limit: u64, source: &[u8], mut lent: Lent, change: fn(&mut Lent)) -> u64 {
    let status = answer_into(limit, source, &mut lent);
    change(&mut lent);
    status
}

/// Changes the last entry, which is beyond what is written where the room is ample.
fn last<T: From<u8>>(numbers: &mut [T]) {
    numbers.last_mut().into_iter().for_each(|number| *number = 7.into());
}

fn behind<T: From<u8>>(numbers: &mut [T]) {
    // SAFETY: a red zone stands behind, in the same allocation.
    unsafe { numbers.as_mut_ptr().add(numbers.len()).write_volatile(7.into()) }
}

fn before<T: From<u8>>(numbers: &mut [T]) {
    // SAFETY: a red zone stands before, in the same allocation.
    unsafe { numbers.as_mut_ptr().sub(1).write_volatile(7.into()) }
}

const CHANGED: [Call; 7] = [
    |limit, source, lent| spoiled(limit, source, lent, |lent| last(lent.counts)),
    |limit, source, lent| spoiled(limit, source, lent, |lent| last(lent.token_kinds)),
    |limit, source, lent| spoiled(limit, source, lent, |lent| last(lent.token_ends)),
    |limit, source, lent| spoiled(limit, source, lent, |lent| last(lent.events)),
    |limit, source, lent| spoiled(limit, source, lent, |lent| last(lent.messages)),
    |limit, source, lent| spoiled(limit, source, lent, |lent| last(lent.starts)),
    |limit, source, lent| spoiled(limit, source, lent, |lent| last(lent.ends)),
];

const OUTSIDE: [Call; 14] = [
    |limit, source, lent| spoiled(limit, source, lent, |lent| behind(lent.counts)),
    |limit, source, lent| spoiled(limit, source, lent, |lent| before(lent.counts)),
    |limit, source, lent| spoiled(limit, source, lent, |lent| behind(lent.token_kinds)),
    |limit, source, lent| spoiled(limit, source, lent, |lent| before(lent.token_kinds)),
    |limit, source, lent| spoiled(limit, source, lent, |lent| behind(lent.token_ends)),
    |limit, source, lent| spoiled(limit, source, lent, |lent| before(lent.token_ends)),
    |limit, source, lent| spoiled(limit, source, lent, |lent| behind(lent.events)),
    |limit, source, lent| spoiled(limit, source, lent, |lent| before(lent.events)),
    |limit, source, lent| spoiled(limit, source, lent, |lent| behind(lent.messages)),
    |limit, source, lent| spoiled(limit, source, lent, |lent| before(lent.messages)),
    |limit, source, lent| spoiled(limit, source, lent, |lent| behind(lent.starts)),
    |limit, source, lent| spoiled(limit, source, lent, |lent| before(lent.starts)),
    |limit, source, lent| spoiled(limit, source, lent, |lent| behind(lent.ends)),
    |limit, source, lent| spoiled(limit, source, lent, |lent| before(lent.ends)),
];

/// One diagnostic too many where there are two.
fn wrong_count(limit: u64, source: &[u8], lent: Lent) -> u64 {
    spoiled(limit, source, lent, |lent| {
        lent.counts.iter_mut().skip(2).filter(|count| **count == 2).for_each(|count| *count = 3);
    })
}

/// Says `accepted` of slices that are too short.
fn wrong_status(limit: u64, source: &[u8], lent: Lent) -> u64 {
    let status = right(limit, source, lent);
    if status == 5 { 0 } else { status }
}

/// One event too few in longer sources, so that those of a join are not its parts'.
fn wrong_join(limit: u64, source: &[u8], mut lent: Lent) -> u64 {
    let status = answer_into(limit, source, &mut lent);
    let long = source.len() > 20 && status == 0;
    lent.counts.iter_mut().skip(1).take(1).filter(|_| long).for_each(|count| *count -= 1);
    status
}

#[test]
fn right_answers_pass() {
    assert_eq!(first_mismatch(right), None);
}

#[test]
fn changed_entries_are_found() {
    for fault in CHANGED {
        assert!(first_mismatch(fault).unwrap().contains("is 7, expected"));
    }
}

#[test]
fn writes_outside_are_found() {
    for fault in OUTSIDE {
        assert!(first_mismatch(fault).unwrap().contains("a red zone is written"));
    }
}

#[test]
fn a_wrong_count_is_found() {
    // Two diagnostics: the name and the `=` are missing.
    let source = Input::Source(256, b"const".to_vec());
    let found = checker(wrong_count).check(&source, &mut Random::new(1));
    assert!(found.unwrap_err().0.contains("counts[2] is 3, expected 2"));
}

#[test]
fn a_wrong_status_is_found() {
    assert!(first_mismatch(wrong_status).unwrap().contains("status 0, expected 5"));
}

#[test]
fn a_join_that_is_not_joined_is_found() {
    let pair = Input::Pair(256, b"proc a add end\n".to_vec(), b"begin end\n".to_vec());
    let mut checker = checker(right);
    assert_eq!(checker.check(&pair, &mut Random::new(1)), Ok(()));
    assert_eq!((checker.counters.pairs, checker.counters.inside), (1, 1));
    let found = self::checker(wrong_join).check(&pair, &mut Random::new(1));
    assert!(
        found.unwrap_err().0.starts_with("joined otherwise at limit 256:\nproc a add end\\n\n")
    );
}

/// The limit cut to 16 bits; a greater one taken for the unit's; a smaller one for the next; and another status at
/// limits that the reference has not.
const WRONG_LIMITS: [Call; 4] = [
    |limit, source, lent| right(limit & 0xFFFF, source, lent),
    |limit, source, lent| right(limit.min(MAX_CONTROL_FLOW_NESTING), source, lent),
    |limit, source, lent| right(if limit < 256 { limit + 1 } else { limit }, source, lent),
    |limit, source, lent| {
        let status = right(limit, source, lent);
        if (70..250).contains(&limit) { status + 1 } else { status }
    },
];

#[test]
fn wrong_limits_are_found() {
    for fault in WRONG_LIMITS {
        assert!(first_mismatch(fault).unwrap().contains("\nlimit: "));
    }
}

/// Takes each lone CR for a letter.
fn lone_crs_are_letters(
    source: &[u8],
    offsets: &[u32],
    lines: &mut [u32],
    columns: &mut [u32],
) -> u64 {
    let letter = |at: usize| source[at] == b'\r' && source.get(at + 1) != Some(&b'\n');
    let other = |at| if letter(at) { b'a' } else { source[at] };
    let other: Vec<u8> = (0..source.len()).map(other).collect();
    lines_into(&other, offsets, lines, columns)
}

/// Takes each CR LF for two line ends.
fn cr_lf_is_two(source: &[u8], offsets: &[u32], lines: &mut [u32], columns: &mut [u32]) -> u64 {
    let other: Vec<u8> =
        source.iter().map(|byte| if *byte == b'\r' { b'\n' } else { *byte }).collect();
    lines_into(&other, offsets, lines, columns)
}

fn one_too_few(source: &[u8], offsets: &[u32], lines: &mut [u32], columns: &mut [u32]) -> u64 {
    lines_into(source, offsets, lines, columns).saturating_sub(1)
}

#[test]
fn wrong_lines_are_found() {
    assert_eq!(first_of_lines(lines_into), None);
    for fault in [lone_crs_are_letters, cr_lf_is_two, one_too_few] {
        assert!(first_of_lines(fault).unwrap().starts_with("lines: "));
    }
    let outside: [LinesCall; 2] = [
        |source, offsets, lines, columns| {
            behind(lines);
            lines_into(source, offsets, lines, columns)
        },
        |source, offsets, lines, columns| {
            before(columns);
            lines_into(source, offsets, lines, columns)
        },
    ];
    for fault in outside {
        assert!(first_of_lines(fault).unwrap().contains("a red zone is written"));
    }
}
