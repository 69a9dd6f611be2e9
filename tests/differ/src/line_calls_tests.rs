//! A call that is right, and calls with one fault, each of which is found. No archive is needed.

use corpus::{
    Case, Family, Size, cases,
    offsets::{Order, Question},
    pairs_of_lines,
};
use exported::{imitation::lines_into, zones::LinesCall};
use reference::MAX_SOURCE;

use super::{check_joins, compare, run};

/// A walk from the start for each offset; `end` says how many bytes the line end at the start of
/// the rest has.
fn walked(
    source: &[u8],
    offsets: &[u32],
    [lines, columns]: [&mut [u32]; 2],
    end: fn(&[u8]) -> usize,
) -> u64 {
    let written = offsets.len().min(lines.len()).min(columns.len());
    for (at, offset) in offsets.iter().enumerate().take(written) {
        let offset = (*offset as usize).min(source.len());
        let (mut line, mut start, mut next) = (1, 0, 0);
        while next < offset {
            let length = end(&source[next..]);
            next += length.max(1);
            if length > 0 && next <= offset {
                (line, start) = (line + 1, next);
            }
        }
        (lines[at], columns[at]) = (line, (1 + offset - start) as u32);
    }
    written as u64
}

/// As M-102 has them.
fn ends(rest: &[u8]) -> usize {
    match rest {
        [b'\r', b'\n', ..] => 2,
        [b'\r' | b'\n', ..] => 1,
        _ => 0,
    }
}

/// Document 01's former rule.
fn lf_alone(rest: &[u8]) -> usize {
    usize::from(rest.starts_with(b"\n"))
}

fn lone_cr_is_none(rest: &[u8]) -> usize {
    if rest.starts_with(b"\r\n") { 2 } else { lf_alone(rest) }
}

fn cr_lf_is_two(rest: &[u8]) -> usize {
    usize::from(matches!(rest, [b'\r' | b'\n', ..]))
}

fn lf_cr_is_one(rest: &[u8]) -> usize {
    if rest.starts_with(b"\n\r") { 2 } else { ends(rest) }
}

/// A CR at the end of the source ends no line.
fn last_cr_is_none(rest: &[u8]) -> usize {
    if rest == b"\r" { 0 } else { ends(rest) }
}

/// The LF of a CR LF stands on the next line already: its line end is completed behind the CR.
fn completed_early(source: &[u8], offsets: &[u32], lines: &mut [u32], columns: &mut [u32]) -> u64 {
    let written = lines_into(source, offsets, lines, columns);
    for (at, offset) in offsets.iter().enumerate().take(written as usize) {
        let behind = *offset as usize;
        if behind < source.len() && source[..behind].ends_with(b"\r") && source[behind] == b'\n' {
            (lines[at], columns[at]) = (lines[at] + 1, 1);
        }
    }
    written
}

fn columns_from_0(source: &[u8], offsets: &[u32], lines: &mut [u32], columns: &mut [u32]) -> u64 {
    let written = lines_into(source, offsets, lines, columns);
    columns.iter_mut().take(written as usize).for_each(|column| *column -= 1);
    written
}

/// The column of an offset above the length goes on behind the source.
fn not_clipped(source: &[u8], offsets: &[u32], lines: &mut [u32], columns: &mut [u32]) -> u64 {
    let written = lines_into(source, offsets, lines, columns);
    for (column, offset) in columns.iter_mut().zip(offsets).take(written as usize) {
        *column = column.wrapping_add(offset.saturating_sub(source.len() as u32));
    }
    written
}

fn one_written_too_many(
    source: &[u8],
    offsets: &[u32],
    lines: &mut [u32],
    columns: &mut [u32],
) -> u64 {
    let written = lines_into(source, offsets, lines, columns);
    lines.iter_mut().skip(written as usize).take(1).for_each(|line| *line = 1);
    written
}

/// One more is written than the slices hold.
fn one_behind_the_columns(
    source: &[u8],
    offsets: &[u32],
    lines: &mut [u32],
    columns: &mut [u32],
) -> u64 {
    // SAFETY: a red zone stands behind, in the same allocation.
    unsafe { columns.as_mut_ptr().add(columns.len()).write_volatile(1) }
    lines_into(source, offsets, lines, columns)
}

fn count_too_small(source: &[u8], offsets: &[u32], lines: &mut [u32], columns: &mut [u32]) -> u64 {
    lines_into(source, offsets, lines, columns).saturating_sub(1)
}

/// The room of lines decides alone, as far as the columns go.
fn count_of_lines(source: &[u8], offsets: &[u32], lines: &mut [u32], columns: &mut [u32]) -> u64 {
    lines_into(source, offsets, lines, columns);
    offsets.len().min(lines.len()) as u64
}

/// Does not go back where an offset is below the one before it.
fn never_back(source: &[u8], offsets: &[u32], lines: &mut [u32], columns: &mut [u32]) -> u64 {
    let mut highest = 0;
    let risen = offsets.iter().map(|offset| {
        highest = highest.max(*offset);
        highest
    });
    lines_into(source, &risen.collect::<Vec<_>>(), lines, columns)
}

/// Answers a source that is too long, as if it had one line.
fn no_limit(source: &[u8], offsets: &[u32], lines: &mut [u32], columns: &mut [u32]) -> u64 {
    if source.len() <= MAX_SOURCE {
        return lines_into(source, offsets, lines, columns);
    }
    lines.fill(1);
    0
}

/// Counts one line more in longer sources, so that the lines of a join are not its parts'.
fn wrong_join(source: &[u8], offsets: &[u32], lines: &mut [u32], columns: &mut [u32]) -> u64 {
    let written = lines_into(source, offsets, lines, columns);
    lines.iter_mut().filter(|_| source.len() > 40).for_each(|line| *line += 1);
    written
}

/// The place of the fault that takes LF CR for one line end, which shows where a second file starts
/// with a CR.
const LF_CR: usize = 3;

const FAULTS: [LinesCall; 13] = [
    |source, offsets, lines, columns| walked(source, offsets, [lines, columns], lf_alone),
    |source, offsets, lines, columns| walked(source, offsets, [lines, columns], lone_cr_is_none),
    |source, offsets, lines, columns| walked(source, offsets, [lines, columns], cr_lf_is_two),
    |source, offsets, lines, columns| walked(source, offsets, [lines, columns], lf_cr_is_one),
    |source, offsets, lines, columns| walked(source, offsets, [lines, columns], last_cr_is_none),
    completed_early,
    columns_from_0,
    not_clipped,
    one_written_too_many,
    one_behind_the_columns,
    count_too_small,
    count_of_lines,
    never_back,
];

fn some_cases() -> impl Iterator<Item = Case> {
    let small = |case: &Case| case.source.len() < 200;
    cases(&[Family::Lines, Family::Slices], Size::Ci).filter(small).step_by(7)
}

/// Sources of the largest size and of one byte more.
fn largest() -> impl Iterator<Item = Case> {
    let large = |case: &Case| case.source.len() >= MAX_SOURCE && !case.source.starts_with(b"$");
    cases(&[Family::Edges], Size::Ci).filter(large)
}

#[test]
fn right_answers_pass() {
    assert!(run(lines_into, some_cases().chain(largest())).agrees());
    let walk: LinesCall =
        |source, offsets, lines, columns| walked(source, offsets, [lines, columns], ends);
    assert!(run(walk, some_cases()).agrees());
}

#[test]
fn faults_are_found() {
    for (number, fault) in FAULTS.into_iter().enumerate() {
        assert!(!run(fault, some_cases()).agrees(), "fault {number}");
    }
    assert!(!run(no_limit, largest().filter(|case| case.source.len() > MAX_SOURCE)).agrees());
}

#[test]
fn the_mismatch_is_shown() {
    let case = some_cases().find(|case| case.source.len() == 3).unwrap();
    let question = || Question::of(&case, &[Order::Rising]).remove(0);
    assert!(compare(lines_into, &case, question()).is_none());
    let found = compare(columns_from_0, &case, question()).unwrap();
    assert_eq!(found.question.offsets, [0, 1, 2, 3, 4, 5, u32::MAX]);
    let text = |bytes: Vec<u8>| String::from_utf8(bytes).unwrap();
    assert!(text(found.expected).starts_with("7\n1 ") && text(found.found).contains("\n0 "));
}

#[test]
fn joins_are_held_to_the_theorem() {
    let some = || pairs_of_lines(Size::Ci).step_by(30);
    assert!(check_joins(lines_into, some()));
    for fault in [FAULTS[LF_CR], count_too_small, wrong_join] {
        assert!(!check_joins(fault, some()));
    }
}
