//! The list of diagnostics behind the view, and refusals.

use reference::Diagnostic;

use crate::{
    letters::units,
    lines::{self, end_of_line, start_of_line},
    shown::{Page, Row},
};

const MOST_SHOWN: usize = 100;
const LEFT: usize = 21;

type Checked = Result<(), String>;

/// Checks the rows behind the summary.
pub fn check(source: &[u8], diagnostics: &[Diagnostic], rows: &[Row], page: &Page) -> Checked {
    let mut rest = rows;
    for diagnostic in diagnostics.iter().take(MOST_SHOWN) {
        let words = if diagnostic.message == 50 { "unrecognized token" } else { &diagnostic.text };
        let place = (diagnostic.start as usize, diagnostic.end as usize);
        rest = report(source, place, ("diagnostic", words), rest, page)?;
    }
    let more = diagnostics.len().saturating_sub(MOST_SHOWN);
    match rest {
        [] if more == 0 => Ok(()),
        [last] if last.own && last.words() == format!("{more} more diagnostics are not shown") => {
            Ok(())
        },
        _ => Err(format!("behind the diagnostics, with {more} more: {rest:?}")),
    }
}

/// Checks the three rows of a report; the rows behind them.
pub fn report<'a>(
    source: &[u8],
    (start, end): (usize, usize),
    (label, words): (&str, &str),
    rows: &'a [Row],
    page: &Page,
) -> Result<&'a [Row], String> {
    let [said, place, carets, rest @ ..] = rows else {
        return Err(format!("{words} at {start} is missing"));
    };
    let ends = lines::ends(source);
    let line_of = |at: usize| lines::line_of(&ends, at);
    let line = line_of(start);
    let line_start = start_of_line(&ends, start);
    let to_line = if end > start && line_of(end - 1) > line {
        format!(" to line {}", line_of(end - 1))
    } else {
        String::new()
    };
    let expected = format!("column {}{to_line}: {words}", start - line_start + 1);
    if !said.own || said.left != format!("{line:7} !  {label:10}") || said.words() != expected {
        return Err(format!("{said:?}, not {expected:?} in line {line}"));
    }
    check_place(source, (start, end), &ends, (place, carets), page)
        .then_some(rest)
        .ok_or(format!("{place:?} and {carets:?} at {start} to {end}"))
}

/// Whether the place's row is the line, or a part of it around the start, and the carets stand
/// below the text.
fn check_place(
    source: &[u8],
    (start, end): (usize, usize),
    line_ends: &[usize],
    (place, carets): (&Row, &Row),
    page: &Page,
) -> bool {
    let line = lines::line_of(line_ends, start);
    let line_start = start_of_line(line_ends, start);
    let whole_line = &source[line_start..end_of_line(line_ends, start, source.len())];
    let line_end = line_start + lines::text(whole_line).len();
    let columns = |from: usize, to: usize| -> usize {
        units(&source[from..to.max(from)], page.ascii).iter().map(|unit| unit.usual).sum()
    };
    let words = carets.words();
    let before = words.len() - words.trim_start_matches(' ').len();
    let fits = |from: usize| {
        let to = from + place.text.len();
        let whole = from == line_start && to == line_end;
        let label = if whole { "line" } else { "part" };
        let marked = columns(start, end.min(to)).max(1);
        source.get(from..to) == Some(place.text.as_slice())
            && to <= line_end.max(from)
            && (start < to || start >= line_end)
            && columns(from, start.min(to)) == before
            && LEFT + 3 + words.len() <= page.width
            && place.left == format!("{line:7}    {label:10}")
            && words[before..] == "^".repeat(marked)
    };
    let earliest = start.saturating_sub(page.width).max(line_start);
    !place.own && carets.own && carets.left.trim().is_empty() && (earliest..=start).any(fits)
}
