//! Reads what `fold` printed: lines with a left part, joined to rows.

use crate::letters;

/// Columns of the left part, and of that with the sign behind it.
const LEFT: usize = 21;
const AROUND: usize = LEFT + 3;

/// A row: who speaks, what stands on the left, and the text. Of a script's text these are the bytes
/// that it shows.
#[derive(Debug, Clone, PartialEq, Eq)]
pub struct Row {
    pub left: String,
    pub own: bool,
    pub text: Vec<u8>,
}

impl Row {
    pub fn words(&self) -> String {
        String::from_utf8_lossy(&self.text).into_owned()
    }
}

/// How `fold` was told to show.
#[derive(Debug, Clone, Default)]
pub struct Page {
    pub width: usize,
    pub ascii: bool,
}

struct Line<'a> {
    left: &'a str,
    sign: char,
    text: &'a str,
}

fn line(text: &str) -> Result<Line<'_>, String> {
    let bad = || format!("a line without a left part: {text:?}");
    let head = text.get(..AROUND).filter(|head| head.is_ascii()).ok_or_else(bad)?;
    let (left, sign) = head.split_at(LEFT);
    match sign {
        " | " | " > " | " : " => {
            let sign = sign.as_bytes()[1] as char;
            Ok(Line { left, sign, text: &text[AROUND..] })
        },
        _ => Err(bad()),
    }
}

/// The rows, each line being no wider than the page and filled as far as the next unit allows.
pub fn rows(output: &str, page: &Page) -> Result<Vec<Row>, String> {
    if !output.is_empty() && !output.ends_with('\n') {
        return Err("the last line does not end".to_string());
    }
    let mut rows: Vec<Row> = Vec::new();
    let mut lines: Vec<String> = Vec::new();
    for text in output.lines() {
        let line = line(text)?;
        if line.sign == ':' {
            let blank = line.left.chars().all(|found| found == ' ');
            if !blank || rows.is_empty() {
                return Err(format!("a line that goes on with nothing: {text:?}"));
            }
            lines.push(line.text.to_string());
            continue;
        }
        finish(rows.last_mut(), &lines, page)?;
        lines = vec![line.text.to_string()];
        rows.push(Row { left: line.left.to_string(), own: line.sign == '>', text: Vec::new() });
    }
    finish(rows.last_mut(), &lines, page)?;
    Ok(rows)
}

/// Joins a row's lines.
fn finish(row: Option<&mut Row>, lines: &[String], page: &Page) -> Result<(), String> {
    let Some(row) = row else { return Ok(()) };
    let whole = lines.concat();
    if row.own {
        let wide = lines.iter().any(|line| AROUND + line.len() > page.width);
        let plain = whole.bytes().all(|byte| (b' '..=b'~').contains(&byte));
        row.text = whole.into_bytes();
        return if plain && !wide { Ok(()) } else { Err(format!("own words: {lines:?}")) };
    }
    row.text = letters::bytes(&whole, page.ascii).ok_or(format!("shown text: {whole:?}"))?;
    let mut units = letters::units(&row.text, page.ascii).into_iter().peekable();
    for (number, line) in lines.iter().enumerate() {
        let (mut text, mut columns) = (String::new(), AROUND);
        while let Some(unit) = units.next_if(|unit| columns + unit.columns <= page.width) {
            columns += unit.columns;
            text += &unit.text;
        }
        if text != *line || (line.is_empty() && number > 0) {
            return Err(format!("a line of {columns} columns is wrapped wrongly: {line:?}"));
        }
    }
    Ok(())
}

#[cfg(test)]
mod tests {
    use super::*;

    const PAGE: Page = Page { width: 40, ascii: false };

    fn left(sign: char, text: &str) -> String {
        format!("{:21} {sign} {text}\n", "")
    }

    #[test]
    fn lines_are_joined() {
        let output = left('|', "0123456789abcdef") + &left(':', "g") + &left('>', "own");
        let rows = rows(&output, &PAGE).unwrap();
        assert_eq!(rows.len(), 2);
        assert_eq!((rows[0].own, rows[0].words().as_str()), (false, "0123456789abcdefg"));
        assert_eq!((rows[1].own, rows[1].words().as_str()), (true, "own"));
    }

    #[test]
    fn wrong_lines_are_found() {
        for output in [
            left('|', "0123456789abcdefg"),
            left('|', "0123456789abcde") + &left(':', "f"),
            left(':', "f"),
            left('+', "f"),
            left('|', "\u{1B}"),
            left('|', "a").trim_end().to_string(),
            "short\n".to_string(),
        ] {
            assert!(rows(&output, &PAGE).is_err(), "{output:?}");
        }
    }
}
