//! How text from outside is to be shown, written anew from the rule; only the table is shared.

use std::sync::LazyLock;

const TABLE: &str = include_str!("../../../examples/fold/letters.inc");

/// First and last character of each range, the columns for wrapping, and those for carets.
static RANGES: LazyLock<Vec<(u32, u32, usize, usize)>> = LazyLock::new(|| {
    TABLE.lines().skip(1).map(|line| range(line).expect("a line of the table")).collect()
});

fn range(line: &str) -> Option<(u32, u32, usize, usize)> {
    let fields: Vec<&str> = line.strip_prefix("{ ")?.strip_suffix(" },")?.split(", ").collect();
    let [first, last, columns] = fields.as_slice() else { return None };
    let code = |field: &str| u32::from_str_radix(field.strip_prefix("0x")?, 16).ok();
    let (most, usual) = match *columns {
        "NARROW" => (1, 1),
        "EITHER" => (2, 1),
        "WIDE" => (2, 2),
        _ => return None,
    };
    Some((code(first)?, code(last)?, most, usual))
}

/// What is shown of some bytes and can't be broken.
#[derive(Debug, Clone)]
pub struct Unit {
    pub text: String,
    pub columns: usize,
    pub usual: usize,
}

fn escape(byte: u8) -> Unit {
    let text = match byte {
        b'\\' => "\\\\".to_string(),
        b'\t' => "\\t".to_string(),
        b'\r' => "\\r".to_string(),
        b'\n' => "\\n".to_string(),
        b' '..=b'~' => (byte as char).to_string(),
        _ => format!("\\x{byte:02X}"),
    };
    let columns = text.len();
    Unit { text, columns, usual: columns }
}

fn letter(letter: char, ascii: bool) -> Vec<Unit> {
    let code = letter as u32;
    let at = RANGES.partition_point(|range| range.1 < code);
    let found = RANGES.get(at).filter(|range| range.0 <= code && !ascii && code > 127);
    match found {
        Some(&(_, _, columns, usual)) => {
            vec![Unit { text: letter.to_string(), columns, usual }]
        },
        None => letter.to_string().bytes().map(escape).collect(),
    }
}

/// The units that show the bytes.
pub fn units(bytes: &[u8], ascii: bool) -> Vec<Unit> {
    let mut units = Vec::new();
    for chunk in bytes.utf8_chunks() {
        units.extend(chunk.valid().chars().flat_map(|found| letter(found, ascii)));
        units.extend(chunk.invalid().iter().map(|&byte| escape(byte)));
    }
    units
}

/// The bytes that a text shows, if it is one that `units` gives.
pub fn bytes(text: &str, ascii: bool) -> Option<Vec<u8>> {
    let mut bytes = Vec::new();
    let mut rest = text;
    while let Some(first) = rest.chars().next() {
        let (byte, length) = if first == '\\' { unescape(rest)? } else { (None, first.len_utf8()) };
        match byte {
            Some(byte) => bytes.push(byte),
            None => bytes.extend(rest[..length].bytes()),
        }
        rest = &rest[length..];
    }
    let again: String = units(&bytes, ascii).into_iter().map(|unit| unit.text).collect();
    (again == text).then_some(bytes)
}

fn unescape(text: &str) -> Option<(Option<u8>, usize)> {
    let byte = match text.as_bytes().get(1)? {
        b'\\' => b'\\',
        b't' => b'\t',
        b'r' => b'\r',
        b'n' => b'\n',
        b'x' => return Some((Some(u8::from_str_radix(text.get(2..4)?, 16).ok()?), 4)),
        _ => return None,
    };
    Some((Some(byte), 2))
}

#[cfg(test)]
mod tests {
    use super::*;

    fn shown(bytes: &[u8]) -> String {
        units(bytes, false).into_iter().map(|unit| unit.text).collect()
    }

    #[test]
    fn text_is_shown_as_bytes() {
        assert_eq!(shown("a\\ é\t\u{202E}".as_bytes()), "a\\\\ é\\t\\xE2\\x80\\xAE");
        assert_eq!(shown(b"\xE2\x80a"), "\\xE2\\x80a");
        assert_eq!(bytes("a\\\\ é", false), Some("a\\ é".as_bytes().to_vec()));
    }

    #[test]
    fn other_texts_show_nothing() {
        for text in ["\u{202E}", "\\x41", "\\q", "\u{301}", "\\xC3\\xA9", "\x1B"] {
            assert_eq!(bytes(text, false), None, "{text}");
        }
        assert_eq!(bytes("é", true), None);
    }
}
