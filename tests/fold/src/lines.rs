//! The lines of a source, from the words of M-102: CR LF, a lone CR and LF each end a line. Nothing here
//! is shared with `fold` or with the reader.

/// The offsets at which line ends are completed, behind the last byte of each.
pub fn ends(source: &[u8]) -> Vec<usize> {
    let (mut ends, mut at) = (Vec::new(), 0);
    while at < source.len() {
        let rest = &source[at..];
        let end = [&b"\r\n"[..], b"\r", b"\n"].into_iter().find(|end| rest.starts_with(end));
        at += end.map_or(1, <[u8]>::len);
        ends.extend(end.map(|_| at));
    }
    ends
}

/// 1 plus the ends completed by an offset.
pub fn line_of(ends: &[usize], offset: usize) -> usize {
    1 + ends.partition_point(|&end| end <= offset)
}

/// Where the line of an offset starts: at the last of these ends.
pub fn start_of_line(ends: &[usize], offset: usize) -> usize {
    ends[..line_of(ends, offset) - 1].last().copied().unwrap_or(0)
}

/// Where the line behind that of an offset starts, or the source ends.
pub fn end_of_line(ends: &[usize], offset: usize, length: usize) -> usize {
    ends.get(line_of(ends, offset) - 1).copied().unwrap_or(length)
}

/// A line without its line end.
pub fn text(line: &[u8]) -> &[u8] {
    let end = line.iter().position(|&byte| is_break(byte)).unwrap_or(line.len());
    &line[..end]
}

/// Whether a byte is part of a line end.
pub fn is_break(byte: u8) -> bool {
    byte == b'\r' || byte == b'\n'
}

#[cfg(test)]
mod tests {
    use super::*;

    /// The table of M-102: source, offset, line, column.
    #[test]
    fn lines_and_columns() {
        for (source, offset, line, column) in [
            (&b"a\rb"[..], 2, 2, 1),
            (b"a\r\nb", 2, 1, 3),
            (b"a\r\nb", 3, 2, 1),
            (b"\r\r\n", 2, 2, 2),
            (b"\n\r", 2, 3, 1),
            (b"\"a\\\rb\"", 4, 2, 1),
            (b"begin\r\n", 6, 1, 7),
            (b"a\r", 2, 2, 1),
            (b"\xC3\xA9\r\xC3\xA9$", 5, 2, 3),
        ] {
            let ends = ends(source);
            let found = (line_of(&ends, offset), offset - start_of_line(&ends, offset) + 1);
            assert_eq!(found, (line, column), "{source:?} at {offset}");
        }
    }

    #[test]
    fn texts() {
        for line in [&b"a"[..], b"a\r", b"a\n", b"a\r\n"] {
            assert_eq!(text(line), b"a");
        }
    }
}
