//! Lines and columns of places in a source, from the words of M-102 alone.

use crate::answer::MAX_SOURCE;

/// Where a place is: both count from 1, the column in bytes.
#[derive(Debug, Clone, Copy, PartialEq, Eq)]
pub struct Place {
    pub line: u32,
    pub column: u32,
}

/// The line ends of a source.
#[derive(Debug, Clone, PartialEq, Eq)]
pub struct Lines {
    /// The length of the source.
    length: usize,
    /// The offset behind the last byte of each line end: there it is completed.
    ends: Vec<usize>,
}

/// What `masm_lines` returns, and what it leaves in the slices of lines and columns.
#[derive(Debug, Clone, PartialEq, Eq)]
pub struct Left {
    pub returned: u64,
    pub lines: Vec<u32>,
    pub columns: Vec<u32>,
}

impl Lines {
    /// CR LF, a CR alone and an LF alone each end a line.
    pub fn of(source: &[u8]) -> Self {
        let (mut ends, mut at) = (Vec::new(), 0);
        while at < source.len() {
            let end = match source[at..] {
                [b'\r', b'\n', ..] => 2,
                [b'\r' | b'\n', ..] => 1,
                _ => 0,
            };
            at += end.max(1);
            if end > 0 {
                ends.push(at);
            }
        }
        Self { length: source.len(), ends }
    }

    /// How many line ends there are.
    pub fn count(&self) -> usize {
        self.ends.len()
    }

    /// Where each line end is completed, in order.
    pub fn ends(&self) -> &[usize] {
        &self.ends
    }

    /// 1 plus the ends completed by the offset, and 1 plus the bytes since the last of them. An
    /// offset above the length counts as that.
    pub fn place(&self, offset: u32) -> Place {
        let offset = (offset as usize).min(self.length);
        let completed = self.ends.partition_point(|end| *end <= offset);
        let start = self.ends[..completed].last().copied().unwrap_or(0);
        Place { line: number(1 + completed), column: number(1 + offset - start) }
    }
}

/// What `masm_lines` does over slices of lines and columns that hold something.
pub fn left(source: &[u8], offsets: &[u32], mut lines: Vec<u32>, mut columns: Vec<u32>) -> Left {
    if source.len() > MAX_SOURCE {
        return Left { returned: 0, lines, columns };
    }
    let all = Lines::of(source);
    let written = offsets.len().min(lines.len()).min(columns.len());
    for (at, offset) in offsets.iter().enumerate().take(written) {
        let Place { line, column } = all.place(*offset);
        (lines[at], columns[at]) = (line, column);
    }
    Left { returned: written as u64, lines, columns }
}

fn number(count: usize) -> u32 {
    u32::try_from(count).expect("no source has so many bytes")
}

#[cfg(test)]
mod tests {
    use super::*;

    /// The table of M-102: a source, an offset, its line and column.
    const TABLE: [(&[u8], u32, [u32; 2]); 9] = [
        (b"a\rb", 2, [2, 1]),
        (b"a\r\nb", 2, [1, 3]),
        (b"a\r\nb", 3, [2, 1]),
        (b"\r\r\n", 2, [2, 2]),
        (b"\n\r", 2, [3, 1]),
        (b"\"a\\\rb\"", 4, [2, 1]),
        (b"begin\r\n", 6, [1, 7]),
        (b"a\r", 2, [2, 1]),
        (b"\xC3\xA9\r\xC3\xA9$", 5, [2, 3]),
    ];

    #[test]
    fn the_table_holds() {
        for (source, offset, [line, column]) in TABLE {
            let found = Lines::of(source).place(offset);
            assert_eq!(found, Place { line, column }, "{} at {offset}", source.escape_ascii());
        }
    }

    #[test]
    fn ends_are_completed_behind_their_last_byte() {
        assert_eq!(Lines::of(b"").ends(), []);
        assert_eq!(Lines::of(b"a\r\r\nb\n\rc\r\n").ends(), [2, 4, 6, 7, 10]);
    }

    /// Lines count the ends that are not above the offset, one after the other.
    #[test]
    fn ends_are_counted() {
        let source = b"\r\n\na\r\rb\n\r\"\\\r\n\"\r";
        let lines = Lines::of(source);
        for offset in 0..=source.len() {
            let completed = lines.ends().iter().filter(|end| **end <= offset).count();
            assert_eq!(lines.place(offset as u32).line as usize, 1 + completed);
        }
    }

    #[test]
    fn the_shortest_slice_decides() {
        let left = |offsets: &[u32], lines: usize, columns: usize| {
            left(b"a\rb", offsets, vec![7; lines], vec![7; columns])
        };
        let expected = |returned, lines: &[u32], columns: &[u32]| Left {
            returned,
            lines: lines.to_vec(),
            columns: columns.to_vec(),
        };
        assert_eq!(left(&[0, 2, 9], 4, 4), expected(3, &[1, 2, 2, 7], &[1, 1, 2, 7]));
        assert_eq!(left(&[u32::MAX, 0], 1, 3), expected(1, &[2], &[2, 7, 7]));
        assert_eq!(left(&[0, 0], 2, 0), expected(0, &[7, 7], &[]));
        assert_eq!(left(&[], 1, 1), expected(0, &[7], &[7]));
    }

    #[test]
    fn a_longer_source_is_refused() {
        let left = |length: usize| left(&vec![b'\r'; length], &[u32::MAX], vec![7], vec![7]);
        let all = MAX_SOURCE as u32 + 1;
        assert_eq!(left(MAX_SOURCE), Left { returned: 1, lines: vec![all], columns: vec![1] });
        assert_eq!(left(MAX_SOURCE + 1), Left { returned: 0, lines: vec![7], columns: vec![7] });
    }
}
