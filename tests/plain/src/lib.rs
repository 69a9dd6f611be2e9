//! A lexer of bytes as one writes it by hand in Rust. It is independent of the reference.

use std::str::{self, Utf8Error};

/// The kinds' numbers; a token of kind Error is 1.
pub mod kind {
    pub const ERROR: u16 = 1;
    pub const WHITESPACE: u16 = 27;
    pub const NEWLINE: u16 = 28;
    pub const COMMENT: u16 = 29;
    pub const DOC_COMMENT: u16 = 30;
    pub const IDENT: u16 = 31;
    pub const SPECIAL_IDENT: u16 = 32;
    pub const NUMBER: u16 = 33;
    pub const QUOTED_IDENT: u16 = 34;
    pub const QUOTED_STRING: u16 = 35;
    pub const AT: u16 = 36;
    pub const BANG: u16 = 37;
    pub const COLON: u16 = 38;
    pub const COLON_COLON: u16 = 39;
    pub const COMMA: u16 = 40;
    pub const DOT: u16 = 41;
    pub const DOT_DOT: u16 = 42;
    pub const DOT_DOT_DOT: u16 = 43;
    pub const EQUAL: u16 = 44;
    pub const L_ANGLE: u16 = 45;
    pub const L_BRACE: u16 = 46;
    pub const L_BRACKET: u16 = 47;
    pub const L_PAREN: u16 = 48;
    pub const MINUS: u16 = 49;
    pub const PLUS: u16 = 50;
    pub const R_ANGLE: u16 = 51;
    pub const R_ARROW: u16 = 52;
    pub const R_BRACE: u16 = 53;
    pub const R_BRACKET: u16 = 54;
    pub const R_PAREN: u16 = 55;
    pub const SEMICOLON: u16 = 56;
    pub const SLASH: u16 = 57;
    pub const SLASH_SLASH: u16 = 58;
    pub const STAR: u16 = 59;
}

/// The number of tokens, or how the bytes stop being UTF-8. Tokens that fit are written.
pub fn lex(source: &[u8], kinds: &mut [u16], ends: &mut [u32]) -> Result<usize, Utf8Error> {
    str::from_utf8(source)?;
    let room = kinds.len().min(ends.len());
    let (mut start, mut count) = (0, 0);
    while start < source.len() {
        let (kind, end) = token(source, start);
        if count < room {
            kinds[count] = kind;
            ends[count] = end as u32;
        }
        count += 1;
        start = end;
    }
    Ok(count)
}

/// Kind and end of the token that starts at `start`.
#[inline]
fn token(source: &[u8], start: usize) -> (u16, usize) {
    let next = start + 1;
    let one = |kind| (kind, next);
    match source[start] {
        b' ' | b'\t' => (kind::WHITESPACE, run(source, next, |byte| matches!(byte, b' ' | b'\t'))),
        b'\n' => one(kind::NEWLINE),
        b'\r' if source.get(next) == Some(&b'\n') => (kind::NEWLINE, next + 1),
        b'\r' => one(kind::NEWLINE),
        b'#' => comment(source, next),
        b'a'..=b'z' | b'A'..=b'Z' | b'_' => (kind::IDENT, run(source, next, in_word)),
        b'$' => special(source, start),
        b'0'..=b'9' => (kind::NUMBER, number(source, start)),
        b'"' => quoted(source, next),
        b'@' => one(kind::AT),
        b'!' => one(kind::BANG),
        b':' => pair(source, next, b':', kind::COLON_COLON, kind::COLON),
        b',' => one(kind::COMMA),
        b'.' => dots(source, next),
        b'=' => one(kind::EQUAL),
        b'<' => one(kind::L_ANGLE),
        b'{' => one(kind::L_BRACE),
        b'[' => one(kind::L_BRACKET),
        b'(' => one(kind::L_PAREN),
        b'-' => pair(source, next, b'>', kind::R_ARROW, kind::MINUS),
        b'+' => one(kind::PLUS),
        b'>' => one(kind::R_ANGLE),
        b'}' => one(kind::R_BRACE),
        b']' => one(kind::R_BRACKET),
        b')' => one(kind::R_PAREN),
        b';' => one(kind::SEMICOLON),
        b'/' => pair(source, next, b'/', kind::SLASH_SLASH, kind::SLASH),
        b'*' => one(kind::STAR),
        first => (kind::ERROR, start + width(first)),
    }
}

/// Where the bytes that `accepts` takes end.
#[inline]
fn run(source: &[u8], from: usize, accepts: impl Fn(u8) -> bool) -> usize {
    let rest = &source[from..];
    from + rest.iter().position(|&byte| !accepts(byte)).unwrap_or(rest.len())
}

fn in_word(byte: u8) -> bool {
    byte.is_ascii_alphanumeric() || byte == b'_'
}

/// The bytes of the character with this first byte.
fn width(first: u8) -> usize {
    match first {
        0..=0x7F => 1,
        0x80..=0xDF => 2,
        0xE0..=0xEF => 3,
        _ => 4,
    }
}

fn pair(source: &[u8], next: usize, second: u8, both: u16, alone: u16) -> (u16, usize) {
    if source.get(next) == Some(&second) { (both, next + 1) } else { (alone, next) }
}

fn dots(source: &[u8], next: usize) -> (u16, usize) {
    match source[next..] {
        [b'.', b'.', ..] => (kind::DOT_DOT_DOT, next + 2),
        [b'.', ..] => (kind::DOT_DOT, next + 1),
        _ => (kind::DOT, next),
    }
}

fn comment(source: &[u8], next: usize) -> (u16, usize) {
    let kind = if source.get(next) == Some(&b'!') { kind::DOC_COMMENT } else { kind::COMMENT };
    (kind, run(source, next, |byte| !matches!(byte, b'\n' | b'\r')))
}

fn special(source: &[u8], start: usize) -> (u16, usize) {
    let end = run(source, start + 1, in_word);
    let known = matches!(&source[start..end], b"$kernel" | b"$exec");
    (if known { kind::SPECIAL_IDENT } else { kind::ERROR }, end)
}

fn number(source: &[u8], start: usize) -> usize {
    match source[start..] {
        [b'0', b'x' | b'X', ..] => run(source, start + 2, |byte| byte.is_ascii_hexdigit()),
        [b'0', b'b' | b'B', ..] => run(source, start + 2, |byte| matches!(byte, b'0' | b'1')),
        _ => run(source, start + 1, |byte| byte.is_ascii_digit()),
    }
}

fn quoted(source: &[u8], mut at: usize) -> (u16, usize) {
    let mut kind = kind::QUOTED_IDENT;
    while let Some(&byte) = source.get(at) {
        match byte {
            b'"' => return (kind, at + 1),
            b'\n' | b'\r' => break,
            b'\\' => {
                kind = kind::QUOTED_STRING;
                at += 1;
                at += source.get(at).map_or(0, |&taken| width(taken));
            },
            _ => {
                if !byte.is_ascii_graphic() {
                    kind = kind::QUOTED_STRING;
                }
                at += 1;
            },
        }
    }
    (kind::ERROR, at)
}
