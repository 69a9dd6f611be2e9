//! The lexers that are timed. Each checks UTF-8 and writes kinds and ends.
//!
//! The proved one is the exported call with one token's room less than the source needs: it ends
//! behind the tokens with status 3.

use exported::Lent;
use reference::MAX_CONTROL_FLOW_NESTING;

use crate::{inputs, table, timing};

pub struct Slices {
    kinds: Vec<u16>,
    ends: Vec<u32>,
    /// The call's room: one entry less than there are tokens.
    room: usize,
    counts: [u64; 3],
}

/// A lexer that returns the number of tokens of a well-formed source.
type Side = timing::Side<Slices>;

const SIDES: [Side; 3] = [
    Side { name: "proved", call: proved },
    Side { name: "plain", call: plain },
    Side { name: "reference", call: reference },
];

/// The status of a call whose tokens do not fit.
const TOKEN_ROOM: u64 = 3;

/// The table of the lexers' times.
pub fn run() {
    println!("lexers: UTF-8, then kinds and ends into slices; `proved` is masm_parse_text, which");
    println!("has room for all tokens but the last and ends there; words are marked and unmarked");
    let sides = if exported::LINKED { &SIDES[..] } else { &SIDES[1..] };
    if !exported::LINKED {
        println!("{}: the proved lexer is left out", exported::MISSING);
    }
    table::print_head(sides);
    for input in inputs::for_lexers() {
        let (tokens, mut slices) = check(&input, sides);
        let times = timing::time(sides, &input.bytes, &mut slices);
        table::print_row(input.name, input.bytes.len(), tokens, &times);
    }
}

/// The number of tokens, on which all sides agree, as they do on what the call has room for; and
/// slices for the timing.
fn check(input: &inputs::Input, sides: &[Side]) -> (u64, Slices) {
    let source = &input.bytes;
    let mut expected = Slices::new(source, 0);
    let tokens = plain(source, &mut expected);
    let room = tokens as usize - 1;
    for side in sides {
        let mut found = Slices::new(source, room);
        let same = (side.call)(source, &mut found) == tokens
            && found.kinds[..room] == expected.kinds[..room]
            && found.ends[..room] == expected.ends[..room];
        assert!(same, "{} and plain differ on {}", side.name, input.name);
    }
    (tokens, Slices::new(source, room))
}

impl Slices {
    /// One entry a byte.
    fn new(source: &[u8], room: usize) -> Self {
        Self { kinds: vec![0; source.len()], ends: vec![0; source.len()], room, counts: [0; 3] }
    }
}

fn plain(source: &[u8], slices: &mut Slices) -> u64 {
    let count = plain::lex(source, &mut slices.kinds, &mut slices.ends);
    count.expect("a well-formed source") as u64
}

fn reference(source: &[u8], slices: &mut Slices) -> u64 {
    let text = std::str::from_utf8(source).expect("a well-formed source");
    let tokens = reference::lexer::tokenize_text(text);
    let places = slices.kinds.iter_mut().zip(&mut slices.ends);
    for ((kind, end), token) in places.zip(&tokens) {
        *kind = token.kind() as u16;
        *end = token.span().into_slice_index().end as u32;
    }
    tokens.len() as u64
}

fn proved(source: &[u8], slices: &mut Slices) -> u64 {
    let Slices { kinds, ends, room, counts } = slices;
    let lent = Lent {
        counts,
        token_kinds: &mut kinds[..*room],
        token_ends: &mut ends[..*room],
        events: &mut [],
        messages: &mut [],
        starts: &mut [],
        ends: &mut [],
    };
    assert_eq!(exported::parse_text(MAX_CONTROL_FLOW_NESTING, source, lent), TOKEN_ROOM);
    assert_eq!(counts[0], *room as u64 + 1, "the number of tokens");
    counts[0]
}
