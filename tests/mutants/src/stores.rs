//! The stored cases, as `rt ci` replays them, and whether their answers tell a mutant from the sources.

use std::{fs, path::PathBuf};

use corpus::{Family, Size};

use crate::{
    ITSELF, MAX_CONTROL_FLOW_NESTING,
    answer::{Answer, Reading, Rooms},
    reading, tokens,
};

/// A source and the slices lent for it, with the answer of the sources as they are.
struct Case {
    source: Vec<u8>,
    rooms: Rooms,
    expected: Option<Answer>,
}

pub struct Store {
    pub name: &'static str,
    /// Whether only tokens are answered.
    lexer: bool,
    cases: Vec<Case>,
}

/// The stores of the repository.
pub fn stores() -> Vec<Store> {
    let samples = corpus::samples::sources().map(|source| {
        let rooms = Rooms::ample(source.len());
        (source, rooms)
    });
    let [lexer, readings, trees] = framed();
    vec![
        Store::new("lexer", true, lexer),
        Store::new("readings", false, readings),
        Store::new("trees", false, trees),
        Store::new("samples", false, samples.collect()),
    ]
}

/// What the differential runs have besides: the families of examples and of places.
pub fn differential() -> Store {
    let families = [Family::Examples, Family::Places];
    let sources = corpus::cases(&families, Size::Ci).map(|case| case.source);
    let cases = sources.map(|source| {
        let rooms = Rooms::ample(source.len());
        (source, rooms)
    });
    Store::new("corpus", false, cases.collect())
}

impl Store {
    pub fn new(name: &'static str, lexer: bool, cases: Vec<(Vec<u8>, Rooms)>) -> Self {
        let mut store = Self { name, lexer, cases: Vec::new() };
        for (source, rooms) in cases {
            let case = Case { source, rooms, expected: None };
            let expected = store.answer(ITSELF, &case);
            assert!(expected.is_some(), "no answer to {}", case.source.escape_ascii());
            store.cases.push(Case { expected, ..case });
        }
        store
    }

    pub fn len(&self) -> usize {
        self.cases.len()
    }

    /// The first source that a mutant answers otherwise.
    pub fn catches(&self, mutant: usize) -> Option<&[u8]> {
        let caught = self.cases.iter().find(|case| self.answer(mutant, case) != case.expected);
        caught.map(|case| case.source.as_slice())
    }

    fn answer(&self, mutant: usize, case: &Case) -> Option<Answer> {
        let found = if self.lexer {
            tokens(mutant, &case.source).map(|tokens| Reading::Unwanted(tokens, 0))
        } else {
            reading(mutant, &case.source)
        };
        found.map(|reading| reading.answer(case.rooms))
    }
}

/// The parts of program `cases` that read; one more counts lines.
const READING: usize = 3;

/// The frames of program `cases`, part by part: the part, the limit, the length of the source and of the six
/// slices, the source. Those at other limits than the mutants' are left out, and those that ask for lines; they
/// have offsets behind the source, four bytes each, and their number in the place of the token ends.
fn framed() -> [Vec<(Vec<u8>, Rooms)>; READING] {
    let file = PathBuf::from(env!("CARGO_MANIFEST_DIR")).join("../../crates/cases/stdin");
    let bytes = fs::read(file).expect("the stored cases are there");
    let mut rest = bytes.as_slice();
    let mut cases = [const { Vec::new() }; READING];
    while !rest.is_empty() {
        let [part, limit, length, lengths @ ..]: [usize; 9] =
            std::array::from_fn(|_| number(&mut rest));
        let (source, behind) = rest.split_at(length);
        rest = behind;
        match cases.get_mut(part) {
            Some(cases) if limit == MAX_CONTROL_FLOW_NESTING => {
                cases.push((source.to_vec(), rooms(lengths)));
            },
            Some(_) => {},
            None => rest = &rest[4 * lengths[1]..],
        }
    }
    cases
}

fn number(rest: &mut &[u8]) -> usize {
    let (bytes, behind) = rest.split_first_chunk().expect("four bytes");
    *rest = behind;
    u32::from_le_bytes(*bytes) as usize
}

fn rooms(lengths: [usize; 6]) -> Rooms {
    let [token_kinds, token_ends, events, messages, starts, ends] = lengths;
    Rooms { counts: 3, token_kinds, token_ends, events, messages, starts, ends }
}
