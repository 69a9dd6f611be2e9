//! The target: one source or one pair, compared in every respect.

use corpus::{
    offsets::{Order, ordered},
    random::Random,
    rooms::{Needs, Plan},
};
use exported::{
    accepted::given,
    zones::{Call, LinesCall, call, call_lines},
};
use reference::{
    MAX_CONTROL_FLOW_NESTING, Reading, Rooms, Slices,
    answer::FILL_U32,
    joined, limits,
    lines::{Left, left},
    reading,
};

use crate::{counters::Counters, difference::difference, rooms};

/// One in so many sources is read with short slices too, and one in so many with exact ones.
const SHORT: usize = 3;
const EXACT: usize = 4;

/// One in so many that are not too deep is read at a larger limit too.
const LARGER: usize = 3;

/// Besides the starts of diagnostics the lines of so many offsets are asked.
const ODD: usize = 4;

/// The limit, and what is read at it.
#[derive(Debug, Clone, PartialEq, Eq)]
pub enum Input {
    Source(u64, Vec<u8>),
    Pair(u64, Vec<u8>, Vec<u8>),
}

/// What is wrong, as text.
#[derive(Debug, Clone, PartialEq, Eq)]
pub struct Mismatch(pub String);

/// A call that was made, and what it left; no slices where a red zone is written.
struct Made {
    limit: u64,
    source: Vec<u8>,
    rooms: Rooms,
    status: u64,
    left: Option<Slices>,
}

/// The two calls that are checked.
#[derive(Debug, Clone, Copy)]
pub struct Calls {
    pub parse: Call,
    pub lines: LinesCall,
}

/// The calls in the archive.
pub const EXPORTED: Calls = Calls { parse: exported::parse_text, lines: exported::lines };

pub struct Checker {
    made: Calls,
    pub counters: Counters,
}

impl Checker {
    pub fn new(made: Calls) -> Self {
        Self { made, counters: Counters::default() }
    }

    /// Checks the input; `random` chooses the rooms.
    pub fn check(&mut self, input: &Input, random: &mut Random) -> Result<(), Mismatch> {
        let checked = match input {
            Input::Source(limit, source) => self.source(*limit, source, random),
            Input::Pair(limit, first, second) => self.pair(*limit, first, second),
        };
        self.counters.mismatches += u64::from(checked.is_err());
        checked
    }

    /// One call with room enough, now and then one more with short slices and one at a larger limit that must
    /// give the same; then the lines of what it gave.
    fn source(&mut self, limit: u64, source: &[u8], random: &mut Random) -> Result<(), Mismatch> {
        self.counters.sources += 1;
        let reading = reading(limit, source);
        let needs = Needs::of(&reading);
        let plan = if random.one_in(EXACT) { Plan::EXACT } else { Plan::AMPLE };
        let made = self.call(limit, source, plan.rooms(needs));
        compare(&made, &reading)?;
        if made.status == 0 {
            self.counters.accept(source);
        }
        if random.one_in(SHORT) {
            let made = self.call(limit, source, rooms::short(random, needs));
            compare(&made, &reading)?;
        }
        let too_deep = matches!(&reading, Reading::Parsed(parsed) if parsed.is_too_deep());
        if limits::ALLOWED.contains(&limit) && !too_deep && random.one_in(LARGER) {
            self.counters.larger += 1;
            let larger = random.between(limit as usize, MAX_CONTROL_FLOW_NESTING as usize);
            let made = self.call(larger as u64, source, plan.rooms(needs));
            compare(&made, &reading)?;
        }
        self.lines(source, starts(&reading), random)
    }

    /// One call for the lines of these offsets and of a few odd ones, rising or in any order, now
    /// and then with short slices.
    fn lines(
        &mut self,
        source: &[u8],
        mut offsets: Vec<u32>,
        random: &mut Random,
    ) -> Result<(), Mismatch> {
        self.counters.lines += 1;
        let length = source.len();
        let odd = (0..ODD).map(|_| random.below(length + 2) as u32);
        offsets.extend(odd.chain([u32::MAX]));
        offsets.sort_unstable();
        if random.one_in(2) {
            offsets = ordered(offsets, random.pick(&Order::ALL), random);
        }
        let mut room = || match random.one_in(SHORT) {
            true => random.below(offsets.len() + 2),
            false => offsets.len(),
        };
        let rooms = [room(), room()];
        compare_lines(self.made.lines, source, &offsets, rooms)
    }

    /// Demand 3 over three calls, each of which is compared as well.
    fn pair(&mut self, limit: u64, first: &[u8], second: &[u8]) -> Result<(), Mismatch> {
        self.counters.pairs += 1;
        let mut calls = Vec::new();
        let read = |source: &[u8], rooms| {
            let made = self.call(limit, source, rooms);
            let parsed = made.left.as_ref().and_then(|slices| given(made.status, slices));
            calls.push(made);
            parsed
        };
        let obeyed = joined::obeyed_by(read, first, second);
        if obeyed == Some(false) {
            let parts = [first, second].map(|part| part.escape_ascii().to_string());
            let [first, second] = parts;
            return Err(Mismatch(format!("joined otherwise at limit {limit}:\n{first}\n{second}")));
        }
        self.counters.inside += u64::from(obeyed.is_some());
        calls.iter().try_for_each(|made| compare(made, &reading(limit, &made.source)))
    }

    fn call(&mut self, limit: u64, source: &[u8], rooms: Rooms) -> Made {
        let (status, left) = call(self.made.parse, limit, source, rooms);
        self.counters.call(status);
        Made { limit, source: source.to_vec(), rooms, status, left }
    }
}

/// Status and slices are the reference's, and the red zones are untouched.
fn compare(made: &Made, reading: &Reading) -> Result<(), Mismatch> {
    let expected = reading.answer(made.rooms);
    if made.status == expected.status && made.left.as_ref() == Some(&expected.slices) {
        return Ok(());
    }
    let difference = match &made.left {
        None => "a red zone is written\n".to_string(),
        Some(slices) => difference(made.status, slices, &expected),
    };
    let Made { limit, source, rooms, .. } = made;
    let source = source.escape_ascii();
    Err(Mismatch(format!("{difference}limit: {limit}\nrooms: {rooms:?}\nsource: {source}")))
}

/// Where the diagnostics start.
fn starts(reading: &Reading) -> Vec<u32> {
    match reading {
        Reading::Parsed(parsed) => parsed.diagnostics.iter().map(|found| found.start).collect(),
        _ => Vec::new(),
    }
}

/// The number returned and both slices are those of M-102's words, and the red zones are untouched.
fn compare_lines(
    made: LinesCall,
    source: &[u8],
    offsets: &[u32],
    rooms: [usize; 2],
) -> Result<(), Mismatch> {
    let found = call_lines(made, source, offsets, rooms);
    let [lines, columns] = rooms.map(|room| vec![FILL_U32; room]);
    let expected = left(source, offsets, lines, columns);
    if found.as_ref() == Some(&expected) {
        return Ok(());
    }
    let difference = match found {
        None => "a red zone is written\n".to_string(),
        Some(Left { returned, lines, columns }) => {
            format!("lines: {returned} {lines:?} {columns:?}\nexpected: {expected:?}\n")
        },
    };
    let source = source.escape_ascii();
    Err(Mismatch(format!("{difference}offsets: {offsets:?}\nsource: {source}")))
}
