//! Cases for differential runs, the same at every run.

pub mod chosen;
pub mod damage;
pub mod deep;
pub mod edges;
pub mod examples;
pub mod frame;
pub mod lexical;
pub mod limits;
pub mod lines;
pub mod near;
pub mod nested;
pub mod offsets;
pub mod pairs;
pub mod places;
pub mod publics;
pub mod random;
pub mod rooms;
pub mod samples;
pub mod script;
pub mod sequences;
pub mod shapes;
pub mod spellings;
pub mod spread;
pub mod tails;
pub mod utf8;
pub mod written;

use std::iter;

use limits::{Limited, UNIT};
use random::Random;
use reference::{MAX_CONTROL_FLOW_NESTING, MAX_SOURCE};
use rooms::Plan;
use spellings::{GLUED, SPELLINGS};

/// A source, the limit at which it is read and the rooms lent for it.
#[derive(Debug, Clone, PartialEq, Eq)]
pub struct Case {
    pub family: Family,
    pub limit: u64,
    pub source: Vec<u8>,
    pub plan: Plan,
}

impl Case {
    /// A case at the unit's limit.
    pub fn at_unit(family: Family, source: Vec<u8>, plan: Plan) -> Self {
        Self { family, limit: MAX_CONTROL_FLOW_NESTING, source, plan }
    }
}

#[derive(Debug, Clone, Copy, PartialEq, Eq)]
pub enum Size {
    /// Some hundred thousand cases, for every change.
    Ci,
    /// This many times the sampled cases, and longer exhaustive strings.
    Large(usize),
}

#[derive(Debug, Clone, Copy, PartialEq, Eq, PartialOrd, Ord)]
pub enum Family {
    /// Document 01's examples and the messages' smallest inputs.
    Examples,
    /// All sequences of up to three spellings, spaces between.
    Spaced,
    /// All sequences of up to three spellings, nothing between.
    Joined,
    /// Sequences of four to eight spellings.
    Samples,
    /// Short strings around one part of the lexer.
    Lexical,
    /// Well-formed and ill-formed UTF-8.
    Utf8,
    /// Scripts as people write them, up to 1 MiB.
    Scripts,
    /// Damaged copies of scripts.
    Damaged,
    /// Limits of depth and size, quotes at every ending.
    Edges,
    /// Slices that are too short, just enough or unequal.
    Rooms,
    /// `pub` and what stands behind it.
    Publics,
    /// Open control forms before a boundary.
    Nested,
    /// One piece repeated, up to 2,000 times.
    Shapes,
    /// Each slice alone at every length of interest.
    Slices,
    /// Two files joined.
    Pairs,
    /// Every spelling in every place, every class of characters at its bounds, and names that are nearly a word.
    Places,
    /// Line ends of every sort.
    Lines,
    /// Control forms nested around each limit, and numbers that are no limits.
    Limits,
    /// Sources of the families before, at lower limits than the unit's.
    Lower,
    /// Bytes that are no UTF-8 behind texts that are, and scripts that are cut off.
    Tails,
    /// Numbers that are no limits, also with short slices.
    Refusals,
}

impl Family {
    /// The families for the whole reader. The first ten are the lexer's, the first seventeen are at
    /// the unit's limit, and the first nineteen those that programs are asked.
    pub const ALL: [Self; 21] = [
        Self::Examples,
        Self::Spaced,
        Self::Joined,
        Self::Samples,
        Self::Lexical,
        Self::Utf8,
        Self::Scripts,
        Self::Damaged,
        Self::Edges,
        Self::Rooms,
        Self::Publics,
        Self::Nested,
        Self::Shapes,
        Self::Slices,
        Self::Pairs,
        Self::Places,
        Self::Lines,
        Self::Limits,
        Self::Lower,
        Self::Tails,
        Self::Refusals,
    ];
    pub const LEXER: &'static [Self] = Self::ALL.split_at(10).0;
    pub const UNIT: &'static [Self] = Self::ALL.split_at(17).0;
    pub const PROGRAM: &'static [Self] = Self::ALL.split_at(19).0;

    pub fn name(self) -> String {
        format!("{self:?}").to_lowercase()
    }

    pub fn named(name: &str) -> Option<Self> {
        Self::ALL.into_iter().find(|family| family.name() == name)
    }
}

type Sources<Source = Vec<u8>> = Box<dyn Iterator<Item = Source> + Send>;

/// All cases of a size, family by family.
pub fn cases(families: &[Family], size: Size) -> impl Iterator<Item = Case> + Send {
    families.iter().flat_map(move |&family| {
        let mut random = Random::new(family as u64);
        limited(family, size).flat_map(move |(limit, source)| {
            let plans = match family {
                Family::Rooms | Family::Tails => vec![Plan::odd(&mut random)],
                Family::Slices => Plan::each(),
                Family::Limits => vec![Plan::AMPLE, Plan::odd(&mut random)],
                Family::Refusals => Plan::with_few_counts(),
                _ => vec![Plan::AMPLE],
            };
            plans.into_iter().map(move |plan| Case { family, limit, source: source.clone(), plan })
        })
    })
}

/// The pairs of files whose joins are the family Pairs.
pub fn pairs(size: Size) -> impl Iterator<Item = pairs::Pair> {
    let mut random = sampling(Family::Pairs);
    (0..PAIRS * times(size)).map(move |_| pairs::pair(&mut random))
}

/// Those pairs, the same at each of the lowest limits in turn, and a few around each limit.
pub fn pairs_at_limits(size: Size) -> impl Iterator<Item = (u64, pairs::Pair)> {
    let at_unit = pairs(size).map(|pair| (MAX_CONTROL_FLOW_NESTING, pair));
    at_unit.chain((1..=3).cycle().zip(pairs(size))).chain(limits::pairs())
}

const PAIRS: usize = 15_000;

/// Those pairs, and more with line ends of every sort.
pub fn pairs_of_lines(size: Size) -> impl Iterator<Item = pairs::Pair> {
    let mut random = sampling(Family::Lines);
    let more = (0..PAIRS * times(size)).map(move |_| lines::pair(&mut random));
    pairs(size).chain(more)
}

/// How often the sampled cases are taken.
fn times(size: Size) -> usize {
    match size {
        Size::Ci => 1,
        Size::Large(times) => times,
    }
}

fn sampling(family: Family) -> Random {
    Random::new(1000 + family as u64)
}

/// The sources of a family, each with its limit.
fn limited(family: Family, size: Size) -> impl Iterator<Item = Limited> + Send {
    let at_unit = sources(family, size).map(|source| (MAX_CONTROL_FLOW_NESTING, source));
    at_unit.chain(at_limits(family, size))
}

/// Those of a family that is read at several limits.
fn at_limits(family: Family, size: Size) -> Sources<Limited> {
    match family {
        Family::Limits => {
            Box::new(limits::examples().chain(limits::around()).chain(limits::framed_refusals()))
        },
        Family::Lower => {
            let all = Family::UNIT.iter().flat_map(move |family| sources(*family, size));
            Box::new(limits::lower(all))
        },
        Family::Refusals => Box::new(limits::refusals()),
        _ => Box::new(iter::empty()),
    }
}

/// Those of a family that is read at the unit's limit alone.
fn sources(family: Family, size: Size) -> Sources {
    let longer = u32::from(size != Size::Ci);
    let sampled = |count: usize, make: fn(&mut Random) -> Vec<u8>| -> Sources {
        let mut random = sampling(family);
        Box::new((0..count * times(size)).map(move |_| make(&mut random)))
    };
    match family {
        Family::Examples => Box::new(examples::all()),
        Family::Spaced => Box::new(sequences::all(&SPELLINGS, 3, " ")),
        Family::Joined => Box::new(sequences::all(&GLUED, 3, "")),
        Family::Samples => sampled(30_000, sequences::sample),
        Family::Lexical => Box::new(lexical::all(longer)),
        Family::Utf8 => {
            let mixes = sampled(10_000, utf8::mix).chain(sampled(5_000, utf8::noise));
            Box::new(utf8::short().chain(utf8::behind_runs()).chain(mixes))
        },
        Family::Scripts => Box::new(sampled(1_000, any_script).chain(sampled(2, full_script))),
        Family::Damaged => sampled(30_000, damaged_script),
        Family::Edges => Box::new(
            edges::depths(UNIT)
                .chain(edges::endings())
                .chain(edges::tree_sizes())
                .chain(edges::sizes()),
        ),
        Family::Rooms => sampled(15_000, any_source),
        Family::Publics => Box::new(publics::all(longer)),
        Family::Nested => Box::new(nested::all(UNIT)),
        Family::Shapes => Box::new(shapes::all()),
        Family::Slices => Box::new(examples::documented().chain(sampled(200, any_source))),
        Family::Pairs => sampled(PAIRS, pairs::joined),
        Family::Places => Box::new(places::all().chain(lexical::bounds()).chain(near::all())),
        Family::Lines => Box::new(
            lines::few()
                .chain(lines::short())
                .chain(lines::at_bounds())
                .chain(sampled(15_000, lines::script_with_ends)),
        ),
        Family::Tails => {
            Box::new(tails::behind_starts().chain(sampled(30_000, tails::broken_script)))
        },
        Family::Limits | Family::Lower | Family::Refusals => Box::new(iter::empty()),
    }
}

/// A script; most are small, one in a hundred has 64 to 256 KiB.
fn any_script(random: &mut Random) -> Vec<u8> {
    let size = match random.below(100) {
        0 => random.between(65_536, 262_144),
        1..=5 => random.between(4_096, 40_960),
        6..=30 => random.between(400, 4_096),
        _ => random.between(1, 400),
    };
    script::script(random, size).into_bytes()
}

/// A script of exactly the largest size, filled up with spaces.
fn full_script(random: &mut Random) -> Vec<u8> {
    let mut text = script::script(random, MAX_SOURCE - 4_096);
    if text.len() > MAX_SOURCE {
        text.truncate(text.floor_char_boundary(MAX_SOURCE));
    }
    let mut bytes = text.into_bytes();
    bytes.resize(MAX_SOURCE, b' ');
    bytes
}

fn damaged_script(random: &mut Random) -> Vec<u8> {
    let size = if random.one_in(50) { 4_096 } else { random.between(1, 300) };
    let text = script::script(random, size);
    damage::damaged(random, text.as_bytes())
}

/// A small source of any sort.
fn any_source(random: &mut Random) -> Vec<u8> {
    match random.below(8) {
        0 => utf8::mix(random),
        1 | 2 => script::script(random, 100).into_bytes(),
        3 | 4 => damaged_script(random),
        _ => sequences::sample(random),
    }
}
