//! Offsets whose lines are asked, and the lengths of the slices lent for the answer.

use reference::{Lines, MAX_CONTROL_FLOW_NESTING, Reading, reading};

use crate::{Case, Family, random::Random, rooms::Needs};

/// Of sources up to this length all offsets are asked, and of those of the family Lines up to the
/// second.
const SHORT: usize = 96;
const LINES: usize = 4_200;

/// Of sources up to this length the reference's diagnostics are looked up.
const READ: usize = 262_144;

/// How many offsets of a longer source are taken at random, and around how many of its line ends.
const SOME: usize = 24;

/// How offsets follow each other.
#[derive(Debug, Clone, Copy, PartialEq, Eq)]
pub enum Order {
    Rising,
    Falling,
    /// From the start and from the end by turns.
    Fro,
    Mixed,
}

/// What is asked of a source: a call of `masm_lines`.
#[derive(Debug, Clone, PartialEq, Eq)]
pub struct Question {
    pub offsets: Vec<u32>,
    /// The lengths of the slices of lines and columns.
    pub lines: usize,
    pub columns: usize,
}

impl Order {
    pub const ALL: [Self; 4] = [Self::Rising, Self::Falling, Self::Fro, Self::Mixed];

    /// The order for a source of which one order is asked: the same at every run.
    pub fn chosen(source: &[u8]) -> Self {
        numbers(source).pick(&Self::ALL)
    }

    /// Those besides the rising one, of which a source is asked one too.
    pub fn other(source: &[u8]) -> Self {
        numbers(source).pick(&Self::ALL[1..])
    }
}

impl Question {
    /// One for each order. The case's plan says how many of the offsets are lent, by its token
    /// ends, and the rooms for lines and columns, by its starts and ends.
    pub fn of(case: &Case, orders: &[Order]) -> Vec<Self> {
        let (rising, mut random) = (rising(case), numbers(&case.source));
        let count = rising.len();
        let rooms = case.plan.rooms(Needs { tokens: count, diagnostics: count, events: 0 });
        let ask = |order: &Order| {
            let mut offsets = ordered(rising.clone(), *order, &mut random);
            offsets.truncate(rooms.token_ends);
            Self { offsets, lines: rooms.starts, columns: rooms.ends }
        };
        orders.iter().map(ask).collect()
    }
}

/// Numbers that depend on the source alone.
fn numbers(source: &[u8]) -> Random {
    let mixed = |sum: u64, byte: &u8| {
        (sum ^ u64::from(*byte)).wrapping_mul(0x0100_0000_01B3).rotate_left(9)
    };
    Random::new(source.iter().fold(source.len() as u64, mixed))
}

/// All offsets of a short source, some of a longer one, and some above the length.
fn rising(Case { family, source, .. }: &Case) -> Vec<u32> {
    let length = source.len() as u32;
    let short = if *family == Family::Lines { LINES } else { SHORT };
    let mut offsets = if source.len() <= short { (0..=length).collect() } else { some(source) };
    offsets.extend([length + 1, length + 2, u32::MAX]);
    offsets
}

/// Where diagnostics start, and offsets at the bounds, around line ends and at random.
fn some(source: &[u8]) -> Vec<u32> {
    let (length, mut random) = (source.len() as u32, numbers(source));
    let mut offsets = vec![0, length - 1, length];
    offsets.extend(starts(source));
    let lines = Lines::of(source);
    for _ in 0..SOME {
        offsets.push(random.below(source.len()) as u32);
        if let ends @ [_, ..] = lines.ends() {
            let end = random.pick(ends) as u32;
            offsets.extend([end.saturating_sub(2), end - 1, end, length.min(end + 1)]);
        }
    }
    offsets.sort_unstable();
    offsets
}

/// Where the first of the reference's diagnostics start.
fn starts(source: &[u8]) -> Vec<u32> {
    if source.len() > READ {
        return Vec::new();
    }
    let Reading::Parsed(parsed) = reading(MAX_CONTROL_FLOW_NESTING, source) else {
        return Vec::new();
    };
    parsed.diagnostics.iter().take(8 * SOME).map(|found| found.start).collect()
}

/// Rising offsets in another order.
pub fn ordered(mut offsets: Vec<u32>, order: Order, random: &mut Random) -> Vec<u32> {
    match order {
        Order::Rising => {},
        Order::Falling => offsets.reverse(),
        Order::Fro => {
            let half = offsets.len().div_ceil(2);
            let from_end = offsets.split_off(half).into_iter().rev().map(Some);
            let by_turns = offsets.into_iter().zip(from_end.chain([None]));
            offsets = by_turns.flat_map(|(low, high)| [Some(low), high]).flatten().collect();
        },
        Order::Mixed => {
            for at in (1..offsets.len()).rev() {
                offsets.swap(at, random.below(at + 1));
            }
        },
    }
    offsets
}

#[cfg(test)]
mod tests {
    use super::*;
    use crate::rooms::Plan;

    fn asked(source: &[u8], order: Order) -> Question {
        let case = Case::at_unit(Family::Scripts, source.to_vec(), Plan::AMPLE);
        Question::of(&case, &[order]).remove(0)
    }

    #[test]
    fn orders_have_the_same_offsets() {
        let rising = [0, 1, 2, 3, 4, u32::MAX];
        assert_eq!(asked(b"a\r", Order::Rising).offsets, rising);
        assert_eq!(asked(b"a\r", Order::Falling).offsets, [u32::MAX, 4, 3, 2, 1, 0]);
        assert_eq!(asked(b"a\r", Order::Fro).offsets, [0, u32::MAX, 1, 4, 2, 3]);
        assert_eq!(asked(b"a", Order::Fro).offsets, [0, u32::MAX, 1, 3, 2]);
        let mut mixed = asked(b"a\r", Order::Mixed).offsets;
        mixed.sort_unstable();
        assert_eq!(mixed, rising);
    }

    #[test]
    fn offsets_of_long_sources_rise() {
        let source = b"begin\r\n )\radd ".repeat(90);
        let offsets = asked(&source, Order::Rising).offsets;
        assert!(offsets.is_sorted() && offsets.len() > 100);
        assert!(Order::ALL.contains(&Order::chosen(&source)));
        assert_ne!(Order::other(&source), Order::Rising);
    }
}
