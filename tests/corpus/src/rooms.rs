//! Rooms for a case, stated by what the source needs.

use reference::{MAX_SOURCE, Reading, Rooms};

use crate::random::Random;

/// One slice's length.
#[derive(Debug, Clone, Copy, PartialEq, Eq)]
pub enum Room {
    /// A few more than needed, so that untouched places are seen.
    Ample,
    Exact,
    OneLess,
    Half,
    Zero,
    One,
}

/// Every slice's length.
#[derive(Debug, Clone, Copy, PartialEq, Eq)]
pub struct Plan {
    pub counts: usize,
    pub token_kinds: Room,
    pub token_ends: Room,
    pub events: Room,
    pub messages: Room,
    pub starts: Room,
    pub ends: Room,
}

/// How many tokens, events and diagnostics there are; none after the source is refused.
#[derive(Debug, Clone, Copy, Default, PartialEq, Eq)]
pub struct Needs {
    pub tokens: usize,
    pub events: usize,
    pub diagnostics: usize,
}

impl Needs {
    pub fn of(reading: &Reading) -> Self {
        let tokens = reading.tokens().len();
        match reading {
            Reading::Parsed(parsed) => {
                Self { tokens, events: parsed.events.len(), diagnostics: parsed.diagnostics.len() }
            },
            _ => Self { tokens, ..Self::default() },
        }
    }
}

impl Room {
    fn length(self, need: usize) -> usize {
        match self {
            Self::Ample => need + 3,
            Self::Exact => need,
            Self::OneLess => need.saturating_sub(1),
            Self::Half => need / 2,
            Self::Zero => 0,
            Self::One => 1,
        }
    }
}

impl Plan {
    pub const AMPLE: Self = Self {
        counts: 4,
        token_kinds: Room::Ample,
        token_ends: Room::Ample,
        events: Room::Ample,
        messages: Room::Ample,
        starts: Room::Ample,
        ends: Room::Ample,
    };

    pub const EXACT: Self = Self {
        counts: 3,
        token_kinds: Room::Exact,
        token_ends: Room::Exact,
        events: Room::Exact,
        messages: Room::Exact,
        starts: Room::Exact,
        ends: Room::Exact,
    };

    /// Ample but for the tokens, or the events, or the diagnostics, or anything at all.
    pub fn odd(random: &mut Random) -> Self {
        let all = [Room::Ample, Room::Exact, Room::OneLess, Room::Half, Room::Zero, Room::One];
        let mut plan = Self::AMPLE;
        let part = random.below(5);
        if part == 0 || part == 4 {
            (plan.token_kinds, plan.token_ends) = (random.pick(&all), random.pick(&all));
        }
        if part == 1 || part == 4 {
            plan.events = random.pick(&all);
        }
        if part == 2 || part == 4 {
            plan.messages = random.pick(&all);
            (plan.starts, plan.ends) = (random.pick(&all), random.pick(&all));
        }
        if part == 3 {
            plan.counts = random.below(5);
        }
        plan
    }

    /// Ample but for one slice, at each of its lengths; and all slices exact.
    pub fn each() -> Vec<Self> {
        let lengths = [Room::Zero, Room::One, Room::OneLess, Room::Exact];
        let short = lengths.into_iter().flat_map(|room| {
            [
                Self { token_kinds: room, ..Self::AMPLE },
                Self { token_ends: room, ..Self::AMPLE },
                Self { events: room, ..Self::AMPLE },
                Self { messages: room, ..Self::AMPLE },
                Self { starts: room, ..Self::AMPLE },
                Self { ends: room, ..Self::AMPLE },
            ]
        });
        short.chain([Self::EXACT]).collect()
    }

    /// Up to three counts, with room enough for the rest and with none.
    pub fn with_few_counts() -> Vec<Self> {
        let none = Self {
            counts: 0,
            token_kinds: Room::Zero,
            token_ends: Room::Zero,
            events: Room::Zero,
            messages: Room::Zero,
            starts: Room::Zero,
            ends: Room::Zero,
        };
        let plans = [Self::AMPLE, none].into_iter();
        plans.flat_map(|plan| (0..=3).map(move |counts| Self { counts, ..plan })).collect()
    }

    /// The lengths; no slice is longer than the largest source can fill.
    pub fn rooms(&self, needs: Needs) -> Rooms {
        let tokens = |room: Room| room.length(needs.tokens).min(MAX_SOURCE);
        let diagnostics = |room: Room| room.length(needs.diagnostics);
        Rooms {
            counts: self.counts,
            token_kinds: tokens(self.token_kinds),
            token_ends: tokens(self.token_ends),
            events: self.events.length(needs.events),
            messages: diagnostics(self.messages),
            starts: diagnostics(self.starts),
            ends: diagnostics(self.ends),
        }
    }
}
