//! Slices of which some are too short.

use corpus::{
    random::Random,
    rooms::{Needs, Plan},
};
use reference::Rooms;

/// How much longer than needed a slice may be.
const MORE: usize = 3;

/// The corpus' odd plans, or any lengths up to a few more than needed.
pub fn short(random: &mut Random, needs: Needs) -> Rooms {
    if random.one_in(2) {
        return Plan::odd(random).rooms(needs);
    }
    // Most slices are long enough, so that refusals of every number occur.
    let mut length = |need: usize| {
        if random.one_in(4) { random.below(need + 1) } else { need + random.below(MORE + 1) }
    };
    Rooms {
        counts: length(3),
        token_kinds: length(needs.tokens),
        token_ends: length(needs.tokens),
        events: length(needs.events),
        messages: length(needs.diagnostics),
        starts: length(needs.diagnostics),
        ends: length(needs.diagnostics),
    }
}
