//! The limits at which inputs are read: those with which the reference is compiled, and numbers that are none.

use corpus::{limits::REFUSED, random::Random};
use reference::{LIMITS, MAX_CONTROL_FLOW_NESTING};

/// One input in so many has a number that is no limit.
const NONE: usize = 50;

/// The last bytes choose a number that is no limit, the others a limit.
const FIRST_OF_NONE: usize = 256 - REFUSED.len();

/// Mostly the unit's.
pub fn any(random: &mut Random) -> u64 {
    if random.one_in(NONE) {
        return random.pick(&REFUSED);
    }
    if random.one_in(2) { MAX_CONTROL_FLOW_NESTING } else { random.pick(&LIMITS) }
}

/// The one that a byte chooses.
pub fn chosen(byte: u8) -> u64 {
    let byte = usize::from(byte);
    match byte.checked_sub(FIRST_OF_NONE) {
        Some(place) => REFUSED[place],
        None => LIMITS[byte % LIMITS.len()],
    }
}

/// A byte that chooses this one.
pub fn byte(limit: u64) -> u8 {
    let found = (0..=u8::MAX).find(|byte| chosen(*byte) == limit);
    found.expect("a limit that can be chosen")
}

#[cfg(test)]
mod tests {
    use super::*;

    #[test]
    fn bytes_choose_limits() {
        for limit in LIMITS.into_iter().chain(REFUSED) {
            assert_eq!(chosen(byte(limit)), limit);
        }
        assert_eq!([0, 1, 5, 6, 255].map(chosen), [1, 2, 256, 1, u64::MAX]);
    }
}
