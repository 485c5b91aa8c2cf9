//! Lengths of a cache line that are worth asking a plan for.

use crate::random::Random;

/// A length in range, short ones more often, and the ends of the range.
pub fn good(random: &mut Random) -> u32 {
    match random.below(8) {
        0 => random.pick(&[1, 2, 63, 64]),
        1 => 1,
        2 | 3 => random.between(1, 64) as u32,
        _ => random.small(1, 16) as u32,
    }
}

/// One out of range: the numbers next to it, large ones, and some that agree
/// with a length in range in their low bytes alone.
pub fn bad(random: &mut Random) -> u32 {
    match random.below(3) {
        0 => random.pick(&[0, 65]),
        1 => random.pick(&[66, 127, 128, 255, 1 << 31, u32::MAX]),
        _ => good(random) + random.pick(&[1 << 8, 1 << 16, 1 << 24, 1 << 31]),
    }
}

/// Mostly one in range.
pub fn any(random: &mut Random) -> u32 {
    if random.chance(1, 8) {
        bad(random)
    } else {
        good(random)
    }
}
