//! Makes memories: numbers of every kind that binary64 has, given by bits.

use crate::random::Random;

const SIGN: u64 = 1 << 63;
const INFINITY: u64 = 0x7FF0_0000_0000_0000;
const QUIET: u64 = 1 << 51;
const FRACTION: u64 = (1 << 52) - 1;

/// `length` numbers drawn from all kinds, the common ones more often, so that
/// a memory does not soon hold nothing but stored results that are no numbers.
pub fn any(random: &mut Random, length: usize) -> Vec<f64> {
    let wild = random.below(4);
    (0..length)
        .map(|_| if random.below(4) < wild { special(random) } else { plain(random) })
        .collect()
}

/// Small whole numbers and fractions of either sign.
fn plain(random: &mut Random) -> f64 {
    let whole = random.between(-1_000, 1_000) as f64;
    whole / random.pick(&[1.0, 1.0, 2.0, 3.0, 7.0])
}

fn special(random: &mut Random) -> f64 {
    let sign = if random.chance(1, 2) { SIGN } else { 0 };
    let drawn = random.draw();
    let payload = (drawn & (QUIET - 1)).max(1);
    let bits = match random.below(8) {
        0 => 0,
        1 => INFINITY,
        2 => INFINITY | QUIET | payload,
        3 => INFINITY | payload,
        4 => (drawn & FRACTION).max(1),
        5 => random.pick(&[1, FRACTION, FRACTION + 1, INFINITY - 1, INFINITY | QUIET]),
        _ => drawn,
    };
    f64::from_bits(sign | bits)
}

/// Every element its own index within the whole memory's array.
pub fn own_index(lengths: &[u32]) -> Vec<f64> {
    lengths.iter().flat_map(|&length| (0..length).map(f64::from)).collect()
}

/// The bits, since numbers that are none never compare equal.
pub fn bits(memory: &[f64]) -> Vec<u64> {
    memory.iter().map(|number| number.to_bits()).collect()
}
