//! Tables of the known results, typed byte by byte or record by record.

use crate::encoder::Encoder;

/// The 61 bytes of the example of the listing.
pub const EXAMPLE: [u8; 61] = [
    1, 12, 0, 0, 0, // array 0, 12 elements
    1, 12, 0, 0, 0, // array 1
    1, 12, 0, 0, 0, // array 2
    2, 1, 0, 0, 0, 10, 0, 0, 0, 0, 0, 0, // loop 0, 1 to 10, stores A0[i]
    3, 1, 0, 0, // A1[i]
    4, 1, 0, 0, 0, // 1
    5, 1, // add
    2, 1, 0, 0, 0, 10, 0, 0, 0, 2, 0, 0, // loop 1, 1 to 10, stores A2[i]
    3, 0, 0xFF, 0xFF, // A0[i-1]
    3, 0, 1, 0, // A0[i+1]
    5, 1, // add
    6, // end
];

/// One loop of two statements, and one iteration: 42 bytes.
pub const TWO_STATEMENTS: [u8; 42] = [
    1, 5, 0, 0, 0, // array 0, 5 elements
    1, 5, 0, 0, 0, // array 1
    2, 4, 0, 0, 0, 4, 0, 0, 0, 0, 0, 0, // loop 0, 4 to 4, stores A0[i]
    3, 1, 0xFF, 0xFF, // A1[i-1]
    4, 9, 0, 0, 0, // 9
    5, 1, // add
    7, 1, 0, 0, // and then stores A1[i]
    3, 0, 0, 0, // A0[i]
    6, // end
];

/// 1 to 10, A0 of 21 elements, A0[i] = A0[i + offset].
pub fn reads_own_array(offset: i16) -> Vec<u8> {
    Encoder::new().array(21).a_loop(1, 10, 0, 0).read(0, offset).end().bytes
}

/// What the listing program writes for the example and two processors.
pub const EXAMPLE_LISTING: &str = "\
loop 0 0 0
loop 1 1 1
block 0 1 5
block 1 6 10
fused 0 0 1 5
fused 0 1 1 4
fused 1 0 6 10
fused 1 1 7 10
peeled 0 1 5 6
sweeps 6 5
";

/// The listing of the same table and two processors for lines of four
/// iterations: 1 to 4, 5 to 8, and the begun 9 to 10.
pub const EXAMPLE_LINES_OF_4: &str = "\
loop 0 0 0
loop 1 1 1
block 0 1 8
block 1 9 10
fused 0 0 1 8
fused 0 1 1 7
fused 1 0 9 10
fused 1 1 10 10
peeled 0 1 8 9
sweeps 6 5
";

/// For so many processors and lines of so many iterations the first and the
/// last index of each block, or the ground.
pub type Aligned = (u32, u32, Result<&'static [(u32, u32)], u64>);

/// The example's. Its indices are 1 to 10, its threshold is 2.
pub const EXAMPLE_ALIGNED: [Aligned; 20] = [
    (1, 4, Ok(&[(1, 10)])),
    (2, 4, Ok(&[(1, 8), (9, 10)])),
    (3, 4, Ok(&[(1, 4), (5, 8), (9, 10)])),
    // Three lines.
    (4, 4, Err(11)),
    // Four lines, two each.
    (2, 3, Ok(&[(1, 6), (7, 10)])),
    // A last block of 10 alone.
    (3, 3, Err(11)),
    (4, 3, Err(11)),
    (2, 9, Err(11)),
    // Five lines.
    (3, 2, Ok(&[(1, 4), (5, 8), (9, 10)])),
    (4, 2, Ok(&[(1, 4), (5, 6), (7, 8), (9, 10)])),
    (5, 2, Ok(&[(1, 2), (3, 4), (5, 6), (7, 8), (9, 10)])),
    (6, 2, Err(11)),
    (2, 8, Ok(&[(1, 8), (9, 10)])),
    // One line.
    (1, 64, Ok(&[(1, 10)])),
    (2, 64, Err(11)),
    (1, 0, Err(17)),
    (1, 65, Err(17)),
    // 17 before 11, and 10 before 17.
    (6, u32::MAX, Err(17)),
    (0, 0, Err(10)),
    (65, 65, Err(10)),
];

/// Those of `ten_indices`, 0 to 9, of which the threshold is 0.
pub const TEN_ALIGNED: [Aligned; 7] = [
    (2, 3, Ok(&[(0, 5), (6, 9)])),
    (3, 3, Ok(&[(0, 5), (6, 8), (9, 9)])),
    (4, 3, Ok(&[(0, 2), (3, 5), (6, 8), (9, 9)])),
    (5, 3, Err(11)),
    (2, 9, Ok(&[(0, 8), (9, 9)])),
    (2, 10, Err(11)),
    (11, 0, Err(17)),
];

/// A plan by hand as shift and peel of each loop, the number of processors,
/// and the plan's threshold or the answer.
pub type ByHand = (&'static [(u32, u32)], u32, Result<u64, [u64; 4]>);

/// Plans by hand for the example, of which loop 1 reads what loop 0 stores one
/// index before and one behind.
pub const EXAMPLE_BY_HAND: [ByHand; 22] = [
    (&[(0, 0), (1, 1)], 1, Ok(2)),
    (&[(0, 0), (1, 1)], 5, Ok(2)),
    (&[(0, 0), (1, 1)], 6, Err([11, 0, 0, 0])),
    // Five indices a block.
    (&[(0, 0), (2, 3)], 2, Ok(5)),
    (&[(0, 0), (3, 3)], 2, Err([11, 0, 0, 0])),
    (&[(3, 2), (4, 3)], 2, Err([11, 0, 0, 0])),
    (&[(2, 0), (3, 4)], 1, Ok(7)),
    (&[(2, 0), (3, 4)], 2, Err([11, 0, 0, 0])),
    // The threshold is of loop 0.
    (&[(9, 0), (10, 1)], 1, Ok(11)),
    (&[(0, 4), (1, 5)], 1, Ok(6)),
    (&[(9_999, 9_999), (10_000, 10_000)], 1, Ok(20_000)),
    // One below in the shift, in the peel, and by much.
    (&[(3, 2), (3, 3)], 1, Err([20, 0, 1, 0])),
    (&[(0, 1), (1, 1)], 1, Err([20, 0, 1, 0])),
    (&[(10_000, 0), (10_000, 1)], 1, Err([20, 0, 1, 0])),
    (&[(0, 0), (10_001, 1)], 1, Err([19, 0, 0, 0])),
    (&[(0, 10_001), (1, 1)], 1, Err([19, 0, 0, 0])),
    (&[(0, 0), (1, u32::MAX)], 1, Err([19, 0, 0, 0])),
    (&[(0, 0)], 1, Err([19, 0, 0, 0])),
    (&[], 1, Err([19, 0, 0, 0])),
    (&[(0, 0), (1, 1), (1, 1)], 1, Err([19, 0, 0, 0])),
    // 19 and 20 before 10.
    (&[(0, 0)], 0, Err([19, 0, 0, 0])),
    (&[(0, 0), (0, 1)], 65, Err([20, 0, 1, 0])),
];

/// The example with the plan 0 0, 2 3 for two processors.
pub const EXAMPLE_BY_HAND_LISTING: &str = "\
loop 0 0 0
loop 1 2 3
block 0 1 5
block 1 6 10
fused 0 0 1 5
fused 0 1 1 3
fused 1 0 6 10
fused 1 1 9 10
peeled 0 1 4 8
sweeps 6 5
";

/// Four loops with dependences from loop 1 to loop 2 and from loop 0 to loop
/// 3, both of the backward amount 1.
pub fn crossed() -> Vec<u8> {
    loops_reading(&[&[], &[], &[(1, 1)], &[(0, 1)]])
}

/// Plans by hand for these.
pub const CROSSED_BY_HAND: [ByHand; 6] = [
    (&[(0, 0), (0, 0), (1, 0), (1, 0)], 1, Ok(1)),
    // Of two pairs that of the lowest earlier loop, though 2 is the lower
    // later one.
    (&[(0, 0), (0, 0), (0, 0), (0, 0)], 1, Err([20, 0, 3, 0])),
    (&[(0, 0), (0, 0), (0, 0), (1, 0)], 1, Err([20, 1, 2, 0])),
    (&[(5, 0), (0, 0), (1, 0), (5, 0)], 1, Err([20, 0, 3, 0])),
    (&[(0, 2), (0, 0), (1, 0), (1, 1)], 1, Err([20, 0, 3, 0])),
    // No loop but 2 depends on loop 1.
    (&[(0, 0), (7, 9), (8, 9), (1, 0)], 1, Ok(17)),
];

/// Loops over 10 to 49 and arrays of 60: loop k stores array k and reads what
/// `reads` gives for it, summed.
pub fn loops_reading(reads: &[&[(u8, i16)]]) -> Vec<u8> {
    let mut encoder = Encoder::new().repeat(reads.len() + 1, |e| e.array(60));
    for (k, row) in reads.iter().enumerate() {
        encoder = encoder.a_loop(10, 49, k as u8, 0).constant(0);
        for &(array, offset) in row.iter() {
            encoder = encoder.read(array, offset).operation(1);
        }
    }
    encoder.end().bytes
}

/// Three loops, each reading the last one's array at -1 and +1.
pub fn three_loops() -> Vec<u8> {
    loops_reading(&[&[(3, 0)], &[(0, -1), (0, 1)], &[(1, -1), (1, 1)]])
}

/// A dependence of distance -1, then one of distance 0.
pub fn backward_then_zero() -> Vec<u8> {
    loops_reading(&[&[(3, 0)], &[(0, 1)], &[(1, 0)]])
}

/// Loop 0 reads A1[i+2], loop 1 stores A1[i].
pub fn store_follows_read() -> Vec<u8> {
    loops_reading(&[&[(1, 2)], &[(2, 0)]])
}

/// Shift 3, peel 0 in one loop; shift 0, peel 2 in another.
pub fn shift_here_peel_there() -> Vec<u8> {
    loops_reading(&[&[], &[(0, 3)], &[], &[(2, -2)]])
}

/// Loop 0 from 1 to `last` stores A0[i]; loop 1 from 5 to 9 reads A0[i+2].
pub fn two_ahead(last: u32) -> Vec<u8> {
    let encoder = Encoder::new().array(12).array(12).a_loop(1, last, 0, 0).constant(1);
    encoder.a_loop(5, 9, 1, 0).read(0, 2).end().bytes
}

/// What the listing program writes for these loops and three processors, where
/// they never meet (6) and where they do (7).
pub const TWO_AHEAD_LISTINGS: [(u32, &str); 2] = [
    (
        6,
        "\
loop 0 0 0
loop 1 0 0
block 0 1 3
block 1 4 6
block 2 7 9
fused 0 0 1 3
fused 1 0 4 6
fused 1 1 5 6
fused 2 1 7 9
sweeps 5 4
",
    ),
    (
        7,
        "\
loop 0 0 0
loop 1 2 0
block 0 1 3
block 1 4 6
block 2 7 9
fused 0 0 1 3
fused 1 0 4 6
fused 2 0 7 7
fused 2 1 7 9
peeled 1 1 5 6
sweeps 5 4
",
    ),
];

/// The mirror of it: loop 0 from 5 to 9 stores A0[i]; loop 1 from 2 to `last`
/// reads A0[i-2].
pub fn two_behind(last: u32) -> Vec<u8> {
    let encoder = Encoder::new().array(12).array(12).a_loop(5, 9, 0, 0).constant(1);
    encoder.a_loop(2, last, 1, 0).read(0, -2).end().bytes
}

/// One loop over ten indices, threshold 0.
pub fn ten_indices() -> Vec<u8> {
    Encoder::new().array(10).a_loop(0, 9, 0, 0).constant(4).end().bytes
}
