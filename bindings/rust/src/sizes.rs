//! The header's numbers, under its names without the prefix.

/// The largest number of processors of a plan.
pub const MOST_PROCESSORS: u32 = 64;

/// The largest number of iterations that a line has.
pub const LONGEST_LINE: u32 = 64;

/// No shift and no peel of a plan by hand is above it.
pub const MOST_AMOUNT: u32 = 10_000;

/// The longest accepted table, so also the longest joined one.
pub const TABLE_BYTES: usize = 2_353;

/// No byte past these changes an answer: reading so many of a file is enough.
pub const DECIDING_BYTES: usize = 2_364;

/// Facts of 16 arrays and 16 loops.
pub const FACTS_BYTES: usize = 268;

/// Shifts and peels of 16 loops, so also of a plan by hand.
pub const AMOUNT_BYTES: usize = 128;

/// A processor's ranges in 16 loops.
pub const RANGE_BYTES: usize = 128;

/// First and last index of 64 blocks.
pub const BLOCK_BYTES: usize = 512;

/// No listing has more.
pub const LISTING_BYTES: usize = 50_000;

#[deprecated(since = "0.2.0", note = "it is TABLE_BYTES, as in C")]
pub const MOST_TABLE_BYTES: usize = TABLE_BYTES;
