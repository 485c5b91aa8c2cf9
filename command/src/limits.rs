//! The ranges and limits of a table, for words about them. Whether a table keeps to them is the library's to say.

use std::ops::RangeInclusive;

pub const LENGTHS: RangeInclusive<u32> = 1..=65_536;
pub const INDICES: RangeInclusive<u32> = 0..=131_071;
pub const OFFSETS: RangeInclusive<i16> = -255..=255;
pub const KINDS: RangeInclusive<u8> = 1..=7;
pub const OPERATION_CODES: RangeInclusive<u8> = 1..=5;
pub const MOST_ARRAYS: usize = 16;
pub const MOST_LOOPS: usize = 16;
pub const MOST_STATEMENTS: usize = 4;
pub const MOST_ITEMS: usize = 32;
pub const MOST_WAITING: usize = 8;
pub const MOST_ELEMENTS: u32 = 262_144;
