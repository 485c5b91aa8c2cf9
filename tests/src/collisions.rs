//! Makes tables in which iterations of a loop may meet (ground 9). Before the
//! first pair that collides stand others that do not: of other arrays, of one
//! array at the same offset, and of one array farther away than the loop is
//! long.

use crate::bodies::{self, Setting};
use crate::random::Random;
use crate::table::*;

/// What the loops of a table have in common.
struct Common {
    /// All of one length, in which every reference stays.
    arrays: Vec<u32>,
    /// The most iterations of a loop.
    most: i64,
    /// The largest offset on either side of 0.
    offset: i64,
}

/// A table of short loops, or now and then of long ones with offsets up to
/// the limit.
pub fn table(random: &mut Random) -> Table {
    if random.chance(1, 8) {
        let most = random.between(2, 600);
        with_sizes(random, most, i64::from(MOST_OFFSET))
    } else {
        short_table(random)
    }
}

/// A table whose loops have at most twelve iterations. Its offsets lie as far
/// apart, so that some references meet the store of another iteration and some
/// do not.
pub fn short_table(random: &mut Random) -> Table {
    let (most, offset) = (random.between(2, 12), random.between(1, 12));
    with_sizes(random, most, offset)
}

/// Iterations meet in no loop before one that is drawn, and in that one and
/// those behind it they may.
fn with_sizes(random: &mut Random, most: i64, offset: i64) -> Table {
    let arrays = vec![(most + 2 * offset) as u32; 1 + random.below(3)];
    let common = Common { arrays, most, offset };
    let count = 1 + random.below(5);
    let from = random.below(count);
    let loops = (0..count).map(|number| a_loop(random, &common, number >= from)).collect();
    Table { arrays: common.arrays, loops }
}

fn a_loop(random: &mut Random, common: &Common, serial: bool) -> Loop {
    let Common { arrays, most, offset } = common;
    let cut = random.small(0, most - 1);
    let front = random.between(0, cut);
    let (first, last) = ((offset + front) as u32, (offset + most - 1 - (cut - front)) as u32);
    let destination = Reference {
        array: random.below(arrays.len()) as u8,
        offset: random.between(-offset, *offset) as i16,
    };
    let destinations = vec![destination];
    let setting = Setting { arrays, first, last, destinations, offset: *offset, serial };
    let statements = bodies::statements(random, MOST_STATEMENTS as i64);
    let count = (1 + random.below(MOST_ITEMS)).max(statements);
    bodies::a_loop(random, setting, statements, count)
}
