//! Makes tables whose loops meet seldom: bounds are drawn so that a pair of
//! references has iterations that meet, only just do, only just do not, or
//! never come near each other.

use crate::bodies::{self, Setting};
use crate::random::Random;
use crate::table::*;

/// What the loops of a table have in common.
struct Common {
    /// All of one length, in which every reference stays.
    arrays: Vec<u32>,
    /// The least and the greatest index of all loops.
    low: i64,
    high: i64,
    /// The most iterations of a loop, where its bounds are not another's.
    most: i64,
    /// The largest offset on either side of 0.
    offset: i64,
}

/// Short tables mostly; at times offsets up to the limit, or indices up to
/// the highest that there can be.
pub fn table(random: &mut Random) -> Table {
    match random.below(16) {
        0 | 1 => far_table(random),
        2 => high_table(random),
        _ => short_table(random),
    }
}

/// At most forty indices and offsets next to 0.
pub fn short_table(random: &mut Random) -> Table {
    let (indices, offset) = (random.between(1, 40), random.small(1, 9));
    with_sizes(random, indices, 10, offset, 0)
}

/// Offsets up to the limit on both sides, so distances up to 510.
fn far_table(random: &mut Random) -> Table {
    let indices = random.between(400, 2_000);
    with_sizes(random, indices, 300, i64::from(MOST_OFFSET), 0)
}

/// Arrays of the greatest length; indices lie above their elements, so that
/// they go from below 65,536 to 65,790.
fn high_table(random: &mut Random) -> Table {
    let offset = random.small(0, 20);
    let moved = random.between(offset + 1, i64::from(MOST_OFFSET) - offset);
    with_sizes(random, i64::from(MOST_LENGTH) - 2 * offset, 400, offset, moved)
}

/// A table in which every index is above the elements that it reaches at
/// offset 0 by `moved`.
fn with_sizes(random: &mut Random, indices: i64, most: i64, offset: i64, moved: i64) -> Table {
    let arrays = vec![(indices + 2 * offset) as u32; 1 + random.below(4)];
    let common =
        Common { arrays, low: offset, high: offset + indices - 1, most: most.min(indices), offset };
    let count = if random.chance(1, 12) { MOST_LOOPS } else { random.between(2, 6) as usize };
    let mut loops = vec![first_loop(random, &common, moved > 0)];
    while loops.len() < count {
        let next = next_loop(random, &common, &loops);
        loops.push(next);
    }
    let loops = loops.into_iter().map(|one| lifted(one, moved)).collect();
    Table { arrays: common.arrays, loops }
}

/// The loop with its indices so much higher, at the same elements.
fn lifted(one: Loop, moved: i64) -> Loop {
    let lower = |at: Reference| Reference { offset: at.offset - moved as i16, ..at };
    let item = |item| match item {
        Item::Read(read) => Item::Read(lower(read)),
        other => other,
    };
    let statement = |one: Statement| Statement {
        destination: lower(one.destination),
        items: one.items.into_iter().map(item).collect(),
    };
    let statements = one.statements.into_iter().map(statement).collect();
    Loop { first: one.first + moved as u32, last: one.last + moved as u32, statements }
}

/// Anywhere, or at the greatest indices.
fn first_loop(random: &mut Random, common: &Common, at_end: bool) -> Loop {
    let (mut first, mut last) = any_bounds(random, common);
    if at_end {
        let up = common.high - last - random.small(0, common.most.min(common.high - last));
        (first, last) = (first + up, last + up);
    }
    let destination = any_reference(random, common);
    with_bodies(random, common, (first, last), destination, None)
}

fn any_bounds(random: &mut Random, common: &Common) -> (i64, i64) {
    let length = random.small(1, common.most);
    let first = random.between(common.low, common.high - length + 1);
    (first, first + length - 1)
}

fn any_reference(random: &mut Random, common: &Common) -> Reference {
    let array = random.below(common.arrays.len()) as u8;
    Reference { array, offset: any_offset(random, common) }
}

/// Often the largest.
fn any_offset(random: &mut Random, common: &Common) -> i16 {
    let offset = match random.below(8) {
        0 => common.offset,
        1 => -common.offset,
        _ => random.between(-common.offset, common.offset),
    };
    offset as i16
}

/// A loop that has a reference to an array of an earlier one, one of the two
/// storing, and bounds that are drawn for the distance between them.
fn next_loop(random: &mut Random, common: &Common, earlier: &[Loop]) -> Loop {
    let partner = &earlier[random.below(earlier.len())];
    let reads: Vec<Reference> = partner.reads().collect();
    let stores: Vec<Reference> = partner.destinations().collect();
    let read = (!reads.is_empty() && random.chance(1, 3)).then(|| random.pick(&reads));
    let met = read.unwrap_or_else(|| random.pick(&stores));
    let own = Reference { array: met.array, offset: any_offset(random, common) };
    let distance = i64::from(met.offset) - i64::from(own.offset);
    let bounds = bounds_for(random, common, partner, distance);
    if read.is_some() || random.chance(1, 4) {
        with_bodies(random, common, bounds, own, None)
    } else {
        let destination = any_reference(random, common);
        with_bodies(random, common, bounds, destination, Some(own))
    }
}

/// Bounds of a later loop as the earlier one sees them, that is less the
/// distance: at its last iteration or just behind it, at its first or just
/// before it, inside it, around it, behind, before, or anywhere.
fn bounds_for(random: &mut Random, common: &Common, one: &Loop, distance: i64) -> (i64, i64) {
    let (first, last) = (i64::from(one.first), i64::from(one.last));
    let length = random.small(1, common.most);
    let gap = random.between(1, length + 3);
    let seen = match random.below(12) {
        0 | 1 => (last, last + length - 1),
        2 | 3 => (last + 1, last + length),
        4 | 5 => (first - length + 1, first),
        6 | 7 => (first - length, first - 1),
        8 => inside(random, first, last),
        9 => (first - gap, last + gap),
        10 => (last + gap, last + gap + length - 1),
        _ => (first - gap - length + 1, first - gap),
    };
    let bounds = ((seen.0 + distance).max(common.low), (seen.1 + distance).min(common.high));
    if bounds.0 <= bounds.1 {
        bounds
    } else {
        any_bounds(random, common)
    }
}

/// Without the first and the last, where there are others.
fn inside(random: &mut Random, first: i64, last: i64) -> (i64, i64) {
    if last - first < 2 {
        return (first, last);
    }
    let from = random.between(first + 1, last - 1);
    (from, random.between(from, last - 1))
}

/// The given destination is that of any of the loop's statements, and the given
/// read, where it meets no other iteration's store, stands in any of them.
fn with_bodies(
    random: &mut Random,
    common: &Common,
    (first, last): (i64, i64),
    destination: Reference,
    read: Option<Reference>,
) -> Loop {
    let (first, last, offset) = (first as u32, last as u32, common.offset);
    let (arrays, destinations) = (&common.arrays[..], vec![destination]);
    let setting = Setting { arrays, first, last, destinations, offset, serial: false };
    let count = bodies::statements(random, MOST_STATEMENTS as i64);
    let mut setting = bodies::with_further(random, setting, count);
    let count = setting.destinations.len();
    setting.destinations.swap(0, random.below(count));
    let read = read.filter(|&at| !setting.collides(Access { at, stores: false }));
    let with_read = random.below(count);
    let statement = |(number, &destination)| {
        let read = read.filter(|_| number == with_read);
        Statement { destination, items: short_body(random, &setting, read) }
    };
    let statements = setting.destinations.iter().enumerate().map(statement).collect();
    Loop { first, last, statements }
}

/// The given read or a constant, and a few items more at times.
fn short_body(random: &mut Random, setting: &Setting, read: Option<Reference>) -> Vec<Item> {
    let mut items = vec![read.map_or(Item::Constant(7), Item::Read)];
    for _ in 0..random.small(0, 3) {
        items.push(bodies::operand(random, setting));
        items.push(Item::Operation(Operation::Add));
    }
    items
}

#[cfg(test)]
mod tests {
    use super::*;
    use crate::encoder::encode;
    use crate::reader::read;

    #[test]
    fn made_tables_read_back_as_they_were_made() {
        let mut random = Random::new(5);
        for _ in 0..4_000 {
            let table = table(&mut random);
            assert_eq!(read(&encode(&table)), Ok(table));
        }
        for _ in 0..500 {
            let table = high_table(&mut random);
            assert_eq!(read(&encode(&table)), Ok(table));
        }
    }
}
