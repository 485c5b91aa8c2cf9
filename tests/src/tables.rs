//! Makes random tables that break none of the grounds 1 to 8, and none of
//! ground 9 unless that is asked for.

use crate::bodies::{self, Setting};
use crate::random::Random;
use crate::table::*;

/// The most that a made table may have of each thing.
#[derive(Clone, Copy)]
pub struct Shape {
    pub arrays: i64,
    pub loops: i64,
    /// Of a loop; above four, tables are made that are refused for it.
    pub statements: i64,
    pub items: i64,
    /// The longest array.
    pub length: i64,
    /// The largest offset on either side of 0.
    pub offset: i64,
    /// Whether iterations of one loop may meet (ground 9).
    pub serial: bool,
}

/// Few of everything: most mistakes show in small tables.
pub const SMALL: Shape =
    Shape { arrays: 3, loops: 3, statements: 4, items: 8, length: 24, offset: 4, serial: false };

pub const MIDDLE: Shape = Shape {
    arrays: 8,
    loops: 8,
    statements: 4,
    items: 16,
    length: 600,
    offset: 255,
    serial: false,
};

/// Every size up to a table's limits.
pub const LARGE: Shape = Shape {
    arrays: 16,
    loops: 16,
    statements: 4,
    items: 32,
    length: 65_536,
    offset: 255,
    serial: false,
};

/// A table whose loops have bounds of their own.
pub fn any(random: &mut Random, shape: &Shape) -> Table {
    let arrays = lengths(random, shape);
    over(random, shape, &arrays)
}

/// The same over arrays that are given.
pub fn over(random: &mut Random, shape: &Shape, arrays: &[u32]) -> Table {
    let loops = size(random, shape.loops);
    loops_over(random, shape, arrays, loops)
}

/// The same with a count of loops that is given too.
pub fn loops_over(random: &mut Random, shape: &Shape, arrays: &[u32], count: usize) -> Table {
    Table {
        arrays: arrays.to_vec(),
        loops: (0..count).map(|_| a_loop(random, shape, arrays)).collect(),
    }
}

/// A number from 1 to `most`: sometimes the limit itself, mostly small.
fn size(random: &mut Random, most: i64) -> usize {
    if random.chance(1, 8) {
        most as usize
    } else {
        random.small(1, most) as usize
    }
}

/// The total stays within its limit because each array leaves one element
/// for each array still to come.
fn lengths(random: &mut Random, shape: &Shape) -> Vec<u32> {
    let count = size(random, shape.arrays);
    let mut left = MOST_ELEMENTS as i64;
    (0..count)
        .map(|done| {
            let most = shape.length.min(left - (count - done - 1) as i64);
            let length = size(random, most) as i64;
            left -= length;
            length as u32
        })
        .collect()
}

/// The elements that the loop stores are drawn first; the bounds follow from
/// them and the offset.
fn a_loop(random: &mut Random, shape: &Shape, arrays: &[u32]) -> Loop {
    let array = random.below(arrays.len());
    let end = i64::from(arrays[array]) - 1;
    let (low, high) = stored_range(random, end);
    let offset = random.between(-shape.offset, shape.offset.min(low));
    let destination = Reference { array: array as u8, offset: offset as i16 };
    with_body(random, shape, arrays, ((low - offset) as u32, (high - offset) as u32), destination)
}

fn stored_range(random: &mut Random, end: i64) -> (i64, i64) {
    match random.below(4) {
        0 => (0, end),
        1 => {
            let low = random.between(0, end);
            (low, low)
        }
        _ => {
            let low = random.between(0, end);
            (low, random.between(low, end))
        }
    }
}

fn with_body(
    random: &mut Random,
    shape: &Shape,
    arrays: &[u32],
    (first, last): (u32, u32),
    destination: Reference,
) -> Loop {
    let (offset, serial) = (shape.offset, shape.serial);
    let setting = Setting { arrays, first, last, destinations: vec![destination], offset, serial };
    let statements = bodies::statements(random, shape.statements);
    let count = size(random, shape.items).max(statements);
    bodies::a_loop(random, setting, statements, count)
}

/// A table whose loops run over nearly the same indices and whose references
/// lie near the index, so that plans for several processors exist.
pub fn aligned(random: &mut Random, shape: &Shape) -> Table {
    let margin = shape.offset.min((shape.length - 1) / 2);
    let indices = random.between(1, shape.length - 2 * margin);
    let count = size(random, shape.arrays.min(MOST_ELEMENTS as i64 / shape.length));
    let arrays = vec![(indices + 2 * margin) as u32; count];
    let narrow = Shape { offset: margin, ..*shape };
    let loops = size(random, shape.loops);
    let loops = (0..loops).map(|_| aligned_loop(random, &narrow, &arrays, indices)).collect();
    Table { arrays, loops }
}

fn aligned_loop(random: &mut Random, shape: &Shape, arrays: &[u32], indices: i64) -> Loop {
    let slack = if random.chance(2, 3) { 0 } else { indices - 1 };
    let cut = random.small(0, slack);
    let front = random.between(0, cut);
    let first = shape.offset + front;
    let last = shape.offset + indices - 1 - (cut - front);
    let destination = Reference {
        array: random.below(arrays.len()) as u8,
        offset: random.between(-shape.offset, shape.offset) as i16,
    };
    with_body(random, shape, arrays, (first as u32, last as u32), destination)
}

/// A table with the most arrays, loops and items: 16 of 16 and 32 each, over
/// so many statements. Without reads and with four statements it has the most
/// bytes that a table can have, 2,353.
pub fn full(random: &mut Random, statements: usize, reads: usize, of: usize) -> Table {
    let arrays = vec![MOST_ELEMENTS as u32 / MOST_ARRAYS as u32; MOST_ARRAYS];
    let loops = 0..MOST_LOOPS;
    let loops = loops.map(|number| full_loop(random, number, statements, (reads, of))).collect();
    Table { arrays, loops }
}

/// Loop k stores array k and those behind it, and reads the others.
fn full_loop(
    random: &mut Random,
    number: usize,
    statements: usize,
    (reads, of): (usize, usize),
) -> Loop {
    let array = |after: usize| ((number + after) % MOST_ARRAYS) as u8;
    let at = |random: &mut Random, after| Reference {
        array: array(after),
        offset: random.between(-8, 8) as i16,
    };
    let operand = |random: &mut Random| {
        if random.chance(reads, of) {
            let after = statements + random.below(MOST_ARRAYS - statements);
            Item::Read(at(random, after))
        } else {
            Item::Constant(random.draw() as u32)
        }
    };
    let bodies = bodies::full(random, statements, operand).into_iter().enumerate();
    let statements =
        bodies.map(|(after, items)| Statement { destination: at(random, after), items }).collect();
    Loop { first: 8, last: 16_000, statements }
}

#[cfg(test)]
mod tests {
    use super::*;
    use crate::encoder::encode;
    use crate::reader::read;

    #[test]
    fn made_tables_read_back_as_they_were_made() {
        let mut random = Random::new(1);
        for shape in [SMALL, MIDDLE, LARGE] {
            for _ in 0..500 {
                let table = any(&mut random, &shape);
                assert_eq!(read(&encode(&table)), Ok(table));
                let table = aligned(&mut random, &shape);
                assert_eq!(read(&encode(&table)), Ok(table));
            }
        }
    }

    #[test]
    fn the_longest_table_has_2353_bytes() {
        let mut random = Random::new(1);
        let lengths = [1, 2, 3, 4].map(|statements| {
            let table = full(&mut random, statements, 4, 4);
            assert_eq!(read(&encode(&table)), Ok(table));
            encode(&full(&mut random, statements, 0, 4)).len()
        });
        // Two statements have one operand more and one operation fewer, which
        // is three bytes, and four for the record; three have 16 operations
        // again, of which one negates.
        assert_eq!(lengths, [2_065, 2_065 + 16 * (3 + 4), 2_065 + 16 * (3 + 8), 2_353]);
    }

    #[test]
    fn every_count_of_statements_is_made() {
        let mut random = Random::new(6);
        let five = Shape { statements: 5, ..SMALL };
        let mut counts = [0; 6];
        for _ in 0..2_000 {
            let table = any(&mut random, &five);
            let refusal = read(&encode(&table)).err();
            let most = table.loops.iter().map(|one| one.statements.len()).max().unwrap_or(0);
            assert_eq!(refusal.map(|one| one.number), (most > 4).then_some(4));
            counts[most] += 1;
        }
        assert!(counts[1..].iter().all(|&count| count > 100), "{counts:?}");
    }
}
