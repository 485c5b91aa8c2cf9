//! Damages the bytes of tables, so that every ground is met, alone and
//! together with others.

use crate::encoder::Encoder;
use crate::random::Random;
use crate::reader::body_length;
use crate::table::MOST_STATEMENTS;

pub fn change_byte(random: &mut Random, bytes: &[u8]) -> Vec<u8> {
    let mut changed = bytes.to_vec();
    let place = random.below(bytes.len());
    changed[place] = likely_byte(random);
    changed
}

pub fn insert_byte(random: &mut Random, bytes: &[u8]) -> Vec<u8> {
    let mut changed = bytes.to_vec();
    changed.insert(random.below(bytes.len() + 1), likely_byte(random));
    changed
}

pub fn remove_byte(random: &mut Random, bytes: &[u8]) -> Vec<u8> {
    let mut changed = bytes.to_vec();
    changed.remove(random.below(bytes.len()));
    changed
}

/// The front of one table, then the back of another.
pub fn splice(random: &mut Random, front: &[u8], back: &[u8]) -> Vec<u8> {
    let kept = random.below(front.len() + 1);
    let from = random.below(back.len() + 1);
    [&front[..kept], &back[from..]].concat()
}

/// The same, cut between records, so that the kinds stay in step.
pub fn splice_records(random: &mut Random, front: &[u8], back: &[u8]) -> Vec<u8> {
    let front = records(front);
    let back = records(back);
    let kept = random.below(front.len() + 1);
    let from = random.below(back.len() + 1);
    [&front[..kept], &back[from..]].concat().concat()
}

pub fn random_bytes(random: &mut Random, most: usize) -> Vec<u8> {
    let count = random.below(most + 1);
    (0..count).map(|_| random.byte()).collect()
}

/// Bytes that are mostly kinds and zeros, so that a row of them is often a
/// row of records.
pub fn mostly_kinds(random: &mut Random, most: usize) -> Vec<u8> {
    let count = random.below(most + 1);
    (0..count).map(|_| likely_byte(random)).collect()
}

fn likely_byte(random: &mut Random) -> u8 {
    match random.below(8) {
        0..=3 => random.pick(&[1, 2, 3, 4, 5, 6, 7]),
        4 | 5 => 0,
        6 => random.pick(&[8, 9, 15, 16, 17, 127, 128, 254, 255]),
        _ => random.byte(),
    }
}

/// The records of a table, each with its kind byte. A last record that is cut
/// short is kept as it is.
pub fn records(bytes: &[u8]) -> Vec<Vec<u8>> {
    let mut rows = Vec::new();
    let mut at = 0;
    while at < bytes.len() {
        let after = (at + 1 + body_length(bytes[at])).min(bytes.len());
        rows.push(bytes[at..after].to_vec());
        at = after;
    }
    rows
}

/// Drops, doubles, moves or swaps whole records.
pub fn rearrange(random: &mut Random, bytes: &[u8]) -> Vec<u8> {
    let mut rows = records(bytes);
    let from = random.below(rows.len());
    let to = random.below(rows.len());
    match random.below(4) {
        0 => {
            rows.remove(from);
        }
        1 => rows.insert(to, rows[from].clone()),
        2 => {
            let row = rows.remove(from);
            rows.insert(to, row);
        }
        _ => rows.swap(from, to),
    }
    rows.concat()
}

/// Makes one array, loop, item or statement too many, by the same one over and
/// over: an array, a loop with its bodies, negations behind an item, or a
/// further statement with its body.
pub fn crowd(random: &mut Random, bytes: &[u8]) -> Vec<u8> {
    let mut rows = records(bytes);
    let from = random.below(rows.len());
    let (after, more) = match rows[from][0] {
        2 => with_items(&rows, from, |kind| matches!(kind, 3..=5 | 7), 16),
        7 => with_items(&rows, from, |kind| matches!(kind, 3..=5), MOST_STATEMENTS),
        3..=5 => (from + 1, [5, 5].repeat(32)),
        _ => (from, rows[from].repeat(16)),
    };
    rows.insert(after, more);
    rows.concat()
}

/// Where the records behind the one at `from` that belong to it end, and all of
/// them so many times over.
fn with_items(
    rows: &[Vec<u8>],
    from: usize,
    belongs: fn(u8) -> bool,
    times: usize,
) -> (usize, Vec<u8>) {
    let items = rows[from + 1..].iter().take_while(|row| belongs(row[0])).count();
    (from + items + 1, rows[from..=from + items].concat().repeat(times))
}

/// Puts a further statement between two records, mostly behind an item: with a
/// body or without, at times with fields outside their ranges, at times cut
/// short, where the bytes end.
pub fn statement(random: &mut Random, bytes: &[u8]) -> Vec<u8> {
    let mut rows = records(bytes);
    let items: Vec<usize> = (0..rows.len()).filter(|&at| matches!(rows[at][0], 3..=5)).collect();
    let behind = !items.is_empty() && random.chance(7, 8);
    let place = if behind { random.pick(&items) + 1 } else { random.below(rows.len() + 1) };
    let near = random.between(-9, 9) as i16;
    let own = [random.below(3) as u8, near.to_le_bytes()[0], near.to_le_bytes()[1]];
    let (array, offset) = reference(random, &own);
    let mut row = Encoder::new().statement(array, offset);
    match random.below(4) {
        0 => {
            row.bytes.truncate(1 + random.below(3));
            rows.truncate(place);
        }
        1 => {}
        _ => row = row.constant(5),
    }
    rows.insert(place, row.bytes);
    rows.concat()
}

/// Gives one record fields at or near their limits. Several fields change at
/// once often enough that the order of the grounds shows.
pub fn field(random: &mut Random, bytes: &[u8]) -> Vec<u8> {
    let mut rows = records(bytes);
    let place = random.below(rows.len());
    let kind = rows[place][0];
    if rows[place].len() != 1 + body_length(kind) {
        return bytes.to_vec();
    }
    let row = match kind {
        1 => Encoder::new().array(length(random)),
        2 => a_loop(random, &rows[place]),
        3 => {
            let (array, offset) = reference(random, &rows[place][1..4]);
            Encoder::new().read(array, offset)
        }
        7 => {
            let (array, offset) = reference(random, &rows[place][1..4]);
            Encoder::new().statement(array, offset)
        }
        4 => Encoder::new().constant(random.draw() as u32),
        5 => Encoder::new().operation(random.pick(&[0, 1, 2, 3, 4, 5, 6, 255])),
        _ => Encoder::new().raw(&[kind, likely_byte(random)]),
    };
    rows[place] = row.bytes;
    rows.concat()
}

fn length(random: &mut Random) -> u32 {
    random.pick(&[0, 1, 2, 255, 65_535, 65_536, 65_537, 131_072, u32::MAX])
}

fn a_loop(random: &mut Random, row: &[u8]) -> Encoder {
    let mut first = u32::from_le_bytes([row[1], row[2], row[3], row[4]]);
    let mut last = u32::from_le_bytes([row[5], row[6], row[7], row[8]]);
    if random.chance(1, 3) {
        first = random.pick(&[0, 1, last, last.wrapping_add(1), 131_071, 131_072, u32::MAX]);
    }
    if random.chance(1, 3) {
        last = random.pick(&[0, first, first.wrapping_sub(1), 131_071, 131_072, u32::MAX]);
    }
    let (array, offset) = reference(random, &row[9..12]);
    Encoder::new().a_loop(first, last, array, offset)
}

fn reference(random: &mut Random, field: &[u8]) -> (u8, i16) {
    let mut array = field[0];
    let mut offset = i16::from_le_bytes([field[1], field[2]]);
    if random.chance(1, 3) {
        array = random.pick(&[0, 1, 2, 3, 15, 16, 17, 255]);
    }
    if random.chance(1, 3) {
        let near = offset.wrapping_add(random.pick(&[-1, 1]));
        offset = random.pick(&[near, near, -256, -255, 255, 256, i16::MIN, i16::MAX]);
    }
    (array, offset)
}
