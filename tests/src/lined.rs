//! Makes tables beside which the rules on lines are easily missed: so many
//! indices, and such a threshold, that one line or one index more or less
//! decides.

use crate::line_lengths;
use crate::random::Random;
use crate::settings::Settings;
use crate::table::*;

pub struct Lined {
    pub table: Table,
    pub settings: Settings,
}

/// Settings in range, mostly of few processors and never of more than `most`.
pub fn made(random: &mut Random, most: i64) -> Lined {
    let line = line_lengths::good(random);
    let processors = if random.chance(1, 6) { most } else { random.between(1, most.min(9)) };
    let settings = Settings::new(processors as u32, line);
    Lined { table: made_for(random, settings, 3), settings }
}

/// A table for these settings; its last block has so many lines at most.
pub fn made_for(random: &mut Random, settings: Settings, most: i64) -> Table {
    let (processors, line) = (settings.processors.into(), settings.line.into());
    let (indices, threshold) = match random.below(3) {
        0 => few_lines(random, processors, line),
        _ => short_last(random, processors, line, most),
    };
    two_loops(random, indices, threshold)
}

/// The same with numbers out of range at times, one or both.
pub fn any(random: &mut Random, most: i64) -> Lined {
    let mut lined = made(random, most);
    let way = random.below(12);
    if way < 4 {
        lined.settings.line = line_lengths::bad(random);
    }
    if way == 3 || way == 4 {
        lined.settings.processors = random.pick(&[0, 65, 256, u32::MAX]);
    }
    lined
}

/// As many lines as processors, one more or one fewer, and mostly threshold 0,
/// so that nothing else decides. The first number is that of the indices.
fn few_lines(random: &mut Random, processors: i64, line: i64) -> (i64, i64) {
    let lines = (processors + random.between(-1, 1)).max(1);
    let indices = lines * line - random.between(0, line - 1);
    let threshold = if random.chance(3, 4) { 0 } else { random.small(0, line) };
    (indices, threshold)
}

/// The last block has the threshold's indices, one more or one fewer, or so
/// many that it is long enough only if it is not cut.
fn short_last(random: &mut Random, processors: i64, line: i64, most: i64) -> (i64, i64) {
    let own = random.small(1, most);
    let lines = processors * own + random.between(0, processors - 1);
    let over = random.between(0, line - 1);
    let last = own * line - over;
    let threshold = match random.below(4) {
        0 => random.between(last, own * line),
        _ => last + random.between(-1, 1),
    };
    (lines * line - over, threshold)
}

/// Two loops whose shift and peel add up to the threshold. At times the least
/// first is one loop's and the greatest last the other's.
fn two_loops(random: &mut Random, indices: i64, threshold: i64) -> Table {
    let most = i64::from(MOST_OFFSET);
    let shift = random.between((threshold - most).max(0), threshold.min(most));
    let peel = threshold - shift;
    let first = peel + random.small(0, 200);
    let last = first + indices - 1;
    let apart = random.between(0, 2).min((indices - 1) / 2);
    let mut bounds = [(first, last - apart), (first + apart, last)];
    if random.chance(1, 2) {
        bounds.reverse();
    }
    shifted_and_peeled(bounds, shift, peel)
}

/// Two loops from `first` on over so many indices; the later has a shift.
pub fn over(first: i64, indices: i64, shift: i64) -> Table {
    shifted_and_peeled([(first, first + indices - 1); 2], shift, 0)
}

/// Loop 0 stores A0[i] and reads A1[i], loop 1 stores A1[i] and reads A0[i +
/// shift] and A0[i - peel].
fn shifted_and_peeled(bounds: [(i64, i64); 2], shift: i64, peel: i64) -> Table {
    let at = |array, offset: i64| Reference { array, offset: offset as i16 };
    let a_loop = |number: usize, items| {
        let (first, last) = (bounds[number].0 as u32, bounds[number].1 as u32);
        Loop::of_one(first, last, at(number as u8, 0), items)
    };
    let sum = |one, other| vec![one, other, Item::Operation(Operation::Add)];
    let front = sum(Item::Read(at(1, 0)), Item::Constant(3));
    let back = sum(Item::Read(at(0, shift)), Item::Read(at(0, -peel)));
    let last = bounds[0].1.max(bounds[1].1);
    Table {
        arrays: vec![(last + shift + 1) as u32, last as u32 + 1],
        loops: vec![a_loop(0, front), a_loop(1, back)],
    }
}

#[cfg(test)]
mod tests {
    use super::*;
    use crate::encoder::encode;
    use crate::reader::read;

    #[test]
    fn made_tables_read_back_as_they_were_made() {
        let mut random = Random::new(8);
        for _ in 0..4_000 {
            let table = any(&mut random, 64).table;
            assert_eq!(read(&encode(&table)), Ok(table));
        }
    }
}
