//! Numbers of processors that are worth asking a plan for.

use crate::blocks::{indices, lines, MOST_PROCESSORS};
use crate::planner::{amounts, threshold};
use crate::random::Random;
use crate::table::Table;

/// The largest number for which the table has a plan with lines of this
/// length, by division alone. The last block has the fewest lines, L / P, and
/// lacks the indices by which the last line goes beyond the greatest last.
pub fn most(table: &Table, line: u32) -> u32 {
    most_with(table, line, threshold(&amounts(table)))
}

/// The same for a plan by hand with this threshold.
pub fn most_with(table: &Table, line: u32, threshold: i64) -> u32 {
    let indices = indices(table);
    let lines = lines(indices, line);
    let line = i64::from(line);
    let needed = threshold + lines * line - indices.count();
    let least = ((needed + line - 1) / line).max(1);
    (lines / least).clamp(1, i64::from(MOST_PROCESSORS)) as u32
}

/// Any number that one byte can hold, and now and then one that only agrees
/// with an allowed number in its low bytes.
pub fn any(random: &mut Random) -> u32 {
    match random.below(10) {
        0 => random.pick(&[0, 1, 63, 64, 65, 255]),
        1 => random.pick(&[256, 257, 258, 65_537, 0x0100_0002, 0x8000_0001, u32::MAX]),
        2..=4 => random.between(0, 255) as u32,
        _ => random.small(1, 64) as u32,
    }
}

#[cfg(test)]
mod tests {
    use super::*;
    use crate::blocks::plan;
    use crate::line_lengths;
    use crate::lined;
    use crate::settings::Settings;
    use crate::tables::{self, SMALL};

    #[test]
    fn the_next_number_has_no_plan() {
        let mut random = Random::new(4);
        for number in 0..4_000 {
            let table = match number % 2 {
                0 => tables::aligned(&mut random, &SMALL),
                _ => lined::made(&mut random, 9).table,
            };
            let line = line_lengths::good(&mut random);
            let most = most(&table, line);
            assert!(plan(&table, Settings::new(most, line)).is_ok());
            assert!(plan(&table, Settings::new(most + 1, line)).is_err());
        }
    }
}
