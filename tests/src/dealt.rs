//! Blocks found by dealing lines out one by one, and by the rule that there
//! was before lines: two ways that the planners have not.

use crate::blocks::Range;
use crate::settings::Settings;

/// The indices of each block: the lines of an index row are dealt out to the
/// blocks in turn, which tells how many each has, and are then handed over in
/// their order. The row ends at the greatest last, so the last line may be
/// short. With fewer lines than blocks some blocks have no index.
pub fn blocks(indices: Range, settings: Settings) -> Vec<Vec<i64>> {
    let row: Vec<i64> = (indices.a..=indices.e).collect();
    let mut lines = row.chunks(settings.line as usize);
    let mut shares = vec![0; settings.processors as usize];
    let turns = (0..shares.len()).cycle();
    lines.clone().zip(turns).for_each(|(_, b)| shares[b] += 1);
    shares.iter().map(|&own| lines.by_ref().take(own).flatten().copied().collect()).collect()
}

/// The same blocks as ranges, where each of them has an index.
pub fn ranges(indices: Range, settings: Settings) -> Option<Vec<Range>> {
    let ends = |block: &Vec<i64>| Some(Range { a: *block.first()?, e: *block.last()? });
    blocks(indices, settings).iter().map(ends).collect()
}

/// The rule before lines: the first (T mod P) blocks have one index more.
pub fn by_iterations(indices: Range, processors: u32) -> Vec<Range> {
    let count = i64::from(processors);
    let (least, longer) = (indices.count() / count, indices.count() % count);
    let mut a = indices.a;
    (0..count)
        .map(|b| {
            let size = least + i64::from(b < longer);
            let block = Range { a, e: a + size - 1 };
            a += size;
            block
        })
        .collect()
}

#[cfg(test)]
mod tests {
    use super::*;
    use crate::blocks::{indices, plan};
    use crate::line_lengths;
    use crate::lined;
    use crate::planner::{amounts, threshold};
    use crate::random::Random;
    use crate::table::Table;
    use crate::tables::{self, SMALL};

    fn any_table(random: &mut Random) -> Table {
        match random.below(3) {
            0 => tables::any(random, &SMALL),
            1 => tables::aligned(random, &SMALL),
            _ => lined::made(random, 9).table,
        }
    }

    /// The blocks that were dealt, or 11.
    fn wanted(table: &Table, settings: Settings) -> Result<Vec<Range>, u64> {
        let blocks = ranges(indices(table), settings).ok_or(11u64)?;
        let least = threshold(&amounts(table));
        let short = blocks.iter().any(|block| block.count() < least);
        if settings.processors >= 2 && short {
            return Err(11);
        }
        Ok(blocks)
    }

    #[test]
    fn the_second_planner_deals_the_same() {
        let mut random = Random::new(6);
        let mut accepted = 0;
        for _ in 0..20_000 {
            let table = any_table(&mut random);
            let settings =
                Settings::new(random.small(1, 12) as u32, line_lengths::good(&mut random));
            let found = plan(&table, settings).map(|plan| plan.blocks).map_err(|one| one.number);
            assert_eq!(found, wanted(&table, settings), "{settings:?}");
            accepted += u32::from(found.is_ok());
        }
        assert!(accepted > 4_000, "{accepted}");
    }

    #[test]
    fn lines_of_one_iteration_are_the_old_rule() {
        let mut random = Random::new(7);
        for _ in 0..10_000 {
            let indices = indices(&any_table(&mut random));
            let processors = random.between(1, indices.count().min(64)) as u32;
            let dealt = ranges(indices, Settings::of(processors));
            assert_eq!(dealt, Some(by_iterations(indices, processors)));
        }
    }
}
