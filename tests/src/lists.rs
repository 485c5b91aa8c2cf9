//! The list of iterations of each processor, before and past the barrier.

use crate::blocks::{Plan, Range};

#[derive(Clone, Copy, Debug, PartialEq, Eq)]
pub struct Iteration {
    pub loop_number: u32,
    pub index: u32,
}

#[derive(Clone, Debug, Default, PartialEq, Eq)]
pub struct Lists {
    pub fused: Vec<Iteration>,
    pub peeled: Vec<Iteration>,
}

/// The lists of every processor.
pub fn lists(plan: &Plan) -> Vec<Lists> {
    (0..plan.blocks.len())
        .map(|b| Lists { fused: fused(plan, b), peeled: peeled(plan, b) })
        .collect()
}

/// In rising order of index plus shift, equal sums in loop order.
pub fn fused(plan: &Plan, b: usize) -> Vec<Iteration> {
    let mut list = collect(plan, |k| plan.fused(b, k));
    list.sort_unstable_by_key(|one| {
        let shift = plan.amounts[one.loop_number as usize].shift;
        (i64::from(one.index) + shift, one.loop_number)
    });
    list
}

/// Loop by loop, the index rising.
pub fn peeled(plan: &Plan, b: usize) -> Vec<Iteration> {
    let mut list = collect(plan, |k| plan.peeled(b, k));
    list.sort_unstable_by_key(|one| (one.loop_number, one.index));
    list
}

/// Every iteration in the ranges of all loops, in no order that counts.
fn collect(plan: &Plan, range: impl Fn(usize) -> Range) -> Vec<Iteration> {
    let mut list = Vec::new();
    for k in (0..plan.amounts.len()).rev() {
        let Range { a, e } = range(k);
        list.extend((a..=e).map(|i| Iteration { loop_number: k as u32, index: i as u32 }));
    }
    list
}

#[cfg(test)]
mod tests {
    use super::*;
    use crate::blocks::plan;
    use crate::line_lengths;
    use crate::random::Random;
    use crate::settings::Settings;
    use crate::table::Table;
    use crate::tables::{self, SMALL};

    fn every_iteration(table: &Table) -> Vec<(u32, u32)> {
        let numbered = table.loops.iter().enumerate();
        numbered.flat_map(|(k, one)| (one.first..=one.last).map(move |i| (k as u32, i))).collect()
    }

    #[test]
    fn each_iteration_stands_in_one_list_once() {
        let mut random = Random::new(3);
        for _ in 0..5_000 {
            let table = tables::aligned(&mut random, &SMALL);
            let line = line_lengths::good(&mut random);
            let settings = Settings::new(random.small(1, 8) as u32, line);
            let Ok(plan) = plan(&table, settings) else { continue };
            let mut found: Vec<(u32, u32)> = lists(&plan)
                .iter()
                .flat_map(|one| one.fused.iter().chain(&one.peeled))
                .map(|one| (one.loop_number, one.index))
                .collect();
            found.sort_unstable();
            assert_eq!(found, every_iteration(&table));
        }
    }
}
