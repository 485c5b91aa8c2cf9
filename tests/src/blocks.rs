//! Blocks, and the ranges of each loop in each block.

use crate::by_hand;
use crate::outcome::Refusal;
use crate::planner::{threshold, Amounts};
use crate::settings::Settings;
use crate::table::Table;

const PROCESSORS: u64 = 10;
const SHORT: u64 = 11;
const LINE: u64 = 17;

pub const MOST_PROCESSORS: u32 = 64;
pub const LONGEST_LINE: u32 = 64;

/// The indices from a to e, both included. With e = a - 1 it is empty.
#[derive(Clone, Copy, Debug, PartialEq, Eq)]
pub struct Range {
    pub a: i64,
    pub e: i64,
}

impl Range {
    pub fn count(&self) -> i64 {
        (self.e - self.a + 1).max(0)
    }

    fn cut(self, to: Range) -> Range {
        Range { a: self.a.max(to.a), e: self.e.min(to.e) }
    }
}

pub struct Plan {
    pub amounts: Vec<Amounts>,
    pub blocks: Vec<Range>,
    /// The bounds of each loop.
    bounds: Vec<Range>,
}

/// The plan of a table, or ground 19, 20, 10, 17 or 11.
pub fn plan(table: &Table, settings: Settings) -> Result<Plan, Refusal> {
    plan_naming(table, settings, None)
}

/// The same for a call that names a processor: ground 10 is asked of its
/// number behind P.
pub fn plan_naming(table: &Table, settings: Settings, named: Option<u32>) -> Result<Plan, Refusal> {
    let amounts = by_hand::in_force(table, &settings)?;
    if !(1..=MOST_PROCESSORS).contains(&settings.processors) {
        return Err(Refusal::whole(PROCESSORS));
    }
    if let Some(processor) = named {
        number_below(processor, settings.processors)?;
    }
    if !(1..=LONGEST_LINE).contains(&settings.line) {
        return Err(Refusal::whole(LINE));
    }
    let plan = laid(table, settings, amounts).ok_or(Refusal::whole(SHORT))?;
    if plan.long_enough(threshold(&plan.amounts)) {
        Ok(plan)
    } else {
        Err(Refusal::whole(SHORT))
    }
}

/// Blocks with these shifts and peels, for settings that are in range, if
/// there are lines enough.
pub fn laid(table: &Table, settings: Settings, amounts: Vec<Amounts>) -> Option<Plan> {
    let indices = indices(table);
    if lines(indices, settings.line) < i64::from(settings.processors) {
        return None;
    }
    let blocks = split(indices, settings);
    let bounds = table.loops.iter().map(|one| bounds(one.first, one.last)).collect();
    Some(Plan { amounts, blocks, bounds })
}

/// Ground 10 for a processor's own number.
pub fn number_below(processor: u32, processors: u32) -> Result<(), Refusal> {
    if processor < processors {
        Ok(())
    } else {
        Err(Refusal::whole(PROCESSORS))
    }
}

fn bounds(first: u32, last: u32) -> Range {
    Range { a: i64::from(first), e: i64::from(last) }
}

/// From the least first to the greatest last.
pub fn indices(table: &Table) -> Range {
    let first = table.loops.iter().map(|one| one.first).min();
    let last = table.loops.iter().map(|one| one.last).max();
    bounds(first.unwrap_or(0), last.unwrap_or(0))
}

/// How many lines the indices have; the last one may be begun and not full.
pub fn lines(indices: Range, line: u32) -> i64 {
    let line = i64::from(line);
    let full = indices.count() / line;
    full + i64::from(full * line < indices.count())
}

/// The blocks in order, one behind the other: the first (L mod P) have one
/// line more. Where the last line goes beyond the greatest last, its block is
/// cut there.
fn split(indices: Range, settings: Settings) -> Vec<Range> {
    let (count, line) = (i64::from(settings.processors), i64::from(settings.line));
    let lines = lines(indices, settings.line);
    let mut next = indices.a;
    (0..count)
        .map(|b| {
            let own = lines / count + i64::from(b < lines % count);
            let a = next;
            next += own * line;
            Range { a, e: next - 1 }.cut(indices)
        })
        .collect()
}

impl Plan {
    /// Whether no block has fewer indices than `least`, where that counts.
    pub fn long_enough(&self, least: i64) -> bool {
        self.blocks.len() < 2 || self.blocks.iter().all(|block| block.count() >= least)
    }

    /// What processor b runs of loop k before the barrier.
    pub fn fused(&self, b: usize, k: usize) -> Range {
        let own = self.bounds[k];
        let Amounts { shift, peel } = self.amounts[k];
        let Range { a, e } = self.blocks[b];
        let from = if b == 0 { own.a } else { a + peel };
        let to = if b + 1 == self.blocks.len() { own.e } else { e - shift };
        Range { a: from, e: to }.cut(own)
    }

    /// What processor b runs of loop k past the barrier. The last block has
    /// nothing there.
    pub fn peeled(&self, b: usize, k: usize) -> Range {
        let own = self.bounds[k];
        let Amounts { shift, peel } = self.amounts[k];
        let e = self.blocks[b].e;
        if b + 1 == self.blocks.len() {
            return Range { a: own.a, e: own.a - 1 };
        }
        Range { a: e - shift + 1, e: e + peel }.cut(own)
    }
}
