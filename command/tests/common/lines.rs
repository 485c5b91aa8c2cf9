//! How many processors a table has a plan for, its blocks beginning on whole lines: worked out from its bounds and from the threshold of the
//! second planner, without the library.

use vempaldi_checks::planner::{amounts, threshold};
use vempaldi_checks::table::Table;

/// A table's indices, from the least first to the greatest last.
pub fn indices(table: &Table) -> u32 {
    let first = table.loops.iter().map(|one| one.first).min().expect("a loop");
    table.loops.iter().map(|one| one.last).max().expect("a loop") - first + 1
}

/// The indices of the last block, which is the shortest: the lines are counted out, and the last one is cut.
pub fn last_block(indices: u32, count: u32, line: u32) -> u32 {
    let lines = (0..indices).step_by(line as usize).count() as u32;
    let before: u32 = (0..count - 1).map(|b| lines / count + u32::from(b < lines % count)).sum();
    indices - before * line
}

/// The largest number of processors that is accepted.
pub fn most(table: &Table, line: u32) -> u32 {
    let (indices, threshold) = (indices(table), threshold(&amounts(table)));
    let accepted = |count: &u32| {
        let enough = (indices - 1) / line + 1 >= *count;
        *count == 1 || enough && i64::from(last_block(indices, *count, line)) >= threshold
    };
    (1..=64).rev().find(accepted).expect("one processor has a plan")
}
