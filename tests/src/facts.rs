//! Facts of a table: what a caller would otherwise have to decode.

use crate::table::Table;

/// How many arrays, loops and elements; of each array its first element in
/// the memory and its length; of each loop its first and its last index.
pub fn facts(table: &Table) -> Vec<i64> {
    let mut facts =
        vec![table.arrays.len() as i64, table.loops.len() as i64, table.elements() as i64];
    let mut begin = 0;
    for &length in &table.arrays {
        facts.extend([begin, i64::from(length)]);
        begin += i64::from(length);
    }
    for one in &table.loops {
        facts.extend([i64::from(one.first), i64::from(one.last)]);
    }
    facts
}
