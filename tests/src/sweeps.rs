//! Sweeps over the arrays before and after fusion: the sizes of the sets of
//! arrays that are touched and that are written.

use crate::table::{Loop, Table};
use std::collections::BTreeSet;

#[derive(Clone, Copy, Debug, PartialEq, Eq)]
pub struct Sweeps {
    pub before: usize,
    pub after: usize,
}

pub fn sweeps(table: &Table) -> Sweeps {
    let mut before = 0;
    let mut all_touched = BTreeSet::new();
    let mut all_written = BTreeSet::new();
    for one in &table.loops {
        let touched = touched(one);
        let written: BTreeSet<u8> = one.destinations().map(|to| to.array).collect();
        before += touched.len() + written.len();
        all_touched.extend(touched);
        all_written.extend(written);
    }
    Sweeps { before, after: all_touched.len() + all_written.len() }
}

/// The arrays that a loop reads or writes, in any of its statements.
fn touched(one: &Loop) -> BTreeSet<u8> {
    one.accesses().map(|access| access.at.array).collect()
}
