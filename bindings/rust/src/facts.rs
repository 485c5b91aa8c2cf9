//! Facts of a table, so that nobody needs to decode it.

use crate::foreign::vempaldi_facts;
use crate::lent::{of_table, pairs};
use crate::refusal::Refusal;
use crate::sizes::FACTS_BYTES;

/// Arrays and loops stand in table order.
#[derive(Clone, Debug, PartialEq, Eq)]
#[non_exhaustive]
pub struct Facts {
    pub arrays: Vec<ArrayFacts>,
    pub loops: Vec<LoopFacts>,
    /// How many numbers a memory of this table has.
    pub elements: u32,
}

/// Where an array stands in the memory, and how long it is.
#[derive(Clone, Copy, Debug, PartialEq, Eq)]
#[non_exhaustive]
pub struct ArrayFacts {
    pub first: u32,
    pub length: u32,
}

/// First and last index of a loop.
#[derive(Clone, Copy, Debug, PartialEq, Eq)]
#[non_exhaustive]
pub struct LoopFacts {
    pub first: u32,
    pub last: u32,
}

/// What a table's memory and loops are.
///
/// ```
/// let table = std::fs::read("../../examples/example.table").unwrap();
/// let facts = vempaldi::facts(&table)?;
/// let mut memory = vec![0.0; facts.elements as usize];
/// for array in &facts.arrays {
///     let from = array.first as usize;
///     memory[from..from + array.length as usize].fill(1.5);
/// }
/// assert_eq!(memory, [1.5; 36]);
/// assert_eq!((facts.loops[1].first, facts.loops[1].last), (1, 10));
/// # Ok::<(), vempaldi::Refusal>(())
/// ```
pub fn facts(table: &[u8]) -> Result<Facts, Refusal> {
    let numbers = of_table(vempaldi_facts, table, FACTS_BYTES)?;
    let (arrays, loops) = numbers[3..].split_at(2 * numbers[0] as usize);
    Ok(Facts {
        arrays: pairs(arrays).map(|(first, length)| ArrayFacts { first, length }).collect(),
        loops: pairs(loops).map(|(first, last)| LoopFacts { first, last }).collect(),
        elements: numbers[2],
    })
}
