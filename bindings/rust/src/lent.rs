//! Calls with room of this crate's own, and the numbers that they wrote into it.

use crate::foreign::{Answer, OfPlan, OfProcessor, OfTable};
use crate::refusal::Refusal;
use crate::settings::Settings;

pub fn of_table(entry: OfTable, table: &[u8], room: usize) -> Result<Vec<u32>, Refusal> {
    // SAFETY: the table's pointer and length are those of a live slice; the others are as `call` lends them.
    let bytes = call(room, |out, room, answer| unsafe { entry(table.as_ptr(), table.len(), out, room, answer) })?;
    Ok(numbers(&bytes))
}

pub fn of_plan(entry: OfPlan, table: &[u8], settings: Settings, room: usize) -> Result<Vec<u8>, Refusal> {
    // SAFETY: as in `of_table`.
    call(room, |out, room, answer| unsafe { entry(table.as_ptr(), table.len(), settings, out, room, answer) })
}

pub fn of_processor(
    entry: OfProcessor,
    table: &[u8],
    settings: Settings,
    processor: u32,
    room: usize,
) -> Result<Vec<u32>, Refusal> {
    let (start, length) = (table.as_ptr(), table.len());
    // SAFETY: as in `of_table`.
    let bytes = call(room, |out, room, answer| unsafe { entry(start, length, settings, processor, out, room, answer) })?;
    Ok(numbers(&bytes))
}

/// Lends new bytes and an answer to one call, which says how many bytes it wrote.
fn call(room: usize, entry: impl FnOnce(*mut u8, usize, *mut Answer) -> u64) -> Result<Vec<u8>, Refusal> {
    let mut answer = [0; 4];
    let mut out = vec![0; room];
    let written = entry(out.as_mut_ptr(), room, &mut answer);
    out.truncate(written as usize);
    Refusal::of_answer(&answer).map(|()| out)
}

/// Four little-endian bytes each.
pub fn numbers(bytes: &[u8]) -> Vec<u32> {
    bytes.chunks_exact(4).map(|four| u32::from_le_bytes([four[0], four[1], four[2], four[3]])).collect()
}

pub fn pairs(numbers: &[u32]) -> impl Iterator<Item = (u32, u32)> + '_ {
    numbers.chunks_exact(2).map(|two| (two[0], two[1]))
}
