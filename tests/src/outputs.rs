//! What each public entry of planning writes, for an output of `room` bytes.

use crate::blocks::{plan, plan_naming, Plan, Range};
use crate::facts;
use crate::listing;
use crate::lists::{self, Iteration};
use crate::outcome::Refusal;
use crate::planner;
use crate::reader::read;
use crate::settings::Settings;
use crate::sweeps;

const BUFFER: u64 = 13;

pub type Output = Result<Vec<u8>, Refusal>;

pub fn facts(table: &[u8], room: usize) -> Output {
    fit(encode(facts::facts(&read(table)?)), room)
}

pub fn shifts_and_peels(table: &[u8], room: usize) -> Output {
    let amounts = planner::amounts(&read(table)?);
    let numbers = amounts.iter().flat_map(|one| [one.shift, one.peel]);
    fit(encode(numbers), room)
}

pub fn threshold(table: &[u8], room: usize) -> Output {
    let amounts = planner::amounts(&read(table)?);
    fit(encode([planner::threshold(&amounts)]), room)
}

/// The threshold of the plan in force. The call has no output.
pub fn check_plan(table: &[u8], settings: Settings) -> Result<u64, Refusal> {
    let plan = plan(&read(table)?, settings)?;
    Ok(planner::threshold(&plan.amounts) as u64)
}

pub fn blocks(table: &[u8], settings: Settings, room: usize) -> Output {
    let plan = plan(&read(table)?, settings)?;
    fit(encode(plan.blocks.iter().flat_map(|block| [block.a, block.e])), room)
}

pub fn fused_list(table: &[u8], settings: Settings, processor: u32, room: usize) -> Output {
    of_processor(table, settings, processor, room, |plan, b| numbers(&lists::fused(plan, b)))
}

pub fn peeled_list(table: &[u8], settings: Settings, processor: u32, room: usize) -> Output {
    of_processor(table, settings, processor, room, |plan, b| numbers(&lists::peeled(plan, b)))
}

pub fn fused_ranges(table: &[u8], settings: Settings, processor: u32, room: usize) -> Output {
    of_processor(table, settings, processor, room, |plan, b| ranges(plan, b, Plan::fused))
}

pub fn peeled_ranges(table: &[u8], settings: Settings, processor: u32, room: usize) -> Output {
    of_processor(table, settings, processor, room, |plan, b| ranges(plan, b, Plan::peeled))
}

/// A call for one processor's part of the plan.
fn of_processor(
    table: &[u8],
    settings: Settings,
    processor: u32,
    room: usize,
    part: impl Fn(&Plan, usize) -> Vec<i64>,
) -> Output {
    let plan = plan_naming(&read(table)?, settings, Some(processor))?;
    fit(encode(part(&plan, processor as usize)), room)
}

/// The loop and the index of each iteration.
fn numbers(list: &[Iteration]) -> Vec<i64> {
    list.iter().flat_map(|one| [one.loop_number.into(), one.index.into()]).collect()
}

/// Each loop's first index and the index past its last, 0 and 0 where there
/// is none.
fn ranges(plan: &Plan, b: usize, part: fn(&Plan, usize, usize) -> Range) -> Vec<i64> {
    let ends = |range: Range| if range.count() > 0 { [range.a, range.e + 1] } else { [0, 0] };
    (0..plan.amounts.len()).flat_map(|k| ends(part(plan, b, k))).collect()
}

pub fn sweeps(table: &[u8], room: usize) -> Output {
    let sweeps = sweeps::sweeps(&read(table)?);
    fit(encode([sweeps.before as i64, sweeps.after as i64]), room)
}

/// The line of a refusal is the listing program's; the call is refused.
pub fn listing(table: &[u8], settings: Settings, room: usize) -> Output {
    fit(listing::lines(table, settings)?.into_bytes(), room)
}

/// Four bytes for each number.
fn encode(numbers: impl IntoIterator<Item = i64>) -> Vec<u8> {
    numbers.into_iter().flat_map(|number| (number as u32).to_le_bytes()).collect()
}

fn fit(bytes: Vec<u8>, room: usize) -> Output {
    if bytes.len() <= room {
        Ok(bytes)
    } else {
        Err(Refusal::whole(BUFFER))
    }
}
