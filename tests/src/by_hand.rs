//! The shifts and peels that a plan goes by: the table's own, or those that
//! the settings give, which are refused where they are no plan of the table.

use crate::dependence::{dependences, Dependence};
use crate::outcome::Refusal;
use crate::planner::{amounts, Amounts};
use crate::settings::Settings;
use crate::table::Table;

const PLAN: u64 = 19;

/// No number of a plan by hand is above it.
pub const MOST_AMOUNT: i64 = 10_000;
/// Four bytes of shift and four of peel.
pub const LOOP_BYTES: usize = 8;

/// Shift and peel of each loop, or ground 19 or 20.
pub fn in_force(table: &Table, settings: &Settings) -> Result<Vec<Amounts>, Refusal> {
    if settings.by_hand == 0 {
        return Ok(amounts(table));
    }
    let given = given(table.loops.len(), settings).ok_or(Refusal::whole(PLAN))?;
    match least_unmet(&dependences(table), &given) {
        Some((earlier, later)) => Err(Refusal::unmet(earlier, later)),
        None => Ok(given),
    }
}

/// The numbers of the plan by hand, if it has so many loops and no number is
/// too high.
fn given(loops: usize, settings: &Settings) -> Option<Vec<Amounts>> {
    if settings.plan_length as usize != LOOP_BYTES * loops {
        return None;
    }
    let all = read(&settings.plan[..LOOP_BYTES * loops]);
    let high = |one: &Amounts| one.shift.max(one.peel) > MOST_AMOUNT;
    (!all.iter().any(high)).then_some(all)
}

/// The pair of loops with the lowest earlier one, and among these the lowest
/// later one, that have a dependence which is not met.
pub fn least_unmet(ending: &[Vec<Dependence>], given: &[Amounts]) -> Option<(usize, usize)> {
    let unmet = ending.iter().flatten().filter(|one| !meets(one, given));
    unmet.map(|one| (one.from, one.to)).min()
}

/// Shift and peel of the later loop are those of the earlier one at least, and
/// by the dependence's amounts more.
pub fn meets(one: &Dependence, given: &[Amounts]) -> bool {
    let (earlier, later) = (given[one.from], given[one.to]);
    later.shift >= earlier.shift + one.backward() && later.peel >= earlier.peel + one.forward()
}

/// The numbers that the bytes of a plan say.
pub fn read(bytes: &[u8]) -> Vec<Amounts> {
    let number = |at: &[u8]| i64::from(u32::from_le_bytes([at[0], at[1], at[2], at[3]]));
    let one = |at: &[u8]| Amounts { shift: number(at), peel: number(&at[4..]) };
    bytes.chunks_exact(LOOP_BYTES).map(one).collect()
}

/// The bytes of a plan that is typed as shift and peel of each loop.
pub fn typed(plan: &[(u32, u32)]) -> Vec<u8> {
    plan.iter().flat_map(|&(shift, peel)| [shift, peel]).flat_map(u32::to_le_bytes).collect()
}

/// The bytes of a plan with these numbers.
pub fn written(amounts: &[Amounts]) -> Vec<u8> {
    let numbers = amounts.iter().flat_map(|one| [one.shift, one.peel]);
    numbers.flat_map(|number| (number as u32).to_le_bytes()).collect()
}
