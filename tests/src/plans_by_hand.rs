//! Plans by hand that are worth giving to a call: such as meet every
//! dependence, such as just fail to, and bytes that are no plan.

use crate::by_hand::{written, LOOP_BYTES, MOST_AMOUNT};
use crate::dependence::{dependences, Dependence};
use crate::planner::Amounts;
use crate::random::Random;
use crate::settings::{Settings, PLAN_BYTES};
use crate::table::Table;

/// The dependences of a table, those that end at loop k in row k.
type Ending = [Vec<Dependence>];

/// A plan that meets every dependence. Some loops are raised by at most
/// `most`, and with them those that depend on them.
pub fn met(random: &mut Random, ending: &Ending, most: i64) -> Vec<Amounts> {
    let mut plan = vec![Amounts::default(); ending.len()];
    // What is raised before is lost where a dependence asks for as much; what
    // is raised behind comes on top.
    let behind = random.chance(1, 2);
    if behind {
        raise_to_meet(ending, &mut plan);
    }
    let (way, one) = (random.below(8), random.below(plan.len()));
    for (k, amounts) in plan.iter_mut().enumerate() {
        let (shift, peel) = (random.small(0, most), random.small(0, most));
        match way {
            0 => {}
            1 | 2 if k != one => {}
            3 => amounts.shift += shift,
            4 => amounts.peel += peel,
            _ => (amounts.shift, amounts.peel) = (amounts.shift + shift, amounts.peel + peel),
        }
    }
    raise_to_meet(ending, &mut plan);
    plan
}

/// Raises the numbers as far as the dependences ask.
fn raise_to_meet(ending: &Ending, plan: &mut [Amounts]) {
    for one in ending.iter().flatten() {
        let earlier = plan[one.from];
        let later = &mut plan[one.to];
        later.shift = later.shift.max(earlier.shift + one.backward());
        later.peel = later.peel.max(earlier.peel + one.forward());
    }
}

/// Every shift, every peel or both by the same amount higher. Whatever was met
/// is met.
fn lift(plan: &mut [Amounts], shift: i64, peel: i64) {
    for one in plan {
        (one.shift, one.peel) = (one.shift + shift, one.peel + peel);
    }
}

/// Such a plan whose highest number is the most that there may be, or is near
/// it: at most two fewer, or one more.
fn highest(random: &mut Random, ending: &Ending) -> Vec<Amounts> {
    let mut plan = met(random, ending, 9);
    let to = MOST_AMOUNT + random.pick(&[0, 0, 0, 1, -1, -2]);
    let shift = plan.iter().map(|one| one.shift).max().unwrap_or(0);
    let peel = plan.iter().map(|one| one.peel).max().unwrap_or(0);
    match random.below(3) {
        0 => lift(&mut plan, to - shift, 0),
        1 => lift(&mut plan, 0, to - peel),
        _ => lift(&mut plan, to - shift, to - peel),
    }
    plan
}

/// A plan of any height: the raises are by as much as there may be.
fn tall(random: &mut Random, ending: &Ending) -> Vec<Amounts> {
    let most = random.pick(&[50, 500, 2_000, MOST_AMOUNT]);
    met(random, ending, most)
}

/// A plan in which one to three dependences ask for one more than is given,
/// in shift or in peel. A loop next to 0 cannot be lowered, so most plans are
/// lifted before.
pub fn unmet(random: &mut Random, ending: &Ending) -> Vec<Amounts> {
    let mut plan = met(random, ending, 3);
    if random.chance(3, 4) {
        let (shift, peel) = (random.between(1, 4), random.between(1, 4));
        lift(&mut plan, shift, peel);
    }
    // At times only those that end at the last loop.
    let from = if random.chance(1, 6) { ending.len() - 1 } else { 0 };
    let all: Vec<&Dependence> = ending[from..].iter().flatten().collect();
    for _ in 0..random.small(1, 3) {
        if all.is_empty() {
            break;
        }
        let one = random.pick(&all);
        miss_by_one(random, &mut plan, one);
    }
    plan
}

/// The later loop is too low, or the earlier one too high.
fn miss_by_one(random: &mut Random, plan: &mut [Amounts], one: &Dependence) {
    let (earlier, later) = (plan[one.from], plan[one.to]);
    match random.below(6) {
        0 => plan[one.from].shift = (later.shift - one.backward() + 1).max(0),
        1 => plan[one.from].peel = (later.peel - one.forward() + 1).max(0),
        2 | 3 => plan[one.to].shift = (earlier.shift + one.backward() - 1).max(0),
        _ => plan[one.to].peel = (earlier.peel + one.forward() - 1).max(0),
    }
}

/// Numbers of which each is drawn by itself.
fn loose(random: &mut Random, loops: usize) -> Vec<Amounts> {
    let most = random.pick(&[1, 2, 5, 20_000]);
    let mut amounts = || Amounts { shift: random.between(0, most), peel: random.between(0, most) };
    (0..loops).map(|_| amounts()).collect()
}

/// One number at an end of the range, past it, or in range in its low bytes
/// alone.
fn with_end(random: &mut Random, mut plan: Vec<Amounts>) -> Vec<Amounts> {
    let high = i64::from(u32::MAX);
    let ends = [0, 1, 9_999, 10_000, 10_001, 10_001, 16_384, 32_768, 65_535, 1 << 31, high];
    let one = random.below(plan.len());
    let number = if random.chance(1, 2) { &mut plan[one].shift } else { &mut plan[one].peel };
    *number = match random.below(3) {
        0 => *number + random.pick(&[1 << 14, 1 << 16, 1 << 24, 1 << 31]),
        _ => random.pick(&ends),
    };
    plan
}

/// A number that says that there is a plan by hand.
fn hand(random: &mut Random) -> u32 {
    match random.below(3) {
        0 => random.pick(&[2, 255, 256, 65_536, 1 << 24, 1 << 31, u32::MAX]),
        _ => 1,
    }
}

/// The settings with this plan by hand, and at times with bytes behind it.
pub fn give(random: &mut Random, settings: Settings, plan: &[Amounts]) -> Settings {
    let bytes = written(plan);
    let mut given = Settings { by_hand: hand(random), ..settings.with_plan(&bytes) };
    fill_from(random, &mut given, bytes.len());
    given
}

/// Bytes that nobody may look at.
fn fill_from(random: &mut Random, settings: &mut Settings, from: usize) {
    let way = random.below(4);
    for byte in &mut settings.plan[from.min(PLAN_BYTES)..] {
        *byte = match way {
            0 => 0,
            1 => 0xFF,
            2 => random.below(3) as u8,
            _ => random.byte(),
        };
    }
}

/// One of the lengths that a plan of so many loops has not.
fn wrong_length(random: &mut Random, loops: usize) -> u32 {
    let right = (LOOP_BYTES * loops) as u32;
    let near = [right - 8, right - 4, right - 1, right + 1, right + 4, right + 8];
    let far = [0, 4, 8, 127, 128, 129, 136, right + (1 << 8), right + (1 << 16), u32::MAX];
    loop {
        let length = if random.chance(1, 2) { random.pick(&near) } else { random.pick(&far) };
        if length != right {
            return length;
        }
    }
}

/// Settings with a plan by hand that is neither 19 nor 20: low, so that many
/// processors find room.
pub fn good(random: &mut Random, table: &Table, settings: Settings) -> Settings {
    let plan = low(random, &dependences(table));
    give(random, settings, &plan)
}

/// The same with high numbers, often the highest.
pub fn high(random: &mut Random, table: &Table, settings: Settings) -> Settings {
    let ending = dependences(table);
    loop {
        let made = if random.chance(1, 2) { highest } else { tall };
        let plan = made(random, &ending);
        if plan.iter().all(|one| one.shift.max(one.peel) <= MOST_AMOUNT) {
            return give(random, settings, &plan);
        }
    }
}

fn low(random: &mut Random, ending: &Ending) -> Vec<Amounts> {
    let most = random.pick(&[1, 2, 3, 9]);
    met(random, ending, most)
}

/// Mostly such a plan, else one that is high, does not meet a dependence, is
/// no plan, or is not to be looked at.
pub fn any(random: &mut Random, table: &Table, settings: Settings) -> Settings {
    let (ending, loops) = (dependences(table), table.loops.len());
    let plan = match random.below(16) {
        0..=4 => return good(random, table, settings),
        5 => met(random, &ending, 0),
        6 => tall(random, &ending),
        7 => highest(random, &ending),
        8..=11 => unmet(random, &ending),
        12 => loose(random, loops),
        13 => {
            let plan = if random.chance(1, 2) { unmet } else { highest }(random, &ending);
            with_end(random, plan)
        }
        14 => return with_wrong_length(random, &ending, settings),
        _ => {
            let plan =
                if random.chance(1, 2) { loose(random, loops) } else { unmet(random, &ending) };
            return Settings { by_hand: 0, ..give(random, settings, &plan) };
        }
    };
    give(random, settings, &plan)
}

/// A plan that is right but for its length; the bytes of a longer one go on.
fn with_wrong_length(random: &mut Random, ending: &Ending, settings: Settings) -> Settings {
    let plan = if random.chance(2, 3) { met(random, ending, 3) } else { unmet(random, ending) };
    let plan_length = wrong_length(random, ending.len());
    Settings { plan_length, ..give(random, settings, &plan) }
}

#[cfg(test)]
mod tests {
    use super::*;
    use crate::by_hand::{in_force, least_unmet};
    use crate::planner::amounts;
    use crate::tables::{self, SMALL};

    /// Every plan that is made to meet all dependences does, and none of its
    /// numbers is below the loop's own.
    #[test]
    fn plans_that_are_to_be_met_are() {
        let mut random = Random::new(70);
        for _ in 0..10_000 {
            let table = tables::aligned(&mut random, &SMALL);
            let own = amounts(&table);
            let made = if random.chance(1, 2) { good } else { high };
            let settings = made(&mut random, &table, Settings::of(1));
            let plan = in_force(&table, &settings).expect("accepted");
            let above =
                |(one, own): (&Amounts, &Amounts)| one.shift >= own.shift && one.peel >= own.peel;
            assert!(plan.iter().zip(&own).all(above));
        }
    }

    #[test]
    fn plans_that_are_to_miss_mostly_do() {
        let mut random = Random::new(71);
        let (mut with, mut missed) = (0, 0);
        for _ in 0..10_000 {
            let ending = dependences(&tables::aligned(&mut random, &SMALL));
            let any = ending.iter().any(|row| !row.is_empty());
            with += u32::from(any);
            missed += u32::from(least_unmet(&ending, &unmet(&mut random, &ending)).is_some());
        }
        assert!(missed * 10 > with * 7, "{missed} of {with}");
    }

    #[test]
    fn a_wrong_length_is_wrong() {
        let mut random = Random::new(72);
        for loops in 1..=16 {
            for _ in 0..200 {
                assert!(wrong_length(&mut random, loops) as usize != LOOP_BYTES * loops);
            }
        }
    }
}
