//! Which loops must be shifted and peeled by how much more than others, found
//! iteration by iteration and without distances: a way that the planners have
//! not. It is slow, so it is for small tables.

use crate::planner::Amounts;
use crate::table::{Loop, Reference, Table};

/// Some iterations of two loops meet: the later loop's shift is to be at least
/// `back` above the earlier's, its peel at least `ahead`.
pub struct Need {
    pub earlier: usize,
    pub later: usize,
    back: i64,
    ahead: i64,
}

/// One for every two loops that meet, in rising order of the earlier loop and
/// with it of the later one.
pub fn needs(table: &Table) -> Vec<Need> {
    let loops = &table.loops;
    let pairs = (0..loops.len()).flat_map(|j| (j + 1..loops.len()).map(move |k| (j, k)));
    pairs.filter_map(|(j, k)| need(j, k, &loops[j], &loops[k])).collect()
}

/// The first pair of loops for which the numbers are too low.
pub fn least_unmet(needs: &[Need], plan: &[Amounts]) -> Option<(usize, usize)> {
    let low = |need: &&Need| {
        let (earlier, later) = (plan[need.earlier], plan[need.later]);
        later.shift - earlier.shift < need.back || later.peel - earlier.peel < need.ahead
    };
    needs.iter().find(low).map(|need| (need.earlier, need.later))
}

/// Iteration i of the earlier loop is to come before iteration n of the later
/// one where both touch an element and one of them stores it.
fn need(earlier: usize, later: usize, one: &Loop, other: &Loop) -> Option<Need> {
    let mut found: Option<Need> = None;
    for i in one.first..=one.last {
        for n in other.first..=other.last {
            if meet(one, i, other, n) {
                let (i, n) = (i64::from(i), i64::from(n));
                let need = found.get_or_insert(Need { earlier, later, back: 0, ahead: 0 });
                need.back = need.back.max(i - n);
                need.ahead = need.ahead.max(n - i);
            }
        }
    }
    found
}

/// Whether one of the two iterations stores an element that the other touches.
fn meet(one: &Loop, i: u32, other: &Loop, n: u32) -> bool {
    one.destinations().any(|to| touches(other, n, element(to, i)))
        || other.destinations().any(|to| touches(one, i, element(to, n)))
}

fn touches(one: &Loop, index: u32, wanted: (u8, i64)) -> bool {
    one.accesses().any(|access| element(access.at, index) == wanted)
}

/// The array, and the element's number in it.
fn element(reference: Reference, index: u32) -> (u8, i64) {
    (reference.array, i64::from(index) + i64::from(reference.offset))
}

#[cfg(test)]
mod tests {
    use super::*;
    use crate::by_hand;
    use crate::dependence::dependences;
    use crate::meeting;
    use crate::plans_by_hand::{met, unmet};
    use crate::random::Random;
    use crate::tables::{self, SMALL};

    #[test]
    fn the_second_planner_finds_the_same_pair() {
        let mut random = Random::new(73);
        let mut missed = 0;
        for number in 0..6_000 {
            let table = match number % 2 {
                0 => tables::aligned(&mut random, &SMALL),
                _ => meeting::short_table(&mut random),
            };
            let (needs, ending) = (needs(&table), dependences(&table));
            for plan in [met(&mut random, &ending, 3), unmet(&mut random, &ending)] {
                let found = by_hand::least_unmet(&ending, &plan);
                assert_eq!(found, least_unmet(&needs, &plan));
                missed += u32::from(found.is_some());
            }
        }
        assert!(missed > 1_500, "{missed}");
    }
}
