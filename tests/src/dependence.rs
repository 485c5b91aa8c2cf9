//! The dependences of a table, one for every pair of references that make
//! one.

use crate::table::{Access, Loop, Table};

#[derive(Clone, Copy, Debug, PartialEq, Eq)]
pub struct Dependence {
    /// The earlier loop.
    pub from: usize,
    /// The later loop.
    pub to: usize,
    pub distance: i64,
}

impl Dependence {
    pub fn backward(&self) -> i64 {
        (-self.distance).max(0)
    }

    pub fn forward(&self) -> i64 {
        self.distance.max(0)
    }
}

/// Some iteration i of the earlier loop and iteration i + d of the later one
/// both lie in their loops' bounds.
pub fn meet(earlier: &Loop, later: &Loop, distance: i64) -> bool {
    meetings(earlier, later, distance) > 0
}

/// How many such i there are: from the greater of the earlier loop's first
/// and the later one's less d, to the lesser of their lasts in the same way.
/// It is 0 where they miss each other by one index, and -n by n + 1.
pub fn meetings(earlier: &Loop, later: &Loop, distance: i64) -> i64 {
    let first = i64::from(earlier.first).max(i64::from(later.first) - distance);
    let last = i64::from(earlier.last).min(i64::from(later.last) - distance);
    last - first + 1
}

/// All dependences, those that end at loop k in row k of the result.
pub fn dependences(table: &Table) -> Vec<Vec<Dependence>> {
    dependences_by(table, meet)
}

/// The same by any rule, which is asked of all pairs of references to one
/// array that are not two reads.
pub fn dependences_by(
    table: &Table,
    rule: impl Fn(&Loop, &Loop, i64) -> bool,
) -> Vec<Vec<Dependence>> {
    dependences_among(table, |one| one.accesses().collect(), rule)
}

/// The same of references that are chosen.
pub fn dependences_among(
    table: &Table,
    chosen: impl Fn(&Loop) -> Vec<Access>,
    rule: impl Fn(&Loop, &Loop, i64) -> bool,
) -> Vec<Vec<Dependence>> {
    let accesses: Vec<Vec<Access>> = table.loops.iter().map(chosen).collect();
    let mut ending: Vec<Vec<Dependence>> = vec![Vec::new(); accesses.len()];
    for (to, later) in accesses.iter().enumerate() {
        let stores: Vec<Access> = later.iter().copied().filter(|access| access.stores).collect();
        for (from, earlier) in accesses[..to].iter().enumerate() {
            for distance in distances(earlier, later, &stores) {
                if rule(&table.loops[from], &table.loops[to], distance) {
                    ending[to].push(Dependence { from, to, distance });
                }
            }
        }
    }
    ending
}

/// The distances between references to one array, two reads left out: a read
/// of the earlier loop makes one with the later loop's destinations alone.
fn distances<'a>(
    earlier: &'a [Access],
    later: &'a [Access],
    stores: &'a [Access],
) -> impl Iterator<Item = i64> + 'a {
    earlier.iter().flat_map(move |one| {
        let met = if one.stores { later } else { stores };
        met.iter()
            .filter(|other| other.at.array == one.at.array)
            .map(|other| i64::from(one.at.offset) - i64::from(other.at.offset))
    })
}

#[cfg(test)]
mod tests {
    use super::*;
    use crate::meeting;
    use crate::random::Random;
    use crate::table::Reference;
    use crate::tables::{self, SMALL};

    /// The elements that a reference touches, iteration by iteration.
    fn elements(one: &Loop, reference: Reference) -> Vec<i64> {
        (one.first..=one.last).map(|i| i64::from(i) + i64::from(reference.offset)).collect()
    }

    /// Every pair of references, looked at one by one, that touches a common
    /// element: the elements of both are listed and compared.
    fn every_pair(table: &Table, from: usize, to: usize) -> Vec<i64> {
        let mut found = Vec::new();
        for one in table.loops[from].accesses() {
            let touched = elements(&table.loops[from], one.at);
            for other in table.loops[to].accesses() {
                let again = elements(&table.loops[to], other.at);
                let common = again.iter().any(|element| touched.contains(element));
                if one.at.array == other.at.array && (one.stores || other.stores) && common {
                    found.push(i64::from(one.at.offset - other.at.offset));
                }
            }
        }
        found
    }

    fn compare_pairs(table: &Table) {
        for (to, row) in dependences(table).iter().enumerate() {
            let found: Vec<i64> = row.iter().map(|one| one.distance).collect();
            let wanted: Vec<i64> = (0..to).flat_map(|from| every_pair(table, from, to)).collect();
            assert_eq!(found, wanted);
        }
    }

    #[test]
    fn no_pair_is_left_out_or_counted_twice() {
        let mut random = Random::new(2);
        for _ in 0..2_000 {
            compare_pairs(&tables::any(&mut random, &SMALL));
            compare_pairs(&meeting::short_table(&mut random));
        }
    }

    /// A loop of which the bounds alone count.
    fn bounds(first: u32, last: u32) -> Loop {
        Loop { first, last, statements: Vec::new() }
    }

    /// Every two loops among six indices, at every distance at which they
    /// could meet and some more: the iterations i are gone through one by one.
    #[test]
    fn loops_meet_where_some_iteration_does() {
        let all: Vec<Loop> =
            (0..6).flat_map(|first| (first..6).map(move |last| bounds(first, last))).collect();
        for (earlier, later) in all.iter().flat_map(|one| all.iter().map(move |other| (one, other)))
        {
            for distance in -8..=8 {
                let both = (i64::from(earlier.first)..=i64::from(earlier.last)).filter(|i| {
                    let other = i + distance;
                    other >= i64::from(later.first) && other <= i64::from(later.last)
                });
                let count = both.count() as i64;
                assert_eq!(meet(earlier, later, distance), count > 0);
                assert_eq!(meetings(earlier, later, distance).max(0), count);
            }
        }
    }

    #[test]
    fn loops_that_miss_by_one_have_0() {
        assert_eq!(meetings(&bounds(1, 6), &bounds(5, 9), -2), 0);
        assert_eq!(meetings(&bounds(1, 7), &bounds(5, 9), -2), 1);
        assert_eq!(meetings(&bounds(1, 4), &bounds(5, 9), -2), -2);
    }
}
