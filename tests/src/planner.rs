//! Shifts, peels and threshold, from the chains of dependences.

use crate::dependence::{dependences, Dependence};
use crate::table::Table;

#[derive(Clone, Copy, Debug, Default, PartialEq, Eq)]
pub struct Amounts {
    pub shift: i64,
    pub peel: i64,
}

/// Shift and peel of each loop.
pub fn amounts(table: &Table) -> Vec<Amounts> {
    amounts_of(&dependences(table))
}

/// The same from dependences that are given, those that end at loop k in row
/// k.
pub fn amounts_of(ending: &[Vec<Dependence>]) -> Vec<Amounts> {
    let mut shifts = vec![None; ending.len()];
    let mut peels = vec![None; ending.len()];
    (0..ending.len())
        .map(|k| Amounts {
            shift: largest(ending, &mut shifts, k, Dependence::backward),
            peel: largest(ending, &mut peels, k, Dependence::forward),
        })
        .collect()
}

/// The largest total over all chains that end at loop k. The last dependence
/// of such a chain is one that ends at k; what stands before it is a chain
/// that ends where that dependence starts, or nothing. `known` keeps what was
/// found for a loop, so that each loop is worked out once.
fn largest(
    ending: &[Vec<Dependence>],
    known: &mut [Option<i64>],
    k: usize,
    amount: fn(&Dependence) -> i64,
) -> i64 {
    if let Some(total) = known[k] {
        return total;
    }
    let totals = ending[k].iter().map(|last| {
        let before = largest(ending, known, last.from, amount);
        before + amount(last)
    });
    let total = totals.max().unwrap_or(0);
    known[k] = Some(total);
    total
}

/// The largest sum of shift and peel of one loop.
pub fn threshold(amounts: &[Amounts]) -> i64 {
    amounts.iter().map(|one| one.shift + one.peel).max().unwrap_or(0)
}

#[cfg(test)]
mod tests {
    use super::*;
    use crate::meeting;
    use crate::random::Random;
    use crate::tables::{self, SMALL};

    /// Every chain that ends at loop k, each as the totals of its backward
    /// and forward distances. There are many, so the tables are small.
    fn chains(ending: &[Vec<Dependence>], k: usize) -> Vec<(i64, i64)> {
        let mut all = Vec::new();
        for last in &ending[k] {
            let (back, ahead) = (last.backward(), last.forward());
            all.push((back, ahead));
            let before = chains(ending, last.from);
            all.extend(before.iter().map(|one| (one.0 + back, one.1 + ahead)));
        }
        all
    }

    #[test]
    fn shifts_and_peels_are_the_largest_totals_of_listed_chains() {
        let mut random = Random::new(1);
        let (mut listed, mut several) = (0, 0);
        for number in 0..4_000 {
            let table = match number % 2 {
                0 => tables::any(&mut random, &SMALL),
                _ => meeting::short_table(&mut random),
            };
            let ending = dependences(&table);
            // Sixteen loops have too many chains to list.
            let chains_at_most: usize = ending.iter().map(|row| row.len() + 1).product();
            if table.loops.len() > 6 || chains_at_most > 30_000 {
                continue;
            }
            listed += 1;
            several += u32::from(table.loops.iter().any(|one| one.statements.len() > 1));
            for (k, found) in amounts(&table).iter().enumerate() {
                let all = chains(&ending, k);
                let shift = all.iter().map(|one| one.0).max().unwrap_or(0);
                let peel = all.iter().map(|one| one.1).max().unwrap_or(0);
                assert_eq!(*found, Amounts { shift, peel });
            }
        }
        assert!(listed > 3_000 && several > 1_500, "{listed}, {several} of several statements");
    }
}
