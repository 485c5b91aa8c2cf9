//! Wrong ways to tell which pairs of references make a dependence, and a
//! count of the tables by which each of them would be seen.

use crate::dependence::{dependences, dependences_among, dependences_by};
use crate::dependence::{meet, meetings, Dependence};
use crate::planner::{amounts, amounts_of, Amounts};
use crate::table::*;

/// The shifts and peels that a wrong way finds.
type Way = fn(&Table) -> Vec<Amounts>;

/// Here t is the table, j and k are the bounds of the earlier and the later
/// loop, and d is the distance.
const WAYS: [(&str, Way); 24] = [
    ("bounds not asked", |t| by(t, |_, _, _| true)),
    ("only that the later loop does not begin too late", |t| by(t, |j, k, d| k.0 - d <= j.1)),
    ("only that the later loop does not end too early", |t| by(t, |j, k, d| j.0 <= k.1 - d)),
    ("the earlier loop's bounds for both", |t| by(t, |j, _, d| common(j, j, d) > 0)),
    ("the later loop's bounds for both", |t| by(t, |_, k, d| common(k, k, d) > 0)),
    ("the distance with the other sign", |t| by(t, |j, k, d| common(j, k, -d) > 0)),
    ("bounds compared without the distance", |t| by(t, |j, k, _| common(j, k, 0) > 0)),
    ("the earlier loop's ends alone", |t| by(t, |j, k, d| has(k, j.0 + d) || has(k, j.1 + d))),
    ("the earlier loop's first alone", |t| by(t, |j, k, d| has(k, j.0 + d))),
    ("the earlier loop's last alone", |t| by(t, |j, k, d| has(k, j.1 + d))),
    ("the later loop's ends alone", |t| by(t, |j, k, d| has(j, k.0 - d) || has(j, k.1 - d))),
    ("a single meeting not counted", |t| by(t, |j, k, d| common(j, k, d) > 1)),
    ("a miss by one counted", |t| by(t, |j, k, d| common(j, k, d) > -1)),
    ("asked of backward distances alone", |t| by(t, |j, k, d| d >= 0 || common(j, k, d) > 0)),
    ("asked of forward distances alone", |t| by(t, |j, k, d| d <= 0 || common(j, k, d) > 0)),
    ("asked once for two loops", once_for_two_loops),
    ("chains through the same iterations alone", along_iterations),
    ("the first destination alone", |t| among(t, |number, one| number == 0 || !one.stores)),
    ("further destinations taken for reads", further_as_reads),
    ("the first statement's reads alone", |t| among(t, |number, one| number == 0 || one.stores)),
    ("the first statement alone", |t| among(t, |number, _| number == 0)),
    ("the last statement alone", last_statement),
    ("the last statement left out", without_last),
    ("two destinations not joined", stores_not_joined),
];

/// The references of a loop that are chosen by their statement's number.
fn among(table: &Table, chosen: fn(usize, &Access) -> bool) -> Vec<Amounts> {
    let some = |one: &Loop| chosen_of(one, chosen);
    amounts_of(&dependences_among(table, some, meet))
}

/// The same, for plans by hand as well.
pub fn chosen_of(one: &Loop, chosen: fn(usize, &Access) -> bool) -> Vec<Access> {
    let all = one.statements.iter().enumerate();
    let own = |(number, one): (usize, &Statement)| -> Vec<Access> {
        one.accesses().filter(|access| chosen(number, access)).collect()
    };
    all.flat_map(own).collect()
}

fn further_as_reads(table: &Table) -> Vec<Amounts> {
    let taken = |one: &Loop| {
        let mut all: Vec<Access> = one.accesses().collect();
        all.iter_mut().skip(1).for_each(|access| access.stores = false);
        all
    };
    amounts_of(&dependences_among(table, taken, meet))
}

fn last_statement(table: &Table) -> Vec<Amounts> {
    let last = |one: &Loop| {
        let last = one.statements.iter().last();
        last.map_or(Vec::new(), |last| last.accesses().collect())
    };
    amounts_of(&dependences_among(table, last, meet))
}

/// Of loops of several statements.
fn without_last(table: &Table) -> Vec<Amounts> {
    let front = |one: &Loop| {
        let count = one.statements.len();
        one.statements[..count.max(2) - 1].iter().flat_map(Statement::accesses).collect()
    };
    amounts_of(&dependences_among(table, front, meet))
}

/// Only a read and a destination make a dependence.
fn stores_not_joined(table: &Table) -> Vec<Amounts> {
    let mut all = dependences(table);
    let stores = |one: &Loop| one.accesses().filter(|access| access.stores).collect();
    for (row, stores) in all.iter_mut().zip(dependences_among(table, stores, meet)) {
        for store in stores {
            let place = row.iter().position(|one| *one == store);
            place.map(|place| row.remove(place));
        }
    }
    amounts_of(&all)
}

/// Whether a table has other shifts and peels than one whose loops' bounds are
/// not asked.
pub fn bounds_matter(table: &Table) -> bool {
    amounts(table) != by(table, |_, _, _| true)
}

/// First and last index.
type Bounds = (i64, i64);

fn bounds(one: &Loop) -> Bounds {
    (i64::from(one.first), i64::from(one.last))
}

fn by(table: &Table, rule: fn(Bounds, Bounds, i64) -> bool) -> Vec<Amounts> {
    amounts_of(&dependences_by(table, |one, other, d| rule(bounds(one), bounds(other), d)))
}

/// How many indices i of the one have i + d in the other; below 1 there are
/// none.
fn common(one: Bounds, other: Bounds, distance: i64) -> i64 {
    one.1.min(other.1 - distance) - one.0.max(other.0 - distance) + 1
}

fn has(bounds: Bounds, index: i64) -> bool {
    bounds.0 <= index && index <= bounds.1
}

/// Where one pair of references of two loops makes a dependence, all do.
fn once_for_two_loops(table: &Table) -> Vec<Amounts> {
    let right = dependences(table);
    let mut all = dependences_by(table, |_, _, _| true);
    for (row, right) in all.iter_mut().zip(right) {
        row.retain(|one| right.iter().any(|other| other.from == one.from));
    }
    amounts_of(&all)
}

/// A chain counts only where the iteration at which one dependence ends is
/// the one at which the next begins: for each loop the largest totals of the
/// chains that end at each of its iterations.
fn along_iterations(table: &Table) -> Vec<Amounts> {
    let ending = dependences(table);
    let mut found: Vec<Vec<Amounts>> = Vec::new();
    for (one, row) in table.loops.iter().zip(&ending) {
        let (first, last) = bounds(one);
        found.push((first..=last).map(|i| at_iteration(table, &found, row, i)).collect());
    }
    let largest = |all: &Vec<Amounts>| Amounts {
        shift: all.iter().map(|one| one.shift).max().unwrap_or(0),
        peel: all.iter().map(|one| one.peel).max().unwrap_or(0),
    };
    found.iter().map(largest).collect()
}

fn at_iteration(table: &Table, found: &[Vec<Amounts>], row: &[Dependence], i: i64) -> Amounts {
    let mut best = Amounts::default();
    for one in row {
        let (first, last) = bounds(&table.loops[one.from]);
        let i = i - one.distance;
        if has((first, last), i) {
            let before = found[one.from][(i - first) as usize];
            best.shift = best.shift.max(before.shift + one.backward());
            best.peel = best.peel.max(before.peel + one.forward());
        }
    }
    best
}

/// Of the tables, how many have pairs of each kind, and how many show that a
/// way is wrong.
#[derive(Default)]
pub struct Misjudged {
    tables: u64,
    /// By the most statements of a loop.
    statements: [u64; MOST_STATEMENTS + 1],
    kinds: [u64; KINDS.len()],
    shown: [u64; WAYS.len()],
}

/// Pairs of references to one array that are not two reads, by how many
/// iterations meet (below 1 none); j and k are the loops' bounds.
type Kind = fn(i64, Bounds, Bounds, i64) -> bool;

const KINDS: [(&str, Kind); 6] = [
    ("pairs that never meet", |count, _, _, _| count < 1),
    ("pairs that miss by one", |count, _, _, _| count == 0),
    ("pairs that meet in one iteration", |count, _, _, _| count == 1),
    ("pairs that meet inside the earlier loop alone", |_, j, k, d| j.0 < k.0 - d && k.1 - d < j.1),
    ("pairs that never meet at distance 510", |count, _, _, d| count < 1 && d.abs() == 510),
    ("pairs that never meet above index 65,535", |count, j, k, _| {
        count < 1 && j.1 > 65_535 && k.1 > 65_535
    }),
];

impl Misjudged {
    pub fn new() -> Misjudged {
        Misjudged::default()
    }

    pub fn add(&mut self, table: &Table) {
        self.tables += 1;
        let most = table.loops.iter().map(|one| one.statements.len()).max().unwrap_or(0);
        self.statements[most] += 1;
        let pairs = dependences_by(table, |_, _, _| true);
        for (count, (_, kind)) in self.kinds.iter_mut().zip(KINDS) {
            let is = |one: &Dependence| of_kind(table, one, kind);
            *count += u64::from(pairs.iter().flatten().any(is));
        }
        let right = amounts(table);
        for (count, (_, way)) in self.shown.iter_mut().zip(WAYS) {
            *count += u64::from(way(table) != right);
        }
    }

    pub fn print(&self, name: &str) {
        println!("{name}: {} tables, of which so many have", self.tables);
        for (count, tables) in self.statements.iter().enumerate().skip(1) {
            println!("  {tables:6} loops of {count} statements at most");
        }
        for (count, (kind, _)) in self.kinds.iter().zip(KINDS) {
            println!("  {count:6} {kind}");
        }
        println!("  and so many would show each mistake");
        for (count, (way, _)) in self.shown.iter().zip(WAYS) {
            println!("  {count:6} {way}");
        }
    }

    /// Ends the program where a kind of pair was made or a wrong way would
    /// have shown too seldom.
    pub fn require(&self, least: u64) {
        for (count, &tables) in self.statements.iter().enumerate().skip(1) {
            assert!(tables >= least, "{count} statements: {tables} tables, fewer than {least}");
        }
        for (count, (kind, _)) in self.kinds.iter().zip(KINDS) {
            assert!(*count >= least, "{kind}: in {count} tables, fewer than {least}");
        }
        for (count, (way, _)) in self.shown.iter().zip(WAYS) {
            assert!(*count >= least, "{way}: would show {count} times, fewer than {least}");
        }
    }
}

fn of_kind(table: &Table, pair: &Dependence, kind: Kind) -> bool {
    let (one, other) = (&table.loops[pair.from], &table.loops[pair.to]);
    kind(meetings(one, other, pair.distance), bounds(one), bounds(other), pair.distance)
}

#[cfg(test)]
mod tests {
    use super::*;
    use crate::boundaries::two_loops;
    use crate::encoder::Encoder;
    use crate::reader::read;

    /// The shift of loop 1 by each way.
    fn shifts(j: (u32, u32), k: (u32, u32), offset: i16) -> Vec<i64> {
        let table = read(&two_loops(j, k, &[offset])).expect("accepted");
        WAYS.iter().map(|(_, way)| way(&table)[1].shift).collect()
    }

    /// Loop 0 stores A0[i], loop 1 reads A0[i + 2].
    #[test]
    fn each_wrong_way_finds_what_its_words_say() {
        // Index 7 of loop 0 would be the first to meet index 5 of loop 1. A
        // way that is wrong here gives 2.
        let miss = shifts((1, 6), (5, 9), 2);
        assert_eq!(miss[..17], [2, 0, 2, 2, 2, 2, 2, 0, 0, 0, 0, 0, 2, 0, 2, 0, 0]);
        // It does, and it alone. A way that is wrong here gives 0.
        let one = shifts((1, 7), (5, 9), 2);
        assert_eq!(one[..17], [2, 2, 2, 2, 2, 2, 2, 2, 0, 2, 2, 0, 2, 2, 2, 2, 2]);
        // Indices 7 to 9 of loop 0, which has 1 to 12.
        let inside = shifts((1, 12), (5, 7), 2);
        assert_eq!(inside[..17], [2, 2, 2, 2, 2, 2, 2, 0, 0, 0, 2, 2, 2, 2, 2, 2, 2]);
        // Loop 1 ends before loop 0 begins.
        let before = shifts((5, 9), (1, 2), 2);
        assert_eq!(before[..17], [2, 2, 0, 2, 0, 0, 0, 0, 0, 0, 0, 0, 2, 0, 2, 0, 0]);
        // One statement a loop: all ways on statements are right.
        assert!(miss[17..].iter().all(|&shift| shift == 0));
        assert!(one[17..].iter().all(|&shift| shift == 2));
    }

    /// Loop 0 stores A0[i] and then A1[i]; loop 1 stores A2[i], which reads A0[i
    /// + 1], and then A3[i], which reads A1[i + 2]; loop 2 stores A0[i + 4].
    #[test]
    fn each_wrong_way_on_statements_finds_what_its_words_say() {
        let arrays = Encoder::new().repeat(4, |e| e.array(60));
        let first = arrays.a_loop(10, 49, 0, 0).constant(1).statement(1, 0).constant(2);
        let second = first.a_loop(10, 49, 2, 0).read(0, 1).statement(3, 0).read(1, 2);
        let table = read(&second.a_loop(10, 49, 0, 4).constant(3).end().bytes).expect("accepted");
        let found = |way: Way| way(&table).iter().map(|one| one.shift).collect::<Vec<i64>>();
        assert_eq!(amounts(&table).iter().map(|one| one.shift).collect::<Vec<i64>>(), [0, 2, 5]);
        let typed = [[0, 1, 4], [0, 1, 4], [0, 1, 4], [0, 1, 4], [0, 2, 0], [0, 1, 4], [0, 2, 5]];
        assert_eq!(WAYS[17..].iter().map(|(_, way)| found(*way)).collect::<Vec<_>>(), typed);
    }

    #[test]
    fn one_pair_that_meets_is_not_all_pairs() {
        let table = read(&two_loops((1, 6), (5, 9), &[1, 2])).expect("accepted");
        assert_eq!(amounts(&table)[1].shift, 1);
        assert_eq!(once_for_two_loops(&table)[1].shift, 2);
    }

    #[test]
    fn a_table_that_shows_nothing_is_too_little() {
        let table = read(&two_loops((1, 9), (1, 9), &[0])).expect("accepted");
        let mut misjudged = Misjudged::new();
        misjudged.add(&table);
        assert_eq!((misjudged.tables, misjudged.kinds[0], misjudged.shown[0]), (1, 0, 0));
        assert!(std::panic::catch_unwind(|| misjudged.require(1)).is_err());
    }
}
