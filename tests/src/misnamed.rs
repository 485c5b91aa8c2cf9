//! Wrong ways to name the pair of references of ground 9, and a count of the
//! tables by which each of them would be seen.

use crate::outcome::Refusal;
use crate::table::*;

/// The pair that a wrong way names for a table whose loop of this number is the
/// lowest serial one.
type Way = fn(&Table, usize) -> Option<Pair>;

/// The lower and the higher number.
type Pair = (usize, usize);

/// Here t is the table and k the loop, d the distance of a pair and n the count
/// of iterations.
const WAYS: [(&str, Way); 29] = [
    ("the pair 0 and 1", |_, _| Some((0, 1))),
    ("the highest colliding pair", |t, k| colliding(t, k).last().copied()),
    ("the first two references to one array", |t, k| by_distance(t, k, |_, _| true)),
    ("two references at the same offset", |t, k| by_distance(t, k, |d, n| d.abs() < n)),
    ("references farther apart than the bounds", |t, k| by_distance(t, k, |d, _| d != 0)),
    ("bounds one index too wide", |t, k| by_distance(t, k, |d, n| meets(d, n + 1))),
    ("bounds one index too narrow", |t, k| by_distance(t, k, |d, n| meets(d, n - 1))),
    ("the higher one ahead alone", |t, k| by_distance(t, k, |d, n| d > 0 && meets(d, n))),
    ("the higher one behind alone", |t, k| by_distance(t, k, |d, n| d < 0 && meets(d, n))),
    ("reads numbered without destinations", reads_alone),
    ("constants and operations counted too", records),
    ("references counted from the table's first", from_first),
    ("references of the first loop", |t, k| least(&t.loops[0], &t.loops[k])),
    ("the pair of the last serial loop", last_serial),
    ("the least by the higher number", |t, k| {
        colliding(t, k).into_iter().min_by_key(|&(lower, higher)| (higher, lower))
    }),
    ("the highest higher number", |t, k| {
        colliding(t, k).into_iter().min_by_key(|&(lower, higher)| (lower, usize::MAX - higher))
    }),
    ("the pair exchanged", |t, k| right(t, k).map(|(lower, higher)| (higher, lower))),
    ("the destination and the read, in that order", stored_first),
    ("the read r of before and 0", |t, k| {
        let of_read = colliding(t, k).into_iter().find(|pair| pair.0 == 0)?;
        Some((of_read.1 - 1, 0))
    }),
    ("two destinations not compared", |t, k| of(t, k, |one, other| !(one.1 && other.1))),
    ("the first destination alone compared", |t, k| of(t, k, |one, _| one.0 == 0)),
    ("the last destination alone compared", last_destination),
    ("two reads compared too", |t, k| pairs(&t.loops[k], &t.loops[k], true).first().copied()),
    ("a destination with later references alone", |t, k| of(t, k, |one, _| one.1)),
    ("a destination with earlier references alone", |t, k| of(t, k, |_, other| other.1)),
    ("references of one statement alone", |t, k| of_statements(t, k, |one, other| one == other)),
    ("references of two statements alone", |t, k| of_statements(t, k, |one, other| one != other)),
    ("destinations numbered behind their reads", behind_reads),
    ("numbers within the statement", within_statement),
];

/// References at distance d collide in a loop of n iterations, where one of
/// them stores.
fn meets(distance: i64, iterations: i64) -> bool {
    distance != 0 && distance.abs() < iterations
}

/// All pairs of references of a loop that collide in the bounds of another, in
/// rising order; those of two reads at will.
fn pairs(references: &Loop, bounds: &Loop, of_reads: bool) -> Vec<Pair> {
    let all: Vec<Access> = references.accesses().collect();
    let both = (0..all.len()).flat_map(|low| (low + 1..all.len()).map(move |high| (low, high)));
    let stores = |access: Access| Access { stores: access.stores || of_reads, ..access };
    both.filter(|&(low, high)| bounds.collide(stores(all[low]), all[high])).collect()
}

fn least(references: &Loop, bounds: &Loop) -> Option<Pair> {
    pairs(references, bounds, false).first().copied()
}

fn colliding(table: &Table, k: usize) -> Vec<Pair> {
    pairs(&table.loops[k], &table.loops[k], false)
}

fn right(table: &Table, k: usize) -> Option<Pair> {
    colliding(table, k).first().copied()
}

/// The least pair of references to one array, one of which stores, that counts
/// by its distance and the count of iterations.
fn by_distance(table: &Table, k: usize, counts: fn(i64, i64) -> bool) -> Option<Pair> {
    let one = &table.loops[k];
    let iterations = i64::from(one.last - one.first) + 1;
    let all: Vec<Access> = one.accesses().collect();
    let mut both = (0..all.len()).flat_map(|low| (low + 1..all.len()).map(move |high| (low, high)));
    both.find(|&(low, high)| {
        let (low, high) = (all[low], all[high]);
        let distance = i64::from(high.at.offset) - i64::from(low.at.offset);
        let joined = low.at.array == high.at.array && (low.stores || high.stores);
        joined && counts(distance, iterations)
    })
}

/// The least colliding pair of which both references, each as its number and
/// whether it stores, are such.
fn of(table: &Table, k: usize, such: fn((usize, bool), (usize, bool)) -> bool) -> Option<Pair> {
    let stores: Vec<bool> = table.loops[k].accesses().map(|access| access.stores).collect();
    let mut all = colliding(table, k).into_iter();
    all.find(|&(lower, higher)| such((lower, stores[lower]), (higher, stores[higher])))
}

fn last_destination(table: &Table, k: usize) -> Option<Pair> {
    let last = table.loops[k].accesses().collect::<Vec<Access>>().iter().rposition(|a| a.stores)?;
    colliding(table, k).into_iter().find(|&(lower, higher)| lower == last || higher == last)
}

/// Of each reference of a loop its statement.
fn statements_of(one: &Loop) -> Vec<usize> {
    let all = one.statements.iter().enumerate();
    all.flat_map(|(number, one)| one.accesses().map(move |_| number)).collect()
}

fn of_statements(table: &Table, k: usize, such: fn(usize, usize) -> bool) -> Option<Pair> {
    let own = statements_of(&table.loops[k]);
    let mut all = colliding(table, k).into_iter();
    all.find(|&(lower, higher)| such(own[lower], own[higher]))
}

/// The right pair by other numbers of the references.
fn renumbered(table: &Table, k: usize, numbers: &[usize]) -> Option<Pair> {
    right(table, k).map(|(lower, higher)| (numbers[lower], numbers[higher]))
}

/// Reads are counted among the reads, destinations among the destinations.
fn reads_alone(table: &Table, k: usize) -> Option<Pair> {
    let mut counts = [0, 0];
    let number = |access: Access| {
        let count = &mut counts[usize::from(access.stores)];
        *count += 1;
        *count - 1
    };
    let numbers: Vec<usize> = table.loops[k].accesses().map(number).collect();
    renumbered(table, k, &numbers)
}

/// A reference's number among the records of the loop.
fn records(table: &Table, k: usize) -> Option<Pair> {
    let mut numbers = Vec::new();
    let mut record = 0;
    for statement in &table.loops[k].statements {
        numbers.push(record);
        let items = statement.items.iter().zip(record + 1..);
        let reads = items.filter(|(item, _)| matches!(item, Item::Read(_)));
        numbers.extend(reads.map(|(_, at)| at));
        record += 1 + statement.items.len();
    }
    renumbered(table, k, &numbers)
}

fn from_first(table: &Table, k: usize) -> Option<Pair> {
    let before: usize = table.loops[..k].iter().map(|one| one.accesses().count()).sum();
    right(table, k).map(|(lower, higher)| (before + lower, before + higher))
}

fn last_serial(table: &Table, _: usize) -> Option<Pair> {
    (0..table.loops.len()).rev().find_map(|k| right(table, k))
}

/// The one that stores is told first, even if it stands behind the read.
fn stored_first(table: &Table, k: usize) -> Option<Pair> {
    let all: Vec<Access> = table.loops[k].accesses().collect();
    let (lower, higher) = right(table, k)?;
    Some(if all[lower].stores { (lower, higher) } else { (higher, lower) })
}

fn behind_reads(table: &Table, k: usize) -> Option<Pair> {
    let mut numbers = Vec::new();
    for statement in &table.loops[k].statements {
        let (begin, reads) = (numbers.len(), statement.reads().count());
        numbers.push(begin + reads);
        numbers.extend(begin..begin + reads);
    }
    renumbered(table, k, &numbers)
}

fn within_statement(table: &Table, k: usize) -> Option<Pair> {
    let own = |one: &Statement| 0..one.accesses().count();
    let numbers: Vec<usize> = table.loops[k].statements.iter().flat_map(own).collect();
    renumbered(table, k, &numbers)
}

/// Of the tables that were refused with 9, how many show that a way is wrong.
#[derive(Default)]
pub struct Misnamed {
    tables: u64,
    /// Those of which the serial loop is not the first.
    later: u64,
    /// Those of which it has several statements.
    several: u64,
    shown: [u64; WAYS.len()],
}

impl Misnamed {
    pub fn new() -> Misnamed {
        Misnamed::default()
    }

    /// Counts one table with the refusal that it got; other grounds than 9
    /// name no pair.
    pub fn add(&mut self, table: &Table, refusal: Option<&Refusal>) {
        let Some(refusal) = refusal.filter(|refusal| refusal.number == 9) else {
            return;
        };
        let place = refusal.place as usize;
        let named = refusal.named.map(|number| number as usize);
        self.tables += 1;
        self.later += u64::from(place > 0);
        self.several += u64::from(table.loops[place].statements.len() > 1);
        for (count, (_, way)) in self.shown.iter_mut().zip(WAYS) {
            *count += u64::from(way(table, place) != Some((named[0], named[1])));
        }
    }

    pub fn print(&self, name: &str) {
        println!("{name}: {} tables, of which so many would show each mistake", self.tables);
        println!("  {:6} the first loop instead of the serial one", self.later);
        println!("  ({} are by a loop of several statements)", self.several);
        for (count, (way, _)) in self.shown.iter().zip(WAYS) {
            println!("  {count:6} {way}");
        }
    }

    /// Ends the program where a wrong way would have shown too seldom.
    pub fn require(&self, least: u64) {
        assert!(self.later >= least, "too few tables with another serial loop than the first");
        assert!(self.several >= least, "too few serial loops of several statements");
        for (count, (way, _)) in self.shown.iter().zip(WAYS) {
            assert!(*count >= least, "{way}: would show {count} times, fewer than {least}");
        }
    }
}

#[cfg(test)]
mod tests {
    use super::*;

    fn summed(to: (u8, i16), reads: &[(u8, i16)]) -> Statement {
        let at = |(array, offset): (u8, i16)| Reference { array, offset };
        let mut items = vec![Item::Constant(7)];
        for &read in reads {
            items.extend([Item::Read(at(read)), Item::Operation(Operation::Add)]);
        }
        Statement { destination: at(to), items }
    }

    fn table(loops: Vec<Vec<Statement>>) -> Table {
        let one = |statements| Loop { first: 10, last: 14, statements };
        Table { arrays: vec![30; 3], loops: loops.into_iter().map(one).collect() }
    }

    fn named(table: &Table, k: usize, name: &str) -> Option<Pair> {
        let way = WAYS.iter().find(|(way, _)| *way == name).expect("a way of this name");
        (way.1)(table, k)
    }

    /// Five iterations. Of loop 1, which has one statement, the reads 3, 4 and
    /// 5 collide with the destination: these are references 4, 5 and 6.
    #[test]
    fn each_wrong_way_names_what_its_words_say() {
        let second = [(1, 2), (0, 0), (0, 5), (0, -4), (0, 3), (0, -1)];
        let table = table(vec![
            vec![summed((0, 0), &[(1, 1), (1, 0), (0, 0)])],
            vec![summed((0, 0), &second)],
            vec![summed((0, 0), &[(0, 1)])],
        ]);
        assert_eq!(right(&table, 1), Some((0, 4)));
        let named = WAYS.map(|(_, way)| way(&table, 1));
        let seconds = [1, 6, 2, 2, 3, 3, 5, 5, 4];
        assert_eq!(named[..9], seconds.map(|higher| Some((0, higher))));
        // Read 3, record 8, and four references of the loop before.
        assert_eq!(named[9..12], [Some((0, 3)), Some((0, 8)), Some((4, 8))]);
        // The first loop has no pair, the last has one.
        assert_eq!(named[12..14], [None, Some((0, 1))]);
        assert_eq!(named[14..19], [(0, 4), (0, 6), (4, 0), (0, 4), (3, 0)].map(Some));
    }

    /// References: 0 stores A0[i], 1 reads A2[i + 1], 2 reads A1[i + 1]; 3
    /// stores A1[i]; 4 stores A2[i], 5 reads A2[i - 1]; 6 stores A2[i + 2].
    #[test]
    fn each_wrong_way_on_statements_names_what_its_words_say() {
        let table = table(vec![vec![
            summed((0, 0), &[(2, 1), (1, 1)]),
            summed((1, 0), &[]),
            summed((2, 0), &[(2, -1)]),
            summed((2, 2), &[]),
        ]]);
        assert_eq!(colliding(&table, 0), [(1, 4), (1, 6), (2, 3), (4, 5), (4, 6), (5, 6)]);
        for (name, wanted) in [
            ("the highest colliding pair", Some((5, 6))),
            ("reads numbered without destinations", Some((0, 2))),
            ("constants and operations counted too", Some((2, 8))),
            ("the least by the higher number", Some((2, 3))),
            ("the highest higher number", Some((1, 6))),
            ("the pair exchanged", Some((4, 1))),
            ("the destination and the read, in that order", Some((4, 1))),
            ("the read r of before and 0", None),
            ("two destinations not compared", Some((1, 4))),
            ("the first destination alone compared", None),
            ("the last destination alone compared", Some((1, 6))),
            ("two reads compared too", Some((1, 4))),
            ("a destination with later references alone", Some((4, 5))),
            ("a destination with earlier references alone", Some((1, 4))),
            ("references of one statement alone", Some((4, 5))),
            ("references of two statements alone", Some((1, 4))),
            ("destinations numbered behind their reads", Some((0, 5))),
            ("numbers within the statement", Some((1, 0))),
        ] {
            assert_eq!(named(&table, 0, name), wanted, "{name}");
        }
    }

    #[test]
    fn a_table_that_shows_nothing_is_too_little() {
        let table = table(vec![vec![summed((0, 0), &[(0, 1)])]]);
        let mut misnamed = Misnamed::new();
        misnamed.add(&table, Some(&Refusal::serial(0, (0, 1))));
        misnamed.add(&table, Some(&Refusal::new(8, 3)));
        assert_eq!((misnamed.tables, misnamed.later, misnamed.shown[0]), (1, 0, 0));
        assert!(std::panic::catch_unwind(|| misnamed.require(1)).is_err());
    }
}
