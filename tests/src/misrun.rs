//! Wrong ways to run the statements of an iteration, and a count of the runs by
//! which each of them would be seen.

use crate::interpreter::{beginnings, element, evaluate, iteration};
use crate::memories::bits;
use crate::table::*;

/// One iteration of a loop: where the arrays begin, the memory, the index.
type Way = fn(&Loop, &[usize], &mut [f64], u32);

const WAYS: [(&str, Way); 7] = [
    ("statements in falling order", |one, begins, memory, index| {
        let falling = one.statements.iter().rev().cloned().collect();
        iteration(&Loop { statements: falling, ..*one }, begins, memory, index);
    }),
    ("all values first, then all stores", values_first),
    ("the first statement alone", |one, begins, memory, index| {
        some(one, begins, memory, index, |number, _| number == 0);
    }),
    ("the last statement alone", |one, begins, memory, index| {
        some(one, begins, memory, index, |number, count| number + 1 == count);
    }),
    ("the last statement left out", |one, begins, memory, index| {
        some(one, begins, memory, index, |number, count| count == 1 || number + 1 < count);
    }),
    ("all stored where the first statement does", |one, begins, memory, index| {
        let to = one.statements[0].destination;
        let moved = |one: &Statement| Statement { destination: to, ..one.clone() };
        let statements = one.statements.iter().map(moved).collect();
        iteration(&Loop { statements, ..*one }, begins, memory, index);
    }),
    ("the last value stored by all", |one, begins, memory, index| {
        let last = &one.statements[one.statements.len() - 1].items;
        let same = |one: &Statement| Statement { items: last.clone(), ..*one };
        let statements = one.statements.iter().map(same).collect();
        iteration(&Loop { statements, ..*one }, begins, memory, index);
    }),
];

fn values_first(one: &Loop, begins: &[usize], memory: &mut [f64], index: u32) {
    let values: Vec<f64> =
        one.statements.iter().map(|one| evaluate(one, begins, memory, index)).collect();
    for (statement, value) in one.statements.iter().zip(values) {
        memory[element(statement.destination, begins, index)] = value;
    }
}

/// The statements that are chosen by their number and the count of all.
fn some(
    one: &Loop,
    begins: &[usize],
    memory: &mut [f64],
    index: u32,
    chosen: fn(usize, usize) -> bool,
) {
    let count = one.statements.len();
    let all = one.statements.iter().cloned().enumerate();
    let kept = all.filter(|(number, _)| chosen(*number, count)).map(|(_, one)| one).collect();
    iteration(&Loop { statements: kept, ..*one }, begins, memory, index);
}

/// Of the runs, how many have several statements, and how many show that a way
/// is wrong.
#[derive(Default)]
pub struct Misrun {
    runs: u64,
    /// By the most statements of a loop.
    statements: [u64; MOST_STATEMENTS + 1],
    shown: [u64; WAYS.len()],
}

impl Misrun {
    pub fn new() -> Misrun {
        Misrun::default()
    }

    /// Counts one plain run of a table: the memory at its start and its end.
    pub fn add(&mut self, table: &Table, start: &[f64], end: &[f64]) {
        self.runs += 1;
        let most = table.loops.iter().map(|one| one.statements.len()).max().unwrap_or(0);
        self.statements[most] += 1;
        if most < 2 {
            return;
        }
        let wanted = bits(end);
        for (count, (_, way)) in self.shown.iter_mut().zip(WAYS) {
            *count += u64::from(bits(&by(table, start, way)) != wanted);
        }
    }

    pub fn print(&self, name: &str) {
        let several: u64 = self.statements[2..].iter().sum();
        println!("{name}: {} runs, {several} of several statements in a loop", self.runs);
        for (count, runs) in self.statements.iter().enumerate().skip(1) {
            println!("  {runs:6} of {count} at most");
        }
        println!("  and so many would show each mistake");
        for (count, (way, _)) in self.shown.iter().zip(WAYS) {
            println!("  {count:6} {way}");
        }
    }

    /// Ends the program where a count of statements was made or a wrong way
    /// would have shown too seldom.
    pub fn require(&self, least: u64) {
        for (count, &runs) in self.statements.iter().enumerate().skip(1) {
            assert!(runs >= least, "{count} statements: {runs} runs, fewer than {least}");
        }
        for (count, (way, _)) in self.shown.iter().zip(WAYS) {
            assert!(*count >= least, "{way}: would show {count} times, fewer than {least}");
        }
    }
}

/// The memory that the plain run leaves by this way.
fn by(table: &Table, start: &[f64], way: Way) -> Vec<f64> {
    let (begins, mut memory) = (beginnings(table), start.to_vec());
    for one in &table.loops {
        (one.first..=one.last).for_each(|index| way(one, &begins, &mut memory, index));
    }
    memory
}

#[cfg(test)]
mod tests {
    use super::*;
    use crate::encoder::Encoder;
    use crate::interpreter::plain_run;
    use crate::reader::read;

    /// A0[0] = A1[0] + 1, then A1[0] = A0[0] * 10.
    #[test]
    fn each_wrong_way_leaves_what_its_words_say() {
        let open = Encoder::new().array(1).array(1).a_loop(0, 0, 0, 0);
        let first = open.read(1, 0).constant(1).operation(1).statement(1, 0);
        let bytes = first.read(0, 0).constant(10).operation(3).end().bytes;
        let table = read(&bytes).expect("accepted");
        let start = [5.0, 7.0];
        let mut end = start;
        plain_run(&bytes, &mut end).expect("accepted");
        assert_eq!(end, [8.0, 80.0]);
        let left = WAYS.map(|(_, way)| by(&table, &start, way));
        let typed: [[f64; 2]; WAYS.len()] = [
            [51.0, 50.0],
            [8.0, 50.0],
            [8.0, 7.0],
            [5.0, 50.0],
            [8.0, 7.0],
            [80.0, 7.0],
            [50.0, 500.0],
        ];
        assert_eq!(left.map(|one| [one[0], one[1]]), typed);
        let mut misrun = Misrun::new();
        misrun.add(&table, &start, &end);
        assert_eq!(misrun.shown, [1; WAYS.len()]);
        assert!(std::panic::catch_unwind(|| misrun.require(1)).is_err());
    }
}
