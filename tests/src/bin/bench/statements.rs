//! Loops of 1, 2 and 4 statements with the same count of items, per item.

use std::hint::black_box;
use vempaldi_checks::encoder::encode;
use vempaldi_checks::library;
use vempaldi_checks::measure::{self, print_growth, Pair};
use vempaldi_checks::random::Random;
use vempaldi_checks::reader::read;
use vempaldi_checks::table::{Loop, Table};
use vempaldi_checks::tables;

const COUNTS: [usize; 3] = [1, 2, 4];
const TABLES: usize = 16;
const ROUNDS: usize = 20;
/// A table takes microseconds, so each is read several times a round.
const REPEATS: usize = 20;

pub fn measure() {
    for (name, reads) in [("constants alone", 0), ("reads and constants", 2), ("reads alone", 4)] {
        let name = format!("reading full tables, {name}, 1, 2, 4 statements a loop");
        print_growth(&name, "item", &COUNTS.map(|count| reading(count, reads)));
    }
    #[cfg(feature = "planning")]
    planning::measure();
    #[cfg(feature = "running")]
    running::measure();
}

/// Full tables: 16 loops of 32 items over so many statements.
fn full(statements: usize, reads: usize) -> Vec<Table> {
    let mut random = Random::new(5);
    (0..TABLES).map(|_| tables::full(&mut random, statements, reads, 4)).collect()
}

fn items(table: &Table) -> usize {
    table.loops.iter().map(Loop::items).sum()
}

fn reading(statements: usize, reads: usize) -> Pair {
    let tables = full(statements, reads);
    let units = REPEATS * tables.iter().map(items).sum::<usize>();
    let made: Vec<Vec<u8>> = tables.iter().map(encode).collect();
    measure::beside(ROUNDS, units, || each(&made, library::check), || each(&made, read))
}

/// Keeps the compiler from leaving out the work behind a result.
#[cfg(any(feature = "planning", feature = "running"))]
fn keep<T>(result: T) {
    black_box(result);
}

fn each<T>(tables: &[Vec<u8>], work: impl Fn(&[u8]) -> T) {
    for _ in 0..REPEATS {
        for table in tables {
            black_box(work(black_box(table)));
        }
    }
}

#[cfg(feature = "planning")]
mod planning {
    use super::*;
    use vempaldi_checks::library_planning as library;
    use vempaldi_checks::outputs;
    use vempaldi_checks::settings::Settings;

    const ROOM: usize = 65_536;

    /// More statements have more destinations, each of which is compared with
    /// all references of the other loops.
    pub fn measure() {
        let name = "shifts and peels alone, full tables, 1, 2, 4 statements a loop";
        print_growth(name, "item", &COUNTS.map(amounts));
        let name = "plan and blocks alone, full tables, 1, 2, 4 statements a loop";
        print_growth(name, "item", &COUNTS.map(blocks));
    }

    fn amounts(statements: usize) -> Pair {
        beside(statements, library::shifts_and_peels, |t| outputs::shifts_and_peels(t, ROOM))
    }

    /// For one processor, so that no table lacks a plan.
    fn blocks(statements: usize) -> Pair {
        let one = Settings::of(1);
        beside(
            statements,
            |table, out| library::blocks(table, one, out),
            |table| outputs::blocks(table, one, ROOM),
        )
    }

    fn beside<A, B>(
        statements: usize,
        ours: impl Fn(&[u8], &mut [u8]) -> A,
        theirs: impl Fn(&[u8]) -> B,
    ) -> Pair {
        let tables = full(statements, 4);
        let units = tables.iter().map(items).sum();
        let made: Vec<Vec<u8>> = tables.iter().map(encode).collect();
        let mut out = vec![0; ROOM];
        measure::beside(
            ROUNDS,
            units,
            || made.iter().for_each(|table| keep(ours(black_box(table), &mut out))),
            || made.iter().for_each(|table| keep(theirs(black_box(table)))),
        )
    }
}

#[cfg(feature = "running")]
mod running {
    use super::*;
    use vempaldi_checks::encoder::Encoder;
    use vempaldi_checks::interpreter::plain_run;
    use vempaldi_checks::library_running as library;
    use vempaldi_checks::settings::Settings;
    use vempaldi_checks::stepping::run;

    /// Iterations of a loop, and the items of each.
    const LONG: u32 = 20_000;
    const SHORT: u32 = 5_000;
    const ITEMS: usize = 24;
    const SIXTEEN: Settings = Settings::of(16);

    pub fn measure() {
        let name = "plain run, 24 items, 1, 2, 4 statements a loop";
        print_growth(name, "item", &COUNTS.map(plain));
        let name = "run in a caller's order, 24 items, 16 processors, 1, 2, 4 statements a loop";
        print_growth(name, "item", &COUNTS.map(caller_order));
    }

    /// Two loops of 24 items over so many statements. Each statement stores an
    /// array of its own; those of the first loop read array 8, those of the
    /// second what the first statement of the first loop stores.
    fn two_loops(count: u32, statements: usize) -> Vec<u8> {
        let mut encoder = Encoder::new().repeat(9, |e| e.array(count + 2));
        for (begin, from) in [(0, 8), (4, 0)] {
            encoder = body(encoder.a_loop(1, count, begin, 0), from, ITEMS / statements);
            for number in 1..statements as u8 {
                encoder = body(encoder.statement(begin + number, 0), from, ITEMS / statements);
            }
        }
        encoder.end().bytes
    }

    /// Six items at a time: two reads, a constant, and an operation for each.
    fn body(encoder: Encoder, from: u8, items: usize) -> Encoder {
        (0..items / 6).fold(encoder, |encoder, turn| {
            let first = encoder.read(from, -1).operation(if turn == 0 { 5 } else { 1 });
            first.read(from, 1).operation(2).constant(2).operation(4)
        })
    }

    /// Numbers between 1 and 2, so that no result grows beyond all bounds.
    fn memory(bytes: &[u8]) -> (Vec<f64>, usize) {
        let table = read(bytes).expect("accepted");
        let iterations = |one: &Loop| (one.last - one.first + 1) as usize * one.items();
        let units = table.loops.iter().map(iterations).sum();
        let number = |at: u64| 1.0 + (at % 1_000) as f64 / 1_000.0;
        ((0..table.elements()).map(number).collect(), units)
    }

    fn plain(statements: usize) -> Pair {
        let table = two_loops(LONG, statements);
        let (mut found, units) = memory(&table);
        let mut wanted = found.clone();
        measure::beside(
            ROUNDS,
            units,
            || keep(library::plain_run(black_box(&table), &mut found)),
            || keep(plain_run(black_box(&table), &mut wanted)),
        )
    }

    /// Half of the iterations are named by the caller.
    fn caller_order(statements: usize) -> Pair {
        let table = two_loops(SHORT, statements);
        let mut random = Random::new(2);
        let order: Vec<u8> = (0..SHORT).map(|_| random.below(16) as u8).collect();
        let (mut found, units) = memory(&table);
        let mut wanted = found.clone();
        measure::beside(
            5,
            units,
            || keep(library::run(black_box(&table), SIXTEEN, &order, &mut found)),
            || keep(run(black_box(&table), SIXTEEN, &order, &mut wanted)),
        )
    }
}
