//! The plain run, the run in a caller's order, and a single public step.

use std::hint::black_box;
use vempaldi_checks::blocks::plan;
use vempaldi_checks::encoder::{encode, Encoder};
use vempaldi_checks::examples::EXAMPLE;
use vempaldi_checks::interpreter::plain_run;
use vempaldi_checks::library_running as library;
use vempaldi_checks::measure::{self, Pair};
use vempaldi_checks::random::Random;
use vempaldi_checks::reader::read;
use vempaldi_checks::settings::Settings;
use vempaldi_checks::stepping::run;
use vempaldi_checks::table::Loop;
use vempaldi_checks::tables;

const SIXTEEN: Settings = Settings::of(16);
/// What a cache line of 64 bytes holds.
const LINED: Settings = Settings::new(16, 8);

pub fn measure() {
    let table = two_loops(50_000);
    measure::print("plain run, 7 items, 100,000 iterations", "iteration", &plain(&table));
    let pair = caller_order(&table, SIXTEEN);
    measure::print("run in a caller's order, 16 processors", "iteration", &pair);
    let pair = caller_order(&table, LINED);
    measure::print("run in a caller's order, 16 processors, lines of 8", "iteration", &pair);
    let full = encode(&tables::full(&mut Random::new(1), 1, 4, 4));
    step("the example, 2 processors", &EXAMPLE, Settings::of(2));
    step("two loops of 50,000, 16 processors", &table, SIXTEEN);
    step("two loops of 50,000, 16 processors, lines of 8", &table, LINED);
    step("a full table, 16 processors", &full, SIXTEEN);
}

/// How the cost of an iteration grows with iterations and with processors.
pub fn growth() {
    let longer = [500, 5_000, 50_000];
    let plain_runs = longer.map(|count| plain(&two_loops(count)));
    let name = "plain run, 1,000, 10,000, 100,000 iterations";
    measure::print_growth(name, "iteration", &plain_runs);
    let runs = longer.map(|count| caller_order(&two_loops(count), SIXTEEN));
    let name = "run in a caller's order, 1,000, 10,000, 100,000 iterations";
    measure::print_growth(name, "iteration", &runs);
    let table = two_loops(5_000);
    let runs = [1, 4, 16, 64].map(|count| caller_order(&table, Settings::of(count)));
    let name = "run in a caller's order, 1, 4, 16, 64 processors";
    measure::print_growth(name, "iteration", &runs);
}

/// Two loops, each with a body of seven items. An array has at most 65,536
/// elements, so that two loops of 50,000 are needed for 100,000 iterations.
fn two_loops(count: u32) -> Vec<u8> {
    let body = |encoder: Encoder, array: u8| {
        let encoder = encoder.read(array, -1).read(array, 1).operation(1);
        encoder.read(array, 0).operation(3).constant(2).operation(4)
    };
    let encoder = Encoder::new().repeat(3, |e| e.array(count + 2));
    let encoder = body(encoder.a_loop(1, count, 1, 0), 0);
    body(encoder.a_loop(1, count, 2, 0), 1).end().bytes
}

/// Numbers between 1 and 2, so that no result grows beyond all bounds.
fn memory(length: usize) -> Vec<f64> {
    (0..length).map(|at| 1.0 + (at % 1_000) as f64 / 1_000.0).collect()
}

/// Keeps the compiler from leaving out the work behind a result.
fn keep<T>(result: T) {
    black_box(result);
}

fn length(table: &[u8]) -> usize {
    read(table).expect("accepted").elements() as usize
}

fn iterations(table: &[u8]) -> usize {
    let count = |one: &Loop| (one.last - one.first + 1) as usize;
    read(table).expect("accepted").loops.iter().map(count).sum()
}

fn plain(table: &[u8]) -> Pair {
    let mut found = memory(length(table));
    let mut wanted = found.clone();
    measure::beside(
        20,
        iterations(table),
        || keep(library::plain_run(black_box(table), &mut found)),
        || keep(plain_run(black_box(table), &mut wanted)),
    )
}

/// Half of the iterations are named by the caller, the rest follow from the
/// lowest processor on.
fn caller_order(table: &[u8], settings: Settings) -> Pair {
    let mut random = Random::new(2);
    let (count, processors) = (iterations(table), settings.processors as usize);
    let order: Vec<u8> = (0..count / 2).map(|_| random.below(processors) as u8).collect();
    let mut found = memory(length(table));
    let mut wanted = found.clone();
    measure::beside(
        3,
        count,
        || keep(library::run(black_box(table), settings, &order, &mut found)),
        || keep(run(black_box(table), settings, &order, &mut wanted)),
    )
}

/// The library's step reads and plans its table anew in each call. The second
/// implementation makes whole lists for a step, which would compare unlike
/// things; beside it stands its reading and planning alone.
fn step(name: &str, table: &[u8], settings: Settings) {
    let mut found = memory(length(table));
    let calls = 100;
    let pair = measure::beside(
        5,
        calls,
        || {
            let mut counts = [0; 64];
            let mut report = [0; 3];
            for _ in 0..calls {
                // Where the list of processor 1 is used up, it waits.
                keep(library::step(table, settings, 1, &mut counts, &mut found, &mut report));
            }
        },
        || {
            for _ in 0..calls {
                let table = read(black_box(table)).expect("accepted");
                keep(plan(&table, settings));
            }
        },
    );
    let name = format!("a public step, {name} (beside reading and planning alone)");
    measure::print(&name, "call", &pair);
}
