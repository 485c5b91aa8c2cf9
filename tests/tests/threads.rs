//! Calls in several threads at once, without a lock, as the header allows.
//! Each thread lends outputs, memories and counts of its own, and has tables
//! of its own beside some that all threads read. Each call has to come to what
//! the same call came to when it was made alone.
//!
//! An argument is the count of rounds in place of the usual one, for runs
//! under a checker of threads.

#[path = "threads/calls.rs"]
mod calls;
#[path = "threads/rounds.rs"]
mod rounds;

use calls::{Came, Given, ENTRIES};
use rounds::{Made, STEPS};
use std::sync::Barrier;
use std::thread;
use vempaldi_checks::tally::Tally;

const THREADS: u64 = 4;
const ROUNDS: usize = 1_000;
/// How often a thread goes through its rounds, entry by entry.
const PASSES: usize = 10;
const CALLS: usize = ENTRIES.len() - 1 + STEPS;
const COMMON: usize = 40;

/// The rounds of a thread, and what each entry came to alone.
struct Row<'a> {
    rounds: Vec<Given<'a>>,
    alone: Vec<[Came; ENTRIES.len()]>,
}

fn main() {
    let given = std::env::args().nth(1).and_then(|word| word.parse().ok());
    let count = given.unwrap_or(ROUNDS);
    let common = rounds::tables(100, COMMON);
    let own: Vec<Vec<Made>> = (0..THREADS).map(|seed| rounds::tables(seed, count)).collect();
    let rows: Vec<Row> = (0..).zip(&own).map(|(seed, own)| alone(seed, own, &common)).collect();
    at_once(&rows);
    let mut tally = Tally::new();
    let all = rows.iter().flat_map(|row| row.alone.iter().flatten());
    all.for_each(|came| tally.add(came.answer[0]));
    tally.print(&format!("calls in {THREADS} threads at once"));
    let calls = (PASSES + 1) * CALLS * count;
    println!("  {calls} calls in each thread came to what they came to alone");
    if given.is_none() {
        tally.require(&[0, 1, 2, 3, 5, 6, 7, 8, 9, 10, 11, 12, 13, 15, 17, 19, 20], 20);
    }
}

fn alone<'a>(seed: u64, own: &'a [Made], common: &'a [Made]) -> Row<'a> {
    let rounds = rounds::rounds(seed, own, common);
    let alone = rounds.iter().map(|round| ENTRIES.map(|entry| (entry.call)(round))).collect();
    Row { rounds, alone }
}

fn at_once(rows: &[Row]) {
    let gate = Barrier::new(rows.len());
    thread::scope(|scope| {
        for (number, row) in rows.iter().enumerate() {
            let gate = &gate;
            scope.spawn(move || again(number, row, gate));
        }
    });
}

/// First entry by entry, and none begins an entry before all do, so that
/// threads are in the same one at the same time; then round by round.
fn again(number: usize, row: &Row, gate: &Barrier) {
    for _ in 0..PASSES {
        for entry in 0..ENTRIES.len() {
            gate.wait();
            (0..row.rounds.len()).for_each(|at| compare(number, row, at, entry));
        }
    }
    gate.wait();
    for at in 0..row.rounds.len() {
        (0..ENTRIES.len()).for_each(|entry| compare(number, row, at, entry));
    }
}

fn compare(number: usize, row: &Row, at: usize, entry: usize) {
    let (alone, together) = (&row.alone[at][entry], (ENTRIES[entry].call)(&row.rounds[at]));
    if *alone != together {
        eprintln!("{}, thread {number}, round {at}: not as alone", ENTRIES[entry].name);
        eprintln!("  alone    {alone:?}");
        eprintln!("  together {together:?}");
        std::process::exit(1);
    }
}
