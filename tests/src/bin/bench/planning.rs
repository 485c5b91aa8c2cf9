//! Planning for 16 processors: shifts, peels, blocks and ranges, which is the
//! work of the listing. Lines have one iteration where nothing else is said.

use crate::by_hand;
use std::hint::black_box;
use vempaldi_checks::blocks::plan;
use vempaldi_checks::bodies::{self, Setting};
use vempaldi_checks::encoder::encode;
use vempaldi_checks::join::join;
use vempaldi_checks::library::join as join_by_library;
use vempaldi_checks::library_planning as library;
use vempaldi_checks::listing::lines;
use vempaldi_checks::measure::{self, Pair};
use vempaldi_checks::outputs;
use vempaldi_checks::random::Random;
use vempaldi_checks::settings::Settings;
use vempaldi_checks::table::*;
use vempaldi_checks::tables;

const SIXTEEN: Settings = Settings::of(16);
/// What a cache line of 64 bytes holds.
const LINED: Settings = Settings::new(16, 8);
const TABLES: usize = 400;
const ROUNDS: usize = 20;
/// Longer than any listing.
const ROOM: usize = 65_536;

pub fn measure() {
    let mut random = Random::new(1);
    let mixed = repeat(TABLES, || accepted(|| mixed(&mut random)));
    compare("planning 400 mixed tables for 16 processors", &mixed);
    let full = repeat(16, || accepted(|| tables::full(&mut random, 1, 4, 4)));
    compare("planning full tables, each array stored once", &full);
    let dense = repeat(16, || accepted(|| dense(&mut random)));
    compare("planning full tables, two arrays shared by all loops", &dense);
    compare_amounts("shifts and peels alone, 400 mixed tables", &mixed);
    compare_amounts("shifts and peels alone, full tables, each array stored once", &full);
    compare_amounts("shifts and peels alone, full tables, two arrays shared", &dense);
    compare_amounts(
        "shifts and peels alone, each array stored once, each loop a sixteenth of the indices",
        &full.iter().map(sixteenths).collect::<Vec<Table>>(),
    );
    compare_amounts(
        "shifts and peels alone, two arrays shared, each loop a sixteenth of the indices",
        &dense.iter().map(sixteenths).collect::<Vec<Table>>(),
    );
    compare_facts("facts, 400 mixed tables", &mixed);
    compare_facts("facts, full tables", &full);
    compare_sweeps("sweeps, 400 mixed tables", &mixed);
    compare_sweeps("sweeps, full tables", &full);
    compare_joins("joining the halves of full tables", &full);
    let name = "fused and peeled ranges of all 16 processors, 400 mixed tables";
    compare_ranges(name, &mixed, SIXTEEN);
    let name = "fused and peeled ranges of all 16 processors, full tables";
    compare_ranges(name, &full, SIXTEEN);
    in_lines(&mixed, &full);
    by_hand::measure("400 mixed tables", &mixed, SIXTEEN);
    by_hand::measure("full tables, each array stored once", &full, SIXTEEN);
    by_hand::measure("full tables, two arrays shared", &dense, SIXTEEN);
}

/// The same tables with blocks on lines of eight iterations.
fn in_lines(mixed: &[Table], full: &[Table]) {
    let name = "planning 400 mixed tables for 16 processors, lines of 8";
    measure::print(name, "table", &listings(mixed, LINED));
    let name = "planning full tables, each array stored once, lines of 8";
    measure::print(name, "table", &listings(full, LINED));
    measure::print("plan and blocks alone, 400 mixed tables", "table", &plans(mixed, SIXTEEN));
    let name = "plan and blocks alone, 400 mixed tables, lines of 8";
    measure::print(name, "table", &plans(mixed, LINED));
    let name = "fused and peeled ranges of all 16 processors, 400 mixed tables, lines of 8";
    compare_ranges(name, mixed, LINED);
}

fn repeat(count: usize, mut make: impl FnMut() -> Table) -> Vec<Table> {
    (0..count).map(|_| make()).collect()
}

/// The first table made that has a plan, with lines of one iteration and of
/// eight.
fn accepted(mut make: impl FnMut() -> Table) -> Table {
    loop {
        let table = make();
        if [SIXTEEN, LINED].iter().all(|&settings| plan(&table, settings).is_ok()) {
            return table;
        }
    }
}

fn compare(name: &str, tables: &[Table]) {
    measure::print(name, "table", &listings(tables, SIXTEEN));
}

/// Every table by both, as bytes; the library's side also gets room for its
/// output.
fn beside<A, B>(
    tables: &[Table],
    mut ours: impl FnMut(&[u8], &mut [u8]) -> A,
    mut theirs: impl FnMut(&[u8]) -> B,
) -> Pair {
    let made: Vec<Vec<u8>> = tables.iter().map(encode).collect();
    let mut out = vec![0; ROOM];
    measure::beside(
        ROUNDS,
        made.len(),
        || {
            for table in &made {
                black_box(ours(black_box(table), &mut out));
            }
        },
        || {
            for table in &made {
                black_box(theirs(black_box(table)));
            }
        },
    )
}

/// The listings of tables by both.
pub fn listings(tables: &[Table], settings: Settings) -> Pair {
    beside(
        tables,
        |table, out| library::listing(table, settings, out),
        |table| lines(table, settings),
    )
}

/// Reading the table and finding shifts and peels, without any text.
fn compare_amounts(name: &str, tables: &[Table]) {
    let pair =
        beside(tables, library::shifts_and_peels, |table| outputs::shifts_and_peels(table, ROOM));
    measure::print(name, "table", &pair);
}

/// Reading the table and telling what it has.
fn compare_facts(name: &str, tables: &[Table]) {
    let pair = beside(tables, library::facts, |table| outputs::facts(table, ROOM));
    measure::print(name, "table", &pair);
}

/// Reading the table and counting the arrays that its loops go over.
fn compare_sweeps(name: &str, tables: &[Table]) {
    let pair = beside(tables, library::sweeps, |table| outputs::sweeps(table, ROOM));
    measure::print(name, "table", &pair);
}

/// Each table's first and second eight loops, as two tables that are joined.
fn compare_joins(name: &str, tables: &[Table]) {
    let half = |table: &Table, from: usize| {
        encode(&Table { arrays: table.arrays.clone(), loops: table.loops[from..from + 8].to_vec() })
    };
    let halves: Vec<(Vec<u8>, Vec<u8>)> =
        tables.iter().map(|table| (half(table, 0), half(table, 8))).collect();
    let mut out = vec![0; ROOM];
    let pair = measure::beside(
        ROUNDS,
        halves.len(),
        || {
            for (left, right) in &halves {
                black_box(join_by_library(black_box(left), black_box(right), &mut out));
            }
        },
        || {
            for (left, right) in &halves {
                black_box(join(black_box(left), black_box(right), ROOM)).expect("accepted");
            }
        },
    );
    measure::print(name, "table", &pair);
}

/// What a code generator asks for: both calls for each processor, each of
/// which reads and plans the table again.
fn compare_ranges(name: &str, tables: &[Table], settings: Settings) {
    let pair = beside(
        tables,
        |table, out| {
            for processor in 0..settings.processors {
                black_box(library::fused_ranges(table, settings, processor, out));
                black_box(library::peeled_ranges(table, settings, processor, out));
            }
        },
        |table| {
            for processor in 0..settings.processors {
                let _ = black_box(outputs::fused_ranges(table, settings, processor, ROOM));
                let _ = black_box(outputs::peeled_ranges(table, settings, processor, ROOM));
            }
        },
    );
    measure::print(name, "table", &pair);
}

/// The plan of each table and its blocks, without any text.
fn plans(tables: &[Table], settings: Settings) -> Pair {
    beside(
        tables,
        |table, out| library::blocks(table, settings, out),
        |table| outputs::blocks(table, settings, ROOM),
    )
}

/// The same tables with loops ten and a hundred times as long: the ranges
/// are worked out without counting iterations, so the time stays. The listing
/// has longer numbers to print; the plan and its blocks alone do not.
pub fn lengths() {
    let mut random = Random::new(4);
    let base = repeat(100, || accepted(|| near(&mut random)));
    let longer = [1, 10, 100]
        .map(|factor| -> Vec<Table> { base.iter().map(|table| lengthen(table, factor)).collect() });
    let listed = longer.each_ref().map(|tables| listings(tables, SIXTEEN));
    let name = "planning, 640, 6,400, 64,000 iterations a loop";
    measure::print_growth(name, "table", &listed);
    let name = "plan and blocks alone, 640, 6,400, 64,000 iterations a loop";
    for (settings, lines) in [(SIXTEEN, ""), (LINED, ", lines of 8")] {
        let planned = longer.each_ref().map(|tables| plans(tables, settings));
        measure::print_growth(&format!("{name}{lines}"), "table", &planned);
    }
}

/// 2 to 16 loops of 1 to 32 items over 16 arrays.
fn mixed(random: &mut Random) -> Table {
    let arrays = vec![16_384; MOST_ARRAYS];
    let loops = random.between(2, 16);
    let loops = (0..loops)
        .map(|_| {
            let store = random.below(MOST_ARRAYS) as u8;
            let items = random.between(1, 32) as usize;
            a_loop(random, &arrays, 8, 16_000, store, items)
        })
        .collect();
    Table { arrays, loops }
}

/// Few indices and offsets next to 0, so that the shortest still has a plan.
fn near(random: &mut Random) -> Table {
    let arrays = vec![642; 4];
    let loops = random.between(2, 16);
    let loops = (0..loops)
        .map(|_| {
            let store = random.below(arrays.len()) as u8;
            let items = random.between(1, 32) as usize;
            a_loop(random, &arrays, 1, 640, store, items)
        })
        .collect();
    Table { arrays, loops }
}

fn lengthen(table: &Table, factor: u32) -> Table {
    let mut longer = table.clone();
    for length in &mut longer.arrays {
        *length = (*length - 2) * factor + 2;
    }
    for one in &mut longer.loops {
        one.last *= factor;
    }
    longer
}

/// Every loop stores one of two arrays and reads the other 16 times, so that
/// about half of the pairs with a store among them make a dependence.
fn dense(random: &mut Random) -> Table {
    let arrays = vec![65_536; 2];
    let loops = (0..MOST_LOOPS)
        .map(|k| {
            let (store, read) = ((k % 2) as u8, ((k + 1) % 2) as u8);
            let operand = |random: &mut Random| {
                let offset = random.between(-8, 8) as i16;
                Item::Read(Reference { array: read, offset })
            };
            let destination = Reference { array: store, offset: 0 };
            let items = bodies::full(random, 1, operand).concat();
            Loop::of_one(8, 65_000, destination, items)
        })
        .collect();
    Table { arrays, loops }
}

/// The same table with its sixteen loops one behind the other, each over a
/// sixteenth of the indices: at most neighbours meet, and no other two.
fn sixteenths(table: &Table) -> Table {
    let mut parted = table.clone();
    for (k, one) in parted.loops.iter_mut().enumerate() {
        let part = (one.last - one.first + 1) / MOST_LOOPS as u32;
        one.first += k as u32 * part;
        one.last = one.first + part - 1;
    }
    parted
}

/// A loop from `margin` to `last` whose references lie within `margin`.
pub fn a_loop(
    random: &mut Random,
    arrays: &[u32],
    margin: u32,
    last: u32,
    store: u8,
    items: usize,
) -> Loop {
    let near = i64::from(margin);
    let destination = Reference { array: store, offset: random.between(-near, near) as i16 };
    let destinations = vec![destination];
    let setting =
        Setting { arrays, first: margin, last, destinations, offset: near, serial: false };
    bodies::a_loop(random, setting, 1, items)
}
