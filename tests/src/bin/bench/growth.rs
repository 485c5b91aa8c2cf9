//! How the cost of a plan (the listing) grows with loops, items, iterations and processors, each by itself.

use crate::planning::{a_loop, lengths, listings};
use vempaldi_checks::blocks::plan;
use vempaldi_checks::measure::{print_growth, Pair};
use vempaldi_checks::random::Random;
use vempaldi_checks::settings::Settings;
use vempaldi_checks::table::Table;

const TABLES: usize = 40;
const ARRAYS: usize = 4;
/// What the other lines keep fixed.
const LOOPS: usize = 8;
const ITEMS: usize = 15;
const INDICES: u32 = 6_400;
const PROCESSORS: u32 = 16;

pub fn measure() {
    let loops = [1, 2, 4, 8, 16];
    let by_loops = loops.map(|count| cost(count, ITEMS, PROCESSORS));
    print_growth("planning, 1, 2, 4, 8, 16 loops", "table", &by_loops);
    let items = [1, 3, 7, 15, 31];
    let by_items = items.map(|count| cost(LOOPS, count, PROCESSORS));
    print_growth("planning, 1, 3, 7, 15, 31 items a body", "table", &by_items);
    lengths();
    let processors = [1, 4, 16, 64];
    let by_processors = processors.map(|count| cost(LOOPS, ITEMS, count));
    print_growth("planning for 1, 4, 16, 64 processors", "table", &by_processors);
}

/// The same seed for each size, so that a line's tables differ in that size alone as far as chance allows.
fn cost(loops: usize, items: usize, processors: u32) -> Pair {
    let mut random = Random::new(3);
    let mut tables = Vec::new();
    while tables.len() < TABLES {
        let table = table(&mut random, loops, items);
        if plan(&table, Settings::of(processors)).is_ok() {
            tables.push(table);
        }
    }
    listings(&tables, Settings::of(processors))
}

/// Offsets next to 0, so that the shortest loops still have a plan.
fn table(random: &mut Random, loops: usize, items: usize) -> Table {
    let arrays = vec![INDICES + 2; ARRAYS];
    let loops = (0..loops)
        .map(|_| {
            let store = random.below(arrays.len()) as u8;
            a_loop(random, &arrays, 1, INDICES, store, items)
        })
        .collect();
    Table { arrays, loops }
}
