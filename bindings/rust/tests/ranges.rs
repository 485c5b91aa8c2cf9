//! Ranges of plans, beside the listing and beside the lists.

use std::fs;
use std::ops::Range;
use vempaldi::*;

type Ranges = Vec<Range<u32>>;

/// Loops 0 to 4, 40 to 49 and 20 to 20 over one index, each A0[i] = 7 or A1[i] = A0[i + 1]: in most blocks some loops have no iteration.
#[rustfmt::skip]
const APART: &[u8] = &[
    1, 60, 0, 0, 0, 1, 60, 0, 0, 0,
    2, 0, 0, 0, 0, 4, 0, 0, 0, 0, 0, 0, 4, 7, 0, 0, 0,
    2, 40, 0, 0, 0, 49, 0, 0, 0, 1, 0, 0, 3, 0, 1, 0,
    2, 20, 0, 0, 0, 20, 0, 0, 0, 0, 0, 0, 4, 7, 0, 0, 0,
    6,
];

fn tables() -> Vec<Vec<u8>> {
    let directory = concat!(env!("CARGO_MANIFEST_DIR"), "/../../examples");
    let read = |name| fs::read(format!("{directory}/{name}.table")).expect("the table");
    let mut tables: Vec<Vec<u8>> = ["example", "boundary", "coast", "jacobi", "ll18", "reach", "river"].map(read).into();
    tables.push(APART.to_vec());
    tables
}

/// Lines of one iteration, of a few and of as many as there can be.
const LINES: [u32; 4] = [1, 3, 8, LONGEST_LINE];

/// Every table with every number of processors that is accepted for it, with each of these lines.
fn plans() -> impl Iterator<Item = (Vec<u8>, Settings)> {
    let settings = || LINES.into_iter().flat_map(|line| (1..=MOST_PROCESSORS).map(move |count| Settings::new(count).line(line)));
    let each = move |table: Vec<u8>| settings().map(move |settings| (table.clone(), settings));
    tables().into_iter().flat_map(each).filter(|(table, settings)| blocks(table, *settings).is_ok())
}

/// The ranges of a processor in the listing's lines that begin with `word`; loops without a line have none.
fn listed(listing: &str, word: &str, processor: u32, loops: usize) -> Ranges {
    let mut ranges = vec![0..0; loops];
    for line in listing.lines().filter(|line| line.starts_with(word)) {
        let numbers: Vec<u32> = line.split(' ').skip(1).map(|number| number.parse().expect("a number")).collect();
        let [b, k, from, to] = numbers[..] else { panic!("{line}") };
        if b == processor {
            ranges[k as usize] = from..to + 1;
        }
    }
    ranges
}

fn iterations(ranges: &Ranges) -> Vec<(u32, u32)> {
    (0..).zip(ranges).flat_map(|(k, range)| range.clone().map(move |index| (k, index))).collect()
}

fn pairs(list: Vec<Iteration>) -> Vec<(u32, u32)> {
    list.iter().map(|one| (one.loop_number, one.index)).collect()
}

#[test]
fn the_example_has_the_ranges_of_its_listing() {
    let table = &tables()[0];
    assert_eq!(fused_ranges(table, 2, 0), Ok(vec![1..6, 1..5]));
    assert_eq!(fused_ranges(table, 2, 1), Ok(vec![6..11, 7..11]));
    assert_eq!(peeled_ranges(table, 2, 0), Ok(vec![0..0, 5..7]));
    assert_eq!(peeled_ranges(table, 2, 1), Ok(vec![0..0, 0..0]));
}

#[test]
fn ranges_are_the_listings() {
    let mut empty = 0;
    for (table, settings) in plans() {
        let (listing, loops) = (listing(&table, settings).expect("accepted"), facts(&table).expect("accepted").loops.len());
        for processor in 0..settings.processors {
            let fused = fused_ranges(&table, settings, processor).expect("accepted");
            assert_eq!(fused, listed(&listing, "fused ", processor, loops), "{settings:?}, processor {processor}");
            let peeled = peeled_ranges(&table, settings, processor).expect("accepted");
            assert_eq!(peeled, listed(&listing, "peeled ", processor, loops), "{settings:?}, processor {processor}");
            empty += fused.iter().filter(|range| range.is_empty()).count();
        }
    }
    assert!(empty > 100, "only {empty} fused ranges were empty");
}

#[test]
fn lists_have_the_iterations_of_the_ranges_in_their_order() {
    let mut plans_seen = 0;
    for (table, settings) in plans() {
        let amounts = shifts_and_peels(&table).expect("accepted");
        for processor in 0..settings.processors {
            let mut fused = iterations(&fused_ranges(&table, settings, processor).expect("accepted"));
            fused.sort_by_key(|&(k, index)| (index + amounts[k as usize].shift, k));
            assert_eq!(pairs(fused_list(&table, settings, processor).expect("accepted")), fused);
            let peeled = iterations(&peeled_ranges(&table, settings, processor).expect("accepted"));
            assert_eq!(pairs(peeled_list(&table, settings, processor).expect("accepted")), peeled);
        }
        plans_seen += 1;
    }
    assert!(plans_seen > 400, "only {plans_seen} plans were accepted");
}

#[test]
fn one_processor_has_the_loops_themselves() {
    for table in tables() {
        let loops: Ranges = facts(&table).expect("accepted").loops.iter().map(|one| one.first..one.last + 1).collect();
        assert_eq!(fused_ranges(&table, 1, 0), Ok(loops));
    }
}

#[test]
fn ranges_are_refused_as_lists_are() {
    let table = &tables()[0];
    let refused = [(0, 0, 10), (65, 0, 10), (2, 2, 10), (6, 0, 11), (6, 6, 10), (u32::MAX, u32::MAX, 10)];
    for (processors, processor, ground) in refused {
        for refused in [fused_ranges(table, processors, processor), peeled_ranges(table, processors, processor)] {
            let refusal = refused.expect_err("refused");
            assert_eq!((refusal.ground.number(), refusal.place, refusal.named), (ground, 0, [0, 0]));
            assert_eq!(fused_list(table, processors, processor), Err(refusal));
            assert_eq!(peeled_list(table, processors, processor), Err(refusal));
        }
    }
    let torn = check(&table[..60]).expect_err("refused");
    assert_eq!(fused_ranges(&table[..60], 0, 0), Err(torn));
    assert_eq!(peeled_ranges(&table[..60], 0, 0), Err(torn));
}
