//! Blocks on whole lines: what a line's length does to blocks, lists and runs, and where it is refused. What is expected is typed, or worked
//! out here from the bounds, shifts and peels of the table.

use std::collections::HashMap;
use std::fs;
use vempaldi::*;

const EXAMPLE: &[u8] = include_bytes!("../../../examples/example.table");

type Bounds = Vec<(u32, u32)>;

fn tables() -> Vec<Vec<u8>> {
    let directory = concat!(env!("CARGO_MANIFEST_DIR"), "/../../examples");
    let read = |name| fs::read(format!("{directory}/{name}.table")).expect("the table");
    ["example", "boundary", "coast", "jacobi", "ll18", "reach", "river"].map(read).into()
}

fn bounds(table: &[u8], processors: u32, line: u32) -> Result<Bounds, u64> {
    let blocks = blocks(table, Settings::new(processors).line(line));
    blocks.map(|blocks| blocks.iter().map(|one| (one.first, one.last)).collect()).map_err(|refusal| refusal.ground.number())
}

/// Ten indices from 1 on, threshold 2.
#[test]
fn the_example_has_its_blocks_for_each_line() {
    for (processors, line, wanted) in [
        (2, 1, Ok(vec![(1, 5), (6, 10)])),
        (1, 4, Ok(vec![(1, 10)])),
        (2, 4, Ok(vec![(1, 8), (9, 10)])),
        (3, 4, Ok(vec![(1, 4), (5, 8), (9, 10)])),
        (4, 4, Err(11)),
        (2, 5, Ok(vec![(1, 5), (6, 10)])),
        (3, 5, Err(11)),
        (2, 9, Err(11)), // 1 to 9, and 10 alone
        (2, 8, Ok(vec![(1, 8), (9, 10)])),
        (1, 64, Ok(vec![(1, 10)])),
        (2, 64, Err(11)),
        (5, 2, Ok(vec![(1, 2), (3, 4), (5, 6), (7, 8), (9, 10)])),
        (6, 2, Err(11)),
    ] {
        assert_eq!(bounds(EXAMPLE, processors, line), wanted, "P = {processors}, W = {line}");
    }
}

/// The example's loops from 1 to `last`, which have the threshold 2.
fn until(last: u32) -> Vec<u8> {
    let mut b = Builder::new();
    let [a0, a1, a2] = [40, 40, 40].map(|length| b.array(length));
    b.open_loop(1, last, a0, 0);
    b.read(a1, 0);
    b.open_loop(1, last, a2, 0);
    b.read(a0, -1);
    b.read(a0, 1);
    b.operation(Operation::Add);
    b.end().expect("a table")
}

/// Nine indices are three lines of 4, the last of which has one index: a last block of that line alone is below the threshold.
#[test]
fn the_last_block_counts_by_what_the_cut_leaves() {
    let table = until(9);
    assert_eq!(threshold(&table), Ok(2));
    assert_eq!(bounds(&table, 2, 4), Err(11));
    assert_eq!(bounds(&table, 3, 4), Err(11));
    assert_eq!(bounds(&table, 1, 4), Ok(vec![(1, 9)]));
    assert_eq!(bounds(&table, 2, 3), Ok(vec![(1, 6), (7, 9)]));
    assert_eq!(bounds(&table, 3, 3), Ok(vec![(1, 3), (4, 6), (7, 9)]));
    // Five lines of 2, in three blocks 2, 2 and 1: the last one is 9 alone. Lines of one have blocks of three.
    assert_eq!(bounds(&table, 3, 2), Err(11));
    assert_eq!(bounds(&table, 3, 1), Ok(vec![(1, 3), (4, 6), (7, 9)]));
    assert_eq!(bounds(&table, 2, 2), Ok(vec![(1, 6), (7, 9)]));
}

/// One loop from 1 to 10, with no dependence: lines alone decide, and no block is empty.
#[test]
fn without_a_threshold_there_are_as_many_blocks_as_lines() {
    let mut b = Builder::new();
    let a0 = b.array(12);
    b.open_loop(1, 10, a0, 0);
    b.constant(7);
    let table = b.end().expect("a table");
    assert_eq!(threshold(&table), Ok(0));
    assert_eq!(bounds(&table, 3, 4), Ok(vec![(1, 4), (5, 8), (9, 10)]));
    assert_eq!(bounds(&table, 4, 4), Err(11));
    assert_eq!(bounds(&table, 4, 3), Ok(vec![(1, 3), (4, 6), (7, 9), (10, 10)]));
    assert_eq!(bounds(&table, 5, 3), Err(11));
    assert_eq!(bounds(&table, 3, 5), Err(11));
    assert_eq!(bounds(&table, 6, 2), Err(11));
    assert_eq!(bounds(&table, 10, 1).map(|blocks| blocks.len()), Ok(10));
    assert_eq!(bounds(&table, 11, 1), Err(11));
}

/// Rounded up to whole lines, which are dealt out as iterations were; the last block ends at the greatest last.
fn dealt(table: &[u8], processors: u32, line: u32) -> Result<Bounds, u64> {
    let loops = facts(table).expect("accepted").loops;
    let first = loops.iter().map(|one| one.first).min().expect("a loop");
    let last = loops.iter().map(|one| one.last).max().expect("a loop");
    let lines = (last - first + 1).div_ceil(line);
    if lines < processors {
        return Err(11);
    }
    let mut owner: Vec<u32> = (0..processors).flat_map(|b| vec![b; (lines / processors) as usize]).collect();
    owner.extend(0..lines % processors);
    owner.sort_unstable();
    let mut blocks: Bounds = vec![(0, 0); processors as usize];
    for index in (first..=last).rev() {
        let block = &mut blocks[owner[((index - first) / line) as usize] as usize];
        *block = (index, block.1.max(index));
    }
    let least = if processors > 1 { threshold(table).expect("accepted") } else { 0 };
    match blocks.iter().all(|block| block.1 - block.0 + 1 >= least) {
        true => Ok(blocks),
        false => Err(11),
    }
}

#[test]
fn blocks_are_whole_lines_for_every_line_and_every_count() {
    let (mut accepted, mut refused) = (0, 0);
    for table in tables() {
        for line in 1..=LONGEST_LINE {
            for processors in 1..=MOST_PROCESSORS {
                let wanted = dealt(&table, processors, line);
                assert_eq!(bounds(&table, processors, line), wanted, "P = {processors}, W = {line}");
                *(if wanted.is_ok() { &mut accepted } else { &mut refused }) += 1;
            }
        }
    }
    assert!(accepted > 1_000 && refused > 1_000, "{accepted} {refused}");
}

/// Before the barrier. Past it, what is peeled of a block reaches into the next one.
#[test]
fn no_two_processors_run_iterations_of_one_line() {
    let mut lines_seen = 0;
    for table in tables() {
        let facts = facts(&table).expect("accepted");
        let first = facts.loops.iter().map(|one| one.first).min().expect("a loop");
        for settings in [Settings::new(2).line(8), Settings::new(3).line(4), Settings::new(4).line(2), Settings::new(5).line(2)] {
            let mut owners = HashMap::new();
            for processor in 0..settings.processors {
                for range in fused_ranges(&table, settings, processor).expect("accepted") {
                    let lines = range.map(|index| (index - first) / settings.line);
                    lines.for_each(|line| assert_eq!(*owners.entry(line).or_insert(processor), processor, "{settings:?}"));
                }
            }
            lines_seen += owners.len();
        }
    }
    assert!(lines_seen > 500, "{lines_seen}");
}

/// A number alone is lines of one iteration.
#[test]
fn a_count_alone_has_lines_of_one() {
    assert_eq!(Settings::from(7), Settings::new(7).line(1));
    assert_eq!((Settings::new(7).processors, Settings::new(7).line, Settings::new(7).line(3).line), (7, 1, 3));
    for table in tables() {
        for processors in 0..=65 {
            assert_eq!(listing(&table, processors), listing(&table, Settings::new(processors).line(1)));
        }
    }
}

/// The ground of each call that plans, in one order.
fn grounds(table: &[u8], settings: Settings, processor: u32, numbers: usize, count: u32) -> Vec<u64> {
    let mut state = State { counts: [count; 64] };
    let mut memory = vec![0.5; numbers];
    let all = [
        blocks(table, settings).err(),
        listing(table, settings).err(),
        run(table, settings, &[0, 1], &mut memory.clone()).err(),
        fused_list(table, settings, processor).err(),
        peeled_list(table, settings, processor).err(),
        fused_ranges(table, settings, processor).err(),
        peeled_ranges(table, settings, processor).err(),
        step(table, settings, processor, &mut state, &mut memory).err(),
    ];
    all.iter().map(|refusal| refusal.as_ref().map_or(0, |refusal| refusal.ground.number())).collect()
}

#[test]
fn a_line_outside_its_range_is_17_behind_10_and_before_11() {
    for line in [0, 65, 66, 256 + 4, 65_536 + 4, u32::MAX] {
        let settings = |processors: u32| Settings::new(processors).line(line);
        assert_eq!(grounds(EXAMPLE, settings(2), 0, 36, 0), [17; 8], "W = {line}");
        // Before 11 (six blocks of 10 indices), 12 (a number too few) and 15 (counts that no row leaves).
        assert_eq!(grounds(EXAMPLE, settings(6), 0, 35, 9), [17; 8], "W = {line}");
        // Behind 10, of P and of the processor's number, and behind every ground of the table.
        assert_eq!(grounds(EXAMPLE, settings(0), 0, 36, 0), [10; 8], "W = {line}");
        assert_eq!(grounds(EXAMPLE, settings(65), 0, 36, 0), [10; 8], "W = {line}");
        assert_eq!(grounds(EXAMPLE, settings(2), 2, 36, 0), [17, 17, 17, 10, 10, 10, 10, 10], "W = {line}");
        assert_eq!(grounds(&EXAMPLE[..60], settings(2), 0, 36, 0), [1; 8], "W = {line}");
        let refusal = blocks(EXAMPLE, settings(2)).expect_err("refused");
        assert_eq!((refusal.ground, refusal.place, refusal.named), (Ground::Line, 0, [0, 0]));
    }
    for line in [1, 2, 63, 64] {
        assert_eq!(grounds(EXAMPLE, Settings::new(1).line(line), 0, 36, 0), [0; 8], "W = {line}");
    }
}

/// 11 comes before 12 and 15 for a line too.
#[test]
fn fewer_lines_than_processors_are_11() {
    assert_eq!(grounds(EXAMPLE, Settings::new(4).line(4), 3, 35, 9), [11; 8]);
    assert_eq!(grounds(EXAMPLE, Settings::new(3).line(4), 2, 35, 9), [0, 0, 12, 0, 0, 0, 0, 12]);
    assert_eq!(grounds(EXAMPLE, Settings::new(3).line(4), 2, 36, 40), [0, 0, 0, 0, 0, 0, 0, 15]);
}

/// Numbers that use many of their bits, none of them a NaN.
fn start(table: &[u8]) -> Vec<f64> {
    let count = facts(table).expect("accepted").elements;
    (0..count).map(|at| f64::from(at.wrapping_mul(2_654_435_761) >> 7) / 977.0).collect()
}

fn bits(memory: &[f64]) -> Vec<u64> {
    memory.iter().map(|number| number.to_bits()).collect()
}

#[test]
fn a_run_in_any_order_ends_as_the_plain_run_for_each_line() {
    let mut runs = 0;
    for table in tables() {
        let mut plain = start(&table);
        plain_run(&table, &mut plain).expect("accepted");
        for line in 1..=LONGEST_LINE {
            for processors in [1, 2, 3, 5, 8] {
                let settings = Settings::new(processors).line(line);
                let order: Vec<u8> = (0..900_u32).map(|at| (at.wrapping_mul(2_654_435_761) >> 13) as u8 % 9).collect();
                let mut memory = start(&table);
                if run(&table, settings, &order, &mut memory).is_ok() {
                    assert_eq!(bits(&memory), bits(&plain), "{settings:?}");
                    runs += 1;
                }
            }
        }
    }
    assert!(runs > 500, "{runs}");
}

/// Steps until the processor performs nothing more, and what it performed.
fn steps_of(table: &[u8], settings: Settings, processor: u32, state: &mut State, memory: &mut [f64]) -> Vec<(u32, u32)> {
    let mut performed = Vec::new();
    while let Report::Iteration { loop_number, index, .. } = step(table, settings, processor, state, memory).expect("accepted") {
        performed.push((loop_number, index));
    }
    performed
}

/// The highest processor goes as far as it can, then the next one, and again past the barrier: each performs its lists and nothing else.
#[test]
fn a_row_of_steps_ends_as_the_plain_run_for_each_line() {
    let table = until(30);
    let mut plain = start(&table);
    plain_run(&table, &mut plain).expect("accepted");
    for (processors, line) in [(2, 4), (4, 7), (5, 6), (8, 4), (10, 3), (1, 64)] {
        let settings = Settings::new(processors).line(line);
        let (mut state, mut memory) = (State::new(), start(&table));
        let mut performed = vec![Vec::new(); processors as usize];
        for processor in (0..processors).rev().chain((0..processors).rev()) {
            performed[processor as usize].extend(steps_of(&table, settings, processor, &mut state, &mut memory));
        }
        for (processor, performed) in (0..).zip(&performed) {
            let fused = fused_list(&table, settings, processor).expect("accepted").into_iter();
            let lists = fused.chain(peeled_list(&table, settings, processor).expect("accepted"));
            assert_eq!(performed, &lists.map(|one| (one.loop_number, one.index)).collect::<Vec<_>>(), "{settings:?}");
        }
        assert_eq!((state.counts.iter().sum::<u32>(), bits(&memory)), (60, bits(&plain)), "{settings:?}");
    }
}

/// In lines of 4 processor 1 has the iterations 9 and 10 of loop 0 and 10 of loop 1 before the barrier, and none past it.
#[test]
fn a_run_counts_idle_bytes_by_the_lists_of_its_lines() {
    let settings = Settings::new(2).line(4);
    assert_eq!(run(EXAMPLE, settings, &[1; 12], &mut start(EXAMPLE)), Ok(9));
    assert_eq!(run(EXAMPLE, 2, &[1; 12], &mut start(EXAMPLE)), Ok(3));
}
