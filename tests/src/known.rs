//! Known results of planning and running, typed.

use crate::blocks::{plan, Range};
use crate::by_hand;
use crate::encoder::Encoder;
use crate::examples::*;
use crate::facts::facts;
use crate::interpreter::plain_run;
use crate::listing::{lines, listing};
use crate::lists::{lists, Iteration};
use crate::memories::{bits, own_index};
use crate::outputs;
use crate::planner::{amounts, threshold};
use crate::reader::read;
use crate::settings::Settings;
use crate::stepping::run;
use crate::sweeps::{sweeps, Sweeps};
use crate::table::Table;

fn table(bytes: &[u8]) -> Table {
    read(bytes).expect("accepted")
}

fn shifts_and_peels(bytes: &[u8]) -> Vec<(i64, i64)> {
    amounts(&table(bytes)).iter().map(|one| (one.shift, one.peel)).collect()
}

fn threshold_of(bytes: &[u8]) -> i64 {
    threshold(&amounts(&table(bytes)))
}

/// The number of the refusal, 0 where the plan is accepted.
fn number(bytes: &[u8], processors: u32) -> u64 {
    plan(&table(bytes), Settings::of(processors)).err().map_or(0, |refusal| refusal.number)
}

/// First and last index of each block, or the refusal's number.
fn blocks_of(bytes: &[u8], processors: u32, line: u32) -> Result<Vec<(u32, u32)>, u64> {
    let plan = plan(&table(bytes), Settings::new(processors, line));
    let ends = |block: &Range| (block.a as u32, block.e as u32);
    plan.map(|plan| plan.blocks.iter().map(ends).collect()).map_err(|refusal| refusal.number)
}

#[test]
fn the_example_has_its_listing() {
    assert_eq!(listing(&EXAMPLE, 2), EXAMPLE_LISTING);
    assert_eq!(listing(&[], 2), "refused 1 0\n");
    assert_eq!(listing(&reads_own_array(9), 2), "refused 9 0\n");
}

#[test]
fn a_bad_table_is_refused_before_a_bad_number_of_processors() {
    assert_eq!(listing(&EXAMPLE[..60], 0), "refused 1 60\n");
    assert_eq!(listing(&EXAMPLE, 0), "refused 10 0\n");
    assert_eq!(listing(&EXAMPLE, 65), "refused 10 0\n");
}

#[test]
fn the_example_has_threshold_2_and_room_for_5_processors() {
    assert_eq!(threshold_of(&EXAMPLE), 2);
    assert_eq!(number(&EXAMPLE, 5), 0);
    assert_eq!(number(&EXAMPLE, 6), 11);
}

#[test]
fn three_loops_add_up() {
    assert_eq!(shifts_and_peels(&three_loops()), [(0, 0), (1, 1), (2, 2)]);
    assert_eq!(threshold_of(&three_loops()), 4);
}

#[test]
fn a_chain_does_not_stop_at_distance_0() {
    assert_eq!(shifts_and_peels(&backward_then_zero()), [(0, 0), (1, 0), (1, 0)]);
}

#[test]
fn a_store_that_follows_a_read_counts() {
    assert_eq!(shifts_and_peels(&store_follows_read()), [(0, 0), (0, 2)]);
}

#[test]
fn loops_that_never_meet_have_no_dependence() {
    assert_eq!(shifts_and_peels(&two_ahead(6)), [(0, 0), (0, 0)]);
    assert_eq!(shifts_and_peels(&two_ahead(7)), [(0, 0), (2, 0)]);
    assert_eq!(shifts_and_peels(&two_behind(6)), [(0, 0), (0, 0)]);
    assert_eq!(shifts_and_peels(&two_behind(7)), [(0, 0), (0, 2)]);
    for (last, wanted) in TWO_AHEAD_LISTINGS {
        assert_eq!(listing(&two_ahead(last), 3), wanted);
    }
    // Nine indices, so a block of one each where nothing is shifted.
    assert_eq!((number(&two_ahead(6), 9), number(&two_ahead(7), 9)), (0, 11));
}

#[test]
fn the_threshold_is_of_one_loop() {
    let found = shifts_and_peels(&shift_here_peel_there());
    assert_eq!(found, [(0, 0), (3, 0), (0, 0), (0, 2)]);
    assert_eq!(threshold_of(&shift_here_peel_there()), 3);
}

#[test]
fn ten_indices_over_three_processors() {
    let plan = plan(&table(&ten_indices()), Settings::of(3)).expect("accepted");
    let sizes: Vec<i64> = plan.blocks.iter().map(Range::count).collect();
    assert_eq!(sizes, [4, 3, 3]);
    assert_eq!(number(&ten_indices(), 10), 0);
    assert_eq!(number(&ten_indices(), 11), 11);
}

#[test]
fn blocks_are_on_whole_lines() {
    for (table, typed) in [(EXAMPLE.to_vec(), &EXAMPLE_ALIGNED[..]), (ten_indices(), &TEN_ALIGNED)]
    {
        for &(processors, line, wanted) in typed {
            let found = blocks_of(&table, processors, line);
            assert_eq!(found, wanted.map(<[_]>::to_vec), "P = {processors}, W = {line}");
        }
    }
    // Lines count from the least first, which is 10 here; 40 indices.
    assert_eq!(blocks_of(&three_loops(), 3, 16), Ok(vec![(10, 25), (26, 41), (42, 49)]));
}

#[test]
fn plans_by_hand_have_their_typed_answers() {
    for (table, typed) in [(EXAMPLE.to_vec(), &EXAMPLE_BY_HAND[..]), (crossed(), &CROSSED_BY_HAND)]
    {
        for &(plan, processors, wanted) in typed {
            let settings = Settings::of(processors).with_plan(&by_hand::typed(plan));
            let found = outputs::check_plan(&table, settings).map_err(|one| one.answer());
            assert_eq!(found, wanted, "{plan:?}, P = {processors}");
        }
    }
}

#[test]
fn the_example_has_its_listing_by_hand() {
    let settings = Settings::of(2).with_plan(&by_hand::typed(&[(0, 0), (2, 3)]));
    assert_eq!(lines(&EXAMPLE, settings), Ok(EXAMPLE_BY_HAND_LISTING.to_string()));
}

#[test]
fn the_example_has_its_listing_for_lines_of_4() {
    let listed = lines(&EXAMPLE, Settings::new(2, 4)).expect("accepted");
    assert_eq!(listed, EXAMPLE_LINES_OF_4);
}

#[test]
fn the_example_has_its_lists() {
    let plan = plan(&table(&EXAMPLE), Settings::of(2)).expect("accepted");
    let found = lists(&plan);
    let row = |pairs: &[(u32, u32)]| -> Vec<Iteration> {
        pairs.iter().map(|&(loop_number, index)| Iteration { loop_number, index }).collect()
    };
    let first = row(&[(0, 1), (0, 2), (1, 1), (0, 3), (1, 2), (0, 4), (1, 3), (0, 5), (1, 4)]);
    let last = row(&[(0, 6), (0, 7), (0, 8), (1, 7), (0, 9), (1, 8), (0, 10), (1, 9), (1, 10)]);
    assert_eq!(found[0].fused, first);
    assert_eq!(found[0].peeled, row(&[(1, 5), (1, 6)]));
    assert_eq!(found[1].fused, last);
    assert_eq!(found[1].peeled, row(&[]));
}

#[test]
fn the_example_has_its_facts() {
    let arrays = [0, 12, 12, 12, 24, 12];
    let loops = [1, 10, 1, 10];
    assert_eq!(facts(&table(&EXAMPLE)), [&[3, 2, 36], &arrays[..], &loops[..]].concat());
}

#[test]
fn the_example_has_its_ranges() {
    let numbers = |output: outputs::Output| -> Vec<u8> {
        let bytes = output.expect("accepted");
        assert!(bytes.chunks(4).all(|number| number[1..] == [0, 0, 0]));
        bytes.into_iter().step_by(4).collect()
    };
    assert_eq!(numbers(outputs::fused_ranges(&EXAMPLE, Settings::of(2), 0, 16)), [1, 6, 1, 5]);
    assert_eq!(numbers(outputs::fused_ranges(&EXAMPLE, Settings::of(2), 1, 16)), [6, 11, 7, 11]);
    assert_eq!(numbers(outputs::peeled_ranges(&EXAMPLE, Settings::of(2), 0, 16)), [0, 0, 5, 7]);
    assert_eq!(numbers(outputs::peeled_ranges(&EXAMPLE, Settings::of(2), 1, 16)), [0, 0, 0, 0]);
}

#[test]
fn the_example_sweeps_6_before_and_5_after() {
    assert_eq!(sweeps(&table(&EXAMPLE)), Sweeps { before: 6, after: 5 });
}

/// Before: A0, A1 and A2 are touched and A0 and A1 written by loop 0, A0, A2 and
/// A3 touched and A2 written by loop 1. After: four touched, three written.
#[test]
fn all_statements_sweep() {
    let open = Encoder::new().repeat(4, |e| e.array(9)).a_loop(0, 8, 0, 0).constant(1);
    let first = open.statement(1, 0).read(2, 0).a_loop(0, 8, 2, 0).read(0, 0);
    let bytes = first.statement(2, 0).read(3, 0).end().bytes;
    assert_eq!(sweeps(&table(&bytes)), Sweeps { before: 9, after: 7 });
}

#[test]
fn a_statement_sees_what_the_one_before_stored() {
    let mut memory: Vec<f64> = (0..10).map(f64::from).collect();
    plain_run(&TWO_STATEMENTS, &mut memory).expect("accepted");
    // A0[4] = A1[3] + 9, and A1[4] = A0[4].
    assert_eq!((memory[4], memory[9]), (17.0, 17.0));
    assert_eq!((memory[3], memory[5], memory[8]), (3.0, 5.0, 8.0));
}

#[test]
fn the_example_leaves_3_12_and_21() {
    let table = table(&EXAMPLE);
    let mut memory = own_index(&table.arrays);
    plain_run(&EXAMPLE, &mut memory).expect("accepted");
    let stored = &memory[24..];
    assert_eq!((stored[1], stored[5], stored[10]), (3.0, 12.0, 21.0));
}

#[test]
fn every_order_of_the_example_leaves_the_same() {
    let start = own_index(&table(&EXAMPLE).arrays);
    let mut plain = start.clone();
    plain_run(&EXAMPLE, &mut plain).expect("accepted");
    for order in [&[][..], &[1; 30], &[0, 1, 0, 1], &[7, 0, 200, 1]] {
        let mut memory = start.clone();
        run(&EXAMPLE, Settings::of(2), order, &mut memory).expect("accepted");
        assert_eq!(bits(&memory), bits(&plain));
    }
}

#[test]
fn idle_bytes_are_counted() {
    let start = own_index(&table(&EXAMPLE).arrays);
    let idle =
        |order: &[u8]| run(&EXAMPLE, Settings::of(2), order, &mut start.clone()).expect("accepted");
    assert_eq!(idle(&[]), 0);
    // Processor 1 has nine fused iterations and then waits.
    assert_eq!(idle(&[1; 12]), 3);
    assert_eq!(idle(&[2, 255, 0]), 2);
    // Past the barrier processor 0 has two peeled iterations, processor 1
    // none.
    let all = [[1; 9], [0; 9]].concat();
    assert_eq!(idle(&[&all[..], &[1, 0, 0, 0]].concat()), 2);
}

/// With lines of four iterations processor 1 has 9 and 10 of loop 0 and 10 of
/// loop 1, and then waits.
#[test]
fn idle_bytes_follow_the_lines() {
    let mut memory = own_index(&table(&EXAMPLE).arrays);
    assert_eq!(run(&EXAMPLE, Settings::new(2, 4), &[1; 5], &mut memory), Ok(2));
    assert_eq!((memory[25], memory[29], memory[34]), (3.0, 12.0, 21.0));
}

#[test]
fn zero_divided_by_zero_is_stored_as_the_header_says() {
    let table = Encoder::new().array(1).a_loop(0, 0, 0, 0).constant(0).constant(0).operation(4);
    let mut memory = [1.0];
    plain_run(&table.end().bytes, &mut memory).expect("accepted");
    assert_eq!(memory[0].to_bits(), 0x7FF8_0000_0000_0000);
}
