//! Every call of the wrapper on examples/example.table, and every ground that a caller can meet with it. What is expected is typed
//! from docs/TABLE.md.

use vempaldi::*;

const EXAMPLE: &[u8] = include_bytes!("../../../examples/example.table");

fn own_index() -> Vec<f64> {
    (0..36).map(|at| f64::from(at % 12)).collect()
}

fn ground<T: std::fmt::Debug>(result: Result<T, Refusal>) -> u64 {
    result.expect_err("refused").ground.number()
}

#[test]
fn the_example_is_planned_as_its_listing_says() {
    assert_eq!(check(EXAMPLE), Ok(()));
    let amounts = shifts_and_peels(EXAMPLE).expect("accepted");
    assert_eq!(amounts.iter().map(|one| (one.shift, one.peel)).collect::<Vec<_>>(), [(0, 0), (1, 1)]);
    assert_eq!(threshold(EXAMPLE), Ok(2));
    let sweeps = sweeps(EXAMPLE).expect("accepted");
    assert_eq!((sweeps.before, sweeps.after), (6, 5));
    let blocks = blocks(EXAMPLE, 2).expect("accepted");
    assert_eq!(blocks.iter().map(|one| (one.first, one.last)).collect::<Vec<_>>(), [(1, 5), (6, 10)]);
    assert!(listing(EXAMPLE, 2).expect("accepted").starts_with("loop 0 0 0\nloop 1 1 1\nblock 0 1 5\n"));
    assert_eq!(ground(listing(EXAMPLE, 6)), 11);
}

#[test]
fn the_lists_hold_what_the_listing_says() {
    let pair = |one: &Iteration| (one.loop_number, one.index);
    let fused: Vec<_> = fused_list(EXAMPLE, 2, 0).expect("accepted").iter().map(pair).collect();
    assert_eq!(fused, [(0, 1), (0, 2), (1, 1), (0, 3), (1, 2), (0, 4), (1, 3), (0, 5), (1, 4)]);
    let peeled: Vec<_> = peeled_list(EXAMPLE, 2, 0).expect("accepted").iter().map(pair).collect();
    assert_eq!(peeled, [(1, 5), (1, 6)]);
    assert_eq!(peeled_list(EXAMPLE, 2, 1), Ok(vec![]));
    assert_eq!(fused_list(EXAMPLE, 1, 0).expect("accepted").len(), 20);
}

#[test]
fn runs_leave_3_12_and_21() {
    let mut memory = own_index();
    assert_eq!(plain_run(EXAMPLE, &mut memory), Ok(()));
    assert_eq!((memory[25], memory[29], memory[34]), (3.0, 12.0, 21.0));
    let mut other = own_index();
    assert_eq!(run(EXAMPLE, 2, &[1; 12], &mut other), Ok(3));
    assert_eq!(memory, other);
}

#[test]
fn a_step_reports_its_iteration_then_waits() {
    let (mut state, mut memory) = (State::new(), own_index());
    let first = step(EXAMPLE, 2, 1, &mut state, &mut memory);
    assert!(matches!(first, Ok(Report::Iteration { loop_number: 0, index: 6, .. })), "{first:?}");
    for _ in 1..9 {
        step(EXAMPLE, 2, 1, &mut state, &mut memory).expect("accepted");
    }
    assert_eq!(step(EXAMPLE, 2, 1, &mut state, &mut memory), Ok(Report::Waiting));
    assert_eq!(state.counts[..3], [0, 9, 0]);
}

/// The last of two processors has nine fused iterations and no peeled ones, the first nine and two.
#[test]
fn a_processor_is_finished_once_the_barrier_is_open() {
    let (mut state, mut memory) = (State::new(), own_index());
    let mut said = Vec::new();
    for processor in [[1; 10], [0; 10]].concat() {
        said.push(step(EXAMPLE, 2, processor, &mut state, &mut memory).expect("accepted"));
    }
    assert_eq!(said[9], Report::Waiting);
    assert_eq!(step(EXAMPLE, 2, 1, &mut state, &mut memory), Ok(Report::Finished));
    assert!(matches!(said[19], Report::Iteration { loop_number: 1, index: 5, .. }), "{:?}", said[19]);
    let last = step(EXAMPLE, 2, 0, &mut state, &mut memory);
    assert!(matches!(last, Ok(Report::Iteration { loop_number: 1, index: 6, .. })), "{last:?}");
    assert_eq!(step(EXAMPLE, 2, 0, &mut state, &mut memory), Ok(Report::Finished));
}

#[test]
fn a_report_that_is_not_known_is_no_iteration() {
    assert_eq!(Report::of_numbers([0, 0, 0]), Report::Other(0));
    assert_eq!(Report::of_numbers([4, 1, 2]), Report::Other(4));
    assert_eq!(Report::of_numbers([2, 0, 0]), Report::Waiting);
    assert_eq!(Report::of_numbers([3, 0, 0]), Report::Finished);
}

#[test]
fn refusals_carry_their_grounds() {
    assert_eq!(ground(check(&EXAMPLE[..60])), 1);
    assert_eq!(ground(blocks(EXAMPLE, 0)), 10);
    assert_eq!(ground(fused_list(EXAMPLE, 2, 2)), 10);
    assert_eq!(ground(peeled_list(EXAMPLE, 2, 7)), 10);
    assert_eq!(ground(blocks(EXAMPLE, 6)), 11);
    assert_eq!(ground(blocks(EXAMPLE, Settings::new(2).line(65))), 17);
    assert_eq!(ground(plain_run(EXAMPLE, &mut [0.0; 35])), 12);
    assert_eq!(ground(join_into(EXAMPLE, EXAMPLE, &mut [0; 105])), 13);
    let mut state = State { counts: [10; 64] };
    assert_eq!(ground(step(EXAMPLE, 2, 0, &mut state, &mut own_index())), 15);
    assert_eq!(state.counts, [10; 64]);
}

#[test]
fn a_refusal_prints_its_word_and_ground() {
    let torn = check(&EXAMPLE[..60]).expect_err("refused");
    let text = "refused 1 torn at byte 60: the bytes end inside a record or before the end record";
    assert_eq!(torn.to_string(), text);
    assert_eq!(Ground::of_number(99).number(), 99);
    for number in 0..=20 {
        assert_eq!(Ground::of_number(number).number(), number);
    }
    // 16 is no ground of this version.
    assert_eq!(Ground::of_number(16), Ground::Other(16));
    assert_eq!((Ground::of_number(15), Ground::of_number(17)), (Ground::State, Ground::Line));
    let line = blocks(EXAMPLE, Settings::new(2).line(0)).expect_err("refused");
    assert_eq!(line.to_string(), "refused 17 line: a line's length is outside 1 to 64");
}

/// 1 to 10, A0 of 21 elements, A0[i] = A0[i] + A0[i+10] + A0[i+9] + A0[i+1]. In ten iterations the first two reads meet no other
/// iteration's store, and the last two do.
#[rustfmt::skip]
const SERIAL: &[u8] = &[
    1, 21, 0, 0, 0,
    2, 1, 0, 0, 0, 10, 0, 0, 0, 0, 0, 0,
    3, 0, 0, 0, 3, 0, 10, 0, 5, 1, 3, 0, 9, 0, 5, 1, 3, 0, 1, 0, 5, 1,
    6,
];

/// The destination is reference 0, and the third read reference 3.
#[test]
fn serial_names_the_lowest_colliding_pair() {
    let refusal = check(SERIAL).expect_err("refused");
    assert_eq!((refusal.ground, refusal.place, refusal.named), (Ground::Serial, 0, [0, 3]));
    assert_eq!(refusal.references(), Some((0, 3)));
    let text =
        "refused 9 serial at loop 0, references 0 and 3: two different iterations of one loop meet at an element, one storing";
    assert_eq!(refusal.to_string(), text);
}

#[test]
fn every_call_names_the_same_pair() {
    let serial = check(SERIAL).expect_err("refused");
    let mut memory = own_index();
    assert_eq!(join(EXAMPLE, SERIAL), Err(serial));
    assert_eq!(join(SERIAL, EXAMPLE), Err(serial));
    assert_eq!(facts(SERIAL), Err(serial));
    assert_eq!(shifts_and_peels(SERIAL), Err(serial));
    assert_eq!(threshold(SERIAL), Err(serial));
    assert_eq!(sweeps(SERIAL), Err(serial));
    assert_eq!(blocks(SERIAL, 2), Err(serial));
    assert_eq!(fused_list(SERIAL, 2, 0), Err(serial));
    assert_eq!(peeled_list(SERIAL, 2, 0), Err(serial));
    assert_eq!(fused_ranges(SERIAL, 2, 0), Err(serial));
    assert_eq!(peeled_ranges(SERIAL, 2, 0), Err(serial));
    assert_eq!(plain_run(SERIAL, &mut memory), Err(serial));
    assert_eq!(step(SERIAL, 2, 0, &mut State::new(), &mut memory), Err(serial));
    assert_eq!(run(SERIAL, 2, &[], &mut memory), Err(serial));
    assert_eq!(listing(SERIAL, 2), Err(serial));
}

#[test]
fn too_many_loops_in_all_have_no_byte() {
    let one_loop = [2, 0, 0, 0, 0, 0, 0, 0, 0, 0, 0, 0, 4, 1, 0, 0, 0];
    let nine = [&[1, 1, 0, 0, 0], &one_loop.repeat(9)[..], &[6]].concat();
    let refusal = join(&nine, &nine).expect_err("refused");
    assert_eq!((refusal.ground, refusal.place), (Ground::Crowd, 0));
    assert_eq!(refusal.to_string(), "refused 4 crowd: one array, loop, statement, item or element too many");
}

#[test]
fn the_other_grounds_name_nothing() {
    let torn = check(&EXAMPLE[..60]).expect_err("refused");
    assert_eq!((torn.place, torn.named, torn.references()), (60, [0, 0], None));
    let short = blocks(EXAMPLE, 6).expect_err("refused");
    assert_eq!((short.place, short.named, short.references()), (0, [0, 0], None));
}

#[test]
fn a_joined_table_has_both_loops() {
    let joined = join(EXAMPLE, EXAMPLE).expect("joined");
    assert_eq!(joined, [&EXAMPLE[..60], &EXAMPLE[15..]].concat());
}
