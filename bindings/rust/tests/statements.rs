//! Several statements in a loop: how they run, what they do to plans, and the grounds that a further statement meets. What is expected is typed
//! from docs/TABLE.md.

use std::fs;
use vempaldi::*;

fn example(name: &str) -> Vec<u8> {
    fs::read(format!("{}/../../examples/{name}.table", env!("CARGO_MANIFEST_DIR"))).expect("the table")
}

/// An answer's numbers: ground, place and what it names.
fn told(table: &[u8]) -> (u64, u64, [u64; 2]) {
    check(table).map_or_else(|refusal| (refusal.ground.number(), refusal.place, refusal.named), |()| (0, 0, [0, 0]))
}

/// Arrays of 12 elements, and a loop from 1 to 10 that stores element i + `offset` of one of them.
fn begun(arrays: usize, stored: usize, offset: i32) -> Builder {
    let mut b = Builder::new();
    for _ in 0..arrays {
        b.array(12);
    }
    b.open_loop(1, 10, stored, offset);
    b
}

/// examples/reach.txt, call by call.
#[test]
fn a_river_step_of_two_statements_is_built() {
    use Operation::{Add, Divide, Multiply, Subtract};
    let mut b = Builder::new();
    let [h, q, hn, qn] = [200; 4].map(|length| b.array(length));
    b.open_loop(1, 198, qn, 0);
    b.read(q, 0);
    b.constant(9);
    b.operation(Multiply);
    b.constant(10);
    b.operation(Divide);
    b.read(h, -1);
    b.read(h, 1);
    b.operation(Subtract);
    b.constant(5);
    b.operation(Divide);
    b.operation(Add);
    b.statement(hn, 0);
    b.read(h, 0);
    b.read(q, -1);
    b.read(qn, 0);
    b.operation(Subtract);
    b.constant(50);
    b.operation(Divide);
    b.operation(Add);
    b.open_loop(1, 198, q, 0);
    b.read(qn, 0);
    b.statement(h, 0);
    b.read(hn, 0);
    assert_eq!(b.end(), Ok(example("reach")));
}

/// Loop 1 of the reach stores Q and H, which loop 0 reads at -1, 0 and 1. In coast that is so too, and its loop 2, of one iteration, is at no
/// distance from what it meets. Each of reach's loops touches four arrays and stores two; coast's touch 8, 8 and 3 and store 4, 4 and 3.
#[test]
fn references_of_all_statements_count() {
    for (name, amounts, counts) in [("reach", &[(0, 0), (1, 1)][..], (12, 8)), ("coast", &[(0, 0), (1, 1), (1, 1)], (30, 16))] {
        let table = example(name);
        let found: Vec<_> = shifts_and_peels(&table).expect("accepted").iter().map(|one| (one.shift, one.peel)).collect();
        assert_eq!(found, amounts, "{name}");
        assert_eq!(threshold(&table), Ok(2), "{name}");
        let sweeps = sweeps(&table).expect("accepted");
        assert_eq!((sweeps.before, sweeps.after), counts, "{name}");
    }
}

/// Loop 0: A0[i] = 1; A1[i] = 2; A2[i] = 3. Loop 1 reads A2[i+2] in its second statement, and nothing of the others: distance -2.
#[test]
fn the_last_statement_can_make_the_only_dependence() {
    let mut b = begun(5, 0, 0);
    b.constant(1);
    b.statement(1, 0);
    b.constant(2);
    b.statement(2, 0);
    b.constant(3);
    b.open_loop(1, 9, 3, 0);
    b.constant(4);
    b.statement(4, 0);
    b.read(2, 2);
    let table = b.end().expect("a table");
    let found: Vec<_> = shifts_and_peels(&table).expect("accepted").iter().map(|one| (one.shift, one.peel)).collect();
    assert_eq!(found, [(0, 0), (2, 0)]);
}

/// A0[i] = A0[i] + 1; A1[i] = A0[i] * A0[i]; A0[i] = A1[i] - 3; A2[i] = A0[i]: from A0[i] = i it is i + 1, its square, and that less 3, twice.
#[test]
fn each_statement_is_stored_before_the_next_begins() {
    let mut b = begun(3, 0, 0);
    b.read(0, 0);
    b.constant(1);
    b.operation(Operation::Add);
    b.statement(1, 0);
    b.read(0, 0);
    b.read(0, 0);
    b.operation(Operation::Multiply);
    b.statement(0, 0);
    b.read(1, 0);
    b.constant(3);
    b.operation(Operation::Subtract);
    b.statement(2, 0);
    b.read(0, 0);
    let table = b.end().expect("a table");
    let start: Vec<f64> = (0..36).map(|at| f64::from(at % 12)).collect();
    let mut wanted = start.clone();
    for i in 1..=10_usize {
        let square = ((i + 1) * (i + 1)) as f64;
        (wanted[i], wanted[12 + i], wanted[24 + i]) = (square - 3.0, square, square - 3.0);
    }
    let mut memory = start.clone();
    assert_eq!(plain_run(&table, &mut memory), Ok(()));
    assert_eq!(memory, wanted);
    let mut memory = start;
    assert_eq!(run(&table, 3, &[2, 1, 0, 1, 7], &mut memory), Ok(1));
    assert_eq!(memory, wanted);
}

/// Four statements, four arrays: a step stores four elements, adds one to one count and reports one iteration.
#[test]
fn an_iteration_is_one_step() {
    let mut b = begun(4, 0, 0);
    b.constant(70);
    for (array, value) in [(1, 71), (2, 72), (3, 73)] {
        b.statement(array, 1);
        b.constant(value);
    }
    let table = b.end().expect("a table");
    let (mut state, mut memory) = (State::new(), vec![0.0; 48]);
    let report = step(&table, 2, 1, &mut state, &mut memory).expect("accepted");
    assert!(matches!(report, Report::Iteration { loop_number: 0, index: 6, .. }), "{report:?}");
    assert_eq!(state.counts[..3], [0, 1, 0]);
    let mut wanted = vec![0.0; 48];
    (wanted[6], wanted[12 + 7], wanted[24 + 7], wanted[36 + 7]) = (70.0, 71.0, 72.0, 73.0);
    assert_eq!(memory, wanted);
}

/// An array and an offset.
type Referred = (usize, i32);

/// A loop from 1 to 10: each statement stores the sum of what it reads, or 5 where it reads nothing.
fn stated(statements: &[(Referred, &[Referred])]) -> Vec<u8> {
    let (own, further) = statements.split_first().expect("a statement");
    let mut b = begun(3, own.0 .0, own.0 .1);
    sum(&mut b, own.1);
    for ((array, offset), reads) in further {
        b.statement(*array, *offset);
        sum(&mut b, reads);
    }
    b.end().expect("a table")
}

fn sum(b: &mut Builder, reads: &[Referred]) {
    for (at, (array, offset)) in reads.iter().enumerate() {
        b.read(*array, *offset);
        if at > 0 {
            b.operation(Operation::Add);
        }
    }
    if reads.is_empty() {
        b.constant(5);
    }
}

/// A loop's references count on over its statements.
#[test]
fn nine_names_the_lowest_pair_of_any_two_references() {
    for (statements, wanted) in [
        // The read stands before the destination that it meets; at one offset they do not meet.
        (&[((1, 0), &[(0, 0)][..]), ((0, 1), &[])][..], Some([1, 2])),
        (&[((1, 0), &[(0, 0)]), ((0, -1), &[])], Some([1, 2])),
        (&[((1, 0), &[(0, 0)]), ((0, 0), &[])], None),
        // Two destinations, apart and at one offset.
        (&[((0, 0), &[]), ((0, 1), &[])], Some([0, 1])),
        (&[((0, 0), &[]), ((0, 0), &[])], None),
        // A read of a later statement meets the first destination.
        (&[((0, 0), &[]), ((1, 0), &[(2, 0), (0, 1)])], Some([0, 3])),
        // A2[i] = A0[i-1] + A0[i+1]; A1[i] = A1[i]; A0[i] = A1[i-1]: the pairs are 1 and 5, 2 and 5, 3 and 6.
        (&[((2, 0), &[(0, -1), (0, 1)]), ((1, 0), &[(1, 0)]), ((0, 0), &[(1, -1)])], Some([1, 5])),
        // A2[i] = A1[i]; A1[i] = 5; A1[i+1] = A1[i-1]: reference 1 meets 3, and 2 meets 3 and 4; 3 meets 4.
        (&[((2, 0), &[(1, 0)]), ((1, 0), &[]), ((1, 1), &[(1, -1)])], Some([1, 3])),
        // Two reads never make one.
        (&[((2, 0), &[(0, -1)]), ((1, 0), &[(0, 1)])], None),
    ] {
        let wanted = wanted.map_or((0, 0, [0, 0]), |pair| (9, 0, pair));
        assert_eq!(told(&stated(statements)), wanted, "{statements:?}");
    }
}

/// Ten iterations: nine apart still meet, ten apart no more.
#[test]
fn nine_goes_by_how_long_the_loop_is() {
    let table = |offset: i32| {
        let mut b = Builder::new();
        let [a0, a1] = [30; 2].map(|length| b.array(length));
        b.open_loop(10, 19, a1, 0);
        b.read(a0, 0);
        b.statement(a0, offset);
        b.constant(5);
        b.end().expect("a table")
    };
    for (offset, met) in [(9, true), (10, false), (-9, true), (-10, false), (1, true), (0, false)] {
        assert_eq!(told(&table(offset)), if met { (9, 0, [1, 2]) } else { (0, 0, [0, 0]) }, "{offset}");
    }
}

/// An array of 12, a loop at byte 5 and its constant at byte 17; what follows is at byte 22.
fn behind_a_body(more: &[u8]) -> (u64, u64) {
    let head = [1, 12, 0, 0, 0, 2, 1, 0, 0, 0, 10, 0, 0, 0, 0, 0, 0, 4, 7, 0, 0, 0];
    let (number, place, _) = told(&[&head[..], more].concat());
    (number, place)
}

#[test]
fn a_further_statement_meets_its_grounds_in_their_order() {
    let statement = [7, 0, 0, 0];
    let constant = [4, 7, 0, 0, 0];
    assert_eq!(told(&[7]), (2, 0, [0, 0]));
    assert_eq!(told(&[1, 12, 0, 0, 0, 7, 9, 0]), (2, 5, [0, 0]));
    // Two numbers wait: 6 before 4, 1, 5, 3 and 7.
    assert_eq!(behind_a_body(&[&constant[..], &[7, 9]].concat()), (6, 27));
    assert_eq!(behind_a_body(&[&statement[..], &[7]].concat()), (6, 26));
    // The fifth: 4 before 1. As many as that are accepted without it.
    let further = [&statement[..], &constant].concat();
    assert_eq!(behind_a_body(&[&further.repeat(3)[..], &[7]].concat()), (4, 49));
    assert_eq!(behind_a_body(&[&further.repeat(3)[..], &[6]].concat()), (0, 0));
    assert_eq!(behind_a_body(&[7, 9, 0]), (1, 22));
    assert_eq!(behind_a_body(&[7, 1, 0, 1]), (5, 22));
    assert_eq!(behind_a_body(&[7, 0, 0, 1]), (3, 22));
    assert_eq!(behind_a_body(&[7, 0, 0, 255]), (3, 22));
    assert_eq!(behind_a_body(&[7, 0, 2, 0]), (7, 22));
    assert_eq!(behind_a_body(&[7, 0, 254, 255]), (7, 22));
    assert_eq!(behind_a_body(&[&statement[..], &[5, 5]].concat()), (6, 26));
    assert_eq!(behind_a_body(&[&statement[..], &[6]].concat()), (6, 26));
    assert_eq!(behind_a_body(&[8]), (2, 22));
}

/// 32 items over all statements of a loop; the next loop begins anew.
#[test]
fn items_are_counted_over_a_loop() {
    let filled = |b: &mut Builder, negates: usize| {
        b.open_loop(0, 0, 0, 0);
        b.constant(1);
        b.statement(0, 0);
        b.constant(1);
        (0..negates).for_each(|_| b.operation(Operation::Negate));
    };
    let mut b = Builder::new();
    b.array(1);
    filled(&mut b, 30);
    filled(&mut b, 30);
    assert_eq!(check(&b.clone().end().expect("a table")), Ok(()));
    // An array, a loop of 12 + 5 + 4 + 5 + 60 bytes, and the next.
    b.operation(Operation::Negate);
    assert_eq!(told(b.bytes()), (4, 5 + 86 + 86, [0, 0]));
}

#[test]
fn joining_copies_all_statements() {
    for name in ["reach", "coast"] {
        let table = example(name);
        let arrays = 5 * facts(&table).expect("accepted").arrays.len();
        assert_eq!(join(&table, &table), Ok([&table[..table.len() - 1], &table[arrays..]].concat()), "{name}");
    }
}

/// The longest accepted table: 16 arrays, and 16 loops of four statements with 18 constants and 14 sums.
#[test]
fn the_longest_table_has_the_size_that_suffices() {
    let mut b = Builder::new();
    for _ in 0..16 {
        b.array(1);
    }
    for number in 0..16 {
        b.open_loop(0, 0, number, 0);
        b.constant(1);
        for _ in 0..14 {
            b.constant(1);
            b.operation(Operation::Add);
        }
        for _ in 0..3 {
            b.statement(number, 0);
            b.constant(1);
        }
    }
    let table = b.end().expect("a table");
    assert_eq!((table.len(), TABLE_BYTES), (2_353, 2_353));
    assert_eq!(check(&table), Ok(()));
}
