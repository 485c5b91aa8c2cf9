//! The plain run.

use crate::stop::{first_difference, same_bits, stop};
use vempaldi_checks::collisions;
use vempaldi_checks::damage;
use vempaldi_checks::encoder::encode;
use vempaldi_checks::examples::TWO_STATEMENTS;
use vempaldi_checks::interpreter::plain_run;
use vempaldi_checks::library_running as library;
use vempaldi_checks::memories;
use vempaldi_checks::misrun::Misrun;
use vempaldi_checks::outcome::{agrees, ACCEPTED};
use vempaldi_checks::random::Random;
use vempaldi_checks::reader::read;
use vempaldi_checks::statements::Statements;
use vempaldi_checks::table::Table;
use vempaldi_checks::tables::{self, Shape, LARGE, MIDDLE, SMALL};
use vempaldi_checks::tally::Tally;

const LEAST_SHOWN: u64 = 500;
/// Of each ground at the record of a further statement.
const LEAST_AT_STATEMENTS: u64 = 50;
/// The longest memory for which wrong ways to run are tried as well.
const SHORT: usize = 100;
/// How many numbers on each side of the lent memory are watched.
const GUARD: usize = 4;

pub fn compare_all() {
    typed();
    let mut ran = Ran::default();
    for (seed, shape, count) in [(1, SMALL, 20_000), (2, MIDDLE, 2_000), (3, LARGE, 30)] {
        tables_of(&mut ran, seed, &shape, count);
    }
    ran.grounds.print("plain runs");
    ran.grounds.require(&[0, 1, 3, 4, 5, 6, 7, 8, 9, 12], 50);
    ran.statements.print("plain runs");
    ran.statements.require(LEAST_AT_STATEMENTS);
    ran.misrun.print("statements of an iteration, plain runs of small tables");
    ran.misrun.require(LEAST_SHOWN);
}

/// What was run.
#[derive(Default)]
struct Ran {
    grounds: Tally,
    statements: Statements,
    misrun: Misrun,
}

/// One iteration, 4: A0[4] = A1[3] + 9, then A1[4] = A0[4].
fn typed() {
    let mut memory: Vec<f64> = (0..10).map(f64::from).collect();
    let table = TWO_STATEMENTS.to_vec();
    assert_eq!(library::plain_run(&table, &mut memory), ACCEPTED, "a typed run");
    let wanted = [0.0, 1.0, 2.0, 3.0, 17.0, 5.0, 6.0, 7.0, 8.0, 17.0];
    assert_eq!(memory, wanted, "a typed run of two statements");
}

fn tables_of(ran: &mut Ran, seed: u64, shape: &Shape, count: usize) {
    let mut random = Random::new(seed);
    let serial = Shape { serial: true, statements: 5, ..*shape };
    for _ in 0..count {
        let one = tables::any(&mut random, shape);
        let other = tables::aligned(&mut random, shape);
        for table in [&one, &other] {
            let length = table.elements() as usize;
            compare(ran, &mut random, &encode(table), length);
            wrong_lengths(ran, &mut random, table);
        }
        let elements = one.elements() as usize;
        let meeting = encode(&tables::over(&mut random, &serial, &one.arrays));
        let good = encode(&one);
        compare(ran, &mut random, &meeting, elements);
        let colliding = encode(&collisions::table(&mut random));
        compare(ran, &mut random, &colliding, elements);
        let broken = damage::field(&mut random, &good);
        compare(ran, &mut random, &broken, elements);
        let crowded = damage::crowd(&mut random, &good);
        compare(ran, &mut random, &crowded, elements);
        let cut = random.below(good.len());
        compare(ran, &mut random, &good[..cut], elements);
        let stated = damage::statement(&mut random, &good);
        compare(ran, &mut random, &stated, elements);
    }
}

fn wrong_lengths(ran: &mut Ran, random: &mut Random, table: &Table) {
    let length = table.elements() as usize;
    let wrong = random.pick(&[0, 1, length - 1, length + 1, length * 2]);
    let bytes = encode(table);
    compare(ran, random, &bytes, wrong);
}

/// One table with a memory of `length` numbers, watched on both sides.
fn compare(ran: &mut Ran, random: &mut Random, table: &[u8], length: usize) {
    let start = memories::any(random, length + 2 * GUARD);
    let lent = GUARD..GUARD + length;
    let mut found = start.clone();
    let mut wanted = start.clone();
    let answer = library::plain_run(table, &mut found[lent.clone()]);
    let refusal = plain_run(table, &mut wanted[lent.clone()]).err();
    if !agrees(&answer, refusal.as_ref()) || !same_bits(&found, &wanted) {
        let difference = first_difference(&found, &wanted);
        let details = format!(
            "  memory of {length} numbers behind {GUARD} watched ones\n\
             \x20 library  {answer:?}\n  expected {refusal:?}\n{difference}"
        );
        stop("plain run", table, &details);
    }
    if answer[0] == 0 {
        let table = read(table).expect("an accepted table reads");
        if length <= SHORT {
            ran.misrun.add(&table, &start[lent.clone()], &wanted[lent]);
        }
    }
    ran.statements.add(table, refusal.as_ref());
    ran.grounds.add(answer[0]);
}
