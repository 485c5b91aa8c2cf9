//! Runs in a caller's order: the memory, the idle count, and that both are
//! those of the row of steps.

use crate::plans::{planned, planned_by_hand, Planned};
use crate::stop::{first_difference, same_bits, stop};
use std::hint::black_box;
use vempaldi_checks::collisions;
use vempaldi_checks::damage;
use vempaldi_checks::encoder::encode;
use vempaldi_checks::examples::EXAMPLE;
use vempaldi_checks::interpreter::plain_run;
use vempaldi_checks::library_running as library;
use vempaldi_checks::line_lengths;
use vempaldi_checks::memories;
use vempaldi_checks::outcome::{agrees, ACCEPTED};
use vempaldi_checks::plans_by_hand;
use vempaldi_checks::processors;
use vempaldi_checks::random::Random;
use vempaldi_checks::settings::Settings;
use vempaldi_checks::statements::Statements;
use vempaldi_checks::stepping::{run, Schedule};
use vempaldi_checks::tables::{self, Shape, LARGE};
use vempaldi_checks::tally::Tally;

const PLANS: u64 = 20_000;
const LEAST_OF_STATEMENTS: u64 = 1_000;

pub fn compare_all() {
    typed();
    let mut random = Random::new(13);
    let mut tally = Tally::new();
    let (mut idle, mut statements) = (0, Statements::new());
    for turn in 0..PLANS {
        let planned = planned(&mut random);
        statements.add(&planned.bytes, None);
        let order = any_order(&mut random, &planned);
        let length = planned.schedule.table.elements() as usize;
        let start = memories::any(&mut random, length);
        let settings = planned.schedule.settings;
        idle += compare(&mut tally, &planned.bytes, settings, &order, &start);
        same_as_plain(&planned, &order, &start);
        if turn % 4 == 0 {
            same_as_row(&planned, &order, &start);
            refused(&mut tally, &mut random, &planned, &order);
        }
    }
    long_runs(&mut tally);
    tally.print("runs in a caller's order");
    println!("  {idle} idle bytes in all");
    statements.print_counts("  these runs");
    statements.require_counts(4, LEAST_OF_STATEMENTS);
    tally.require(&[0, 1, 3, 4, 5, 6, 7, 8, 9, 10, 11, 12, 17], 50);
    by_hand();
}

/// The same with plans by hand, some of which are refused.
fn by_hand() {
    let mut random = Random::new(18);
    let (mut tally, mut shown) = (Tally::new(), 0);
    for turn in 0..PLANS {
        let planned = planned_by_hand(&mut random);
        let order = any_order(&mut random, &planned);
        let Schedule { table, settings, .. } = &planned.schedule;
        let start = memories::any(&mut random, table.elements() as usize);
        let idle = compare(&mut tally, &planned.bytes, *settings, &order, &start);
        same_as_plain(&planned, &order, &start);
        let own = Schedule::new(&planned.bytes, settings.own()).expect("the own has a plan");
        shown += u64::from(idle != own.run(&order, &mut start.clone()));
        another_plan(&mut tally, &mut random, &planned, &order);
        if turn % 4 == 0 {
            same_as_row(&planned, &order, &start);
            refused(&mut tally, &mut random, &planned, &order);
        }
    }
    tally.print("runs in a caller's order by hand");
    println!("  without the plan {shown} would have another idle count");
    tally.require(&[0, 1, 3, 4, 5, 6, 7, 8, 9, 10, 11, 12, 17, 19, 20], 50);
    assert!(shown >= 500, "too few runs that show a plan by hand");
}

/// Any plan by hand, at times with a wrong number of processors, length of a
/// line or memory, so that the order of the grounds shows.
fn another_plan(tally: &mut Tally, random: &mut Random, planned: &Planned, order: &[u8]) {
    let Schedule { table, settings, .. } = &planned.schedule;
    let mut other = plans_by_hand::any(random, table, *settings);
    if random.chance(1, 4) {
        other.processors = processors::any(random);
    }
    if random.chance(1, 4) {
        other.line = line_lengths::any(random);
    }
    let length = table.elements() as usize - usize::from(random.chance(1, 4));
    let start = memories::any(random, length);
    compare(tally, &planned.bytes, other, order, &start);
}

/// The example for lines of four iterations: processor 1 has 9 and 10 of loop 0
/// and 10 of loop 1, and then waits.
fn typed() {
    let mut memory: Vec<f64> = (0..36).map(|at| f64::from(at % 12)).collect();
    // On the heap: a call that writes to them is found out below.
    let (table, order) = (EXAMPLE.to_vec(), vec![1; 5]);
    let (answer, idle) = library::run(&table, Settings::new(2, 4), &order, &mut memory);
    assert_eq!((answer, idle), (ACCEPTED, 2), "a typed run");
    assert_eq!((memory[25], memory[29], memory[34]), (3.0, 12.0, 21.0), "a typed run");
}

/// Few runs of larger tables, up to some thousand iterations.
fn long_runs(tally: &mut Tally) {
    let shape = Shape { arrays: 8, length: 2_000, offset: 3, ..LARGE };
    let mut random = Random::new(14);
    for _ in 0..60 {
        let table = tables::aligned(&mut random, &shape);
        let line = line_lengths::good(&mut random);
        let processors = processors::most(&table, line).min(random.between(2, 64) as u32);
        let start = memories::any(&mut random, table.elements() as usize);
        let order: Vec<u8> =
            (0..2_000).map(|_| random.below(processors as usize + 1) as u8).collect();
        compare(tally, &encode(&table), Settings::new(processors, line), &order, &start);
    }
}

/// Bytes of which most name processors, in rows of one or mixed; some runs
/// take none, and some take more than the lists are long.
fn any_order(random: &mut Random, planned: &Planned) -> Vec<u8> {
    let processors = planned.schedule.processors() as usize;
    let length = random.pick(&[0, 1, 5, 40, 200]);
    let mut named = 0;
    (0..length)
        .map(|_| {
            if random.chance(2, 3) {
                named = random.below(processors) as u8;
            }
            if random.chance(1, 10) {
                random.pick(&[processors as u8, 63, 64, 128, 255])
            } else {
                named
            }
        })
        .collect()
}

/// The idle count where the run is accepted, else 0.
fn compare(
    tally: &mut Tally,
    table: &[u8],
    settings: Settings,
    order: &[u8],
    start: &[f64],
) -> u64 {
    let mut found = start.to_vec();
    let mut wanted = start.to_vec();
    let before = [table, order].concat();
    let (answer, idle) = library::run(table, settings, order, &mut found);
    let after = [black_box(table), black_box(order)].concat();
    assert!(before == after, "the table or the order itself changed");
    let expected = run(table, settings, order, &mut wanted);
    let wanted_idle = *expected.as_ref().unwrap_or(&0);
    let same = agrees(&answer, expected.as_ref().err())
        && idle == wanted_idle
        && same_bits(&found, &wanted);
    if !same {
        let difference = first_difference(&found, &wanted);
        let details = format!(
            "  {settings:?}, order {order:?}\n\
             \x20 library  {answer:?}, idle {idle}\n  expected {expected:?}\n{difference}"
        );
        stop("run in a caller's order", table, &details);
    }
    tally.add(answer[0]);
    idle
}

fn same_as_plain(planned: &Planned, order: &[u8], start: &[f64]) {
    let mut found = start.to_vec();
    let mut plain = start.to_vec();
    library::run(&planned.bytes, planned.schedule.settings, order, &mut found);
    plain_run(&planned.bytes, &mut plain).expect("accepted");
    if !same_bits(&found, &plain) {
        let settings = planned.schedule.settings;
        let difference = first_difference(&found, &plain);
        let details = format!("  {settings:?}, order {order:?}\n{difference}");
        stop("run and plain run", &planned.bytes, &details);
    }
}

/// The library's own steps, one for each byte and then the lowest processor
/// that can step, count the same idle calls and leave the same memory.
fn same_as_row(planned: &Planned, order: &[u8], start: &[f64]) {
    let schedule = &planned.schedule;
    let settings = schedule.settings;
    let mut memory = start.to_vec();
    let mut counts = [0; 64];
    let mut idle = 0;
    let mut call = |named: u32, counts: &mut [u32; 64]| {
        let mut report = [9; 3];
        let answer =
            library::step(&planned.bytes, settings, named, counts, &mut memory, &mut report);
        answer == ACCEPTED && report[0] == 1
    };
    for &byte in order {
        idle += u64::from(!call(u32::from(byte), &mut counts));
    }
    while let Some(lowest) = schedule.lowest(&counts) {
        assert!(call(lowest, &mut counts), "the lowest processor that can step does");
    }
    let mut found = start.to_vec();
    let (_, counted) = library::run(&planned.bytes, settings, order, &mut found);
    if counted != idle || !same_bits(&found, &memory) {
        let difference = first_difference(&found, &memory);
        let details = format!("  order {order:?}: idle {counted}, in its row {idle}\n{difference}");
        stop("run and its row of steps", &planned.bytes, &details);
    }
}

/// Wrong tables, numbers of processors, lengths of a line and memories change
/// nothing.
fn refused(tally: &mut Tally, random: &mut Random, planned: &Planned, order: &[u8]) {
    let right = planned.schedule.settings;
    let length = planned.schedule.table.elements() as usize;
    let start = memories::any(random, length);
    let broken = damage::field(random, &planned.bytes);
    compare(tally, &broken, right, order, &start);
    let crowded = damage::crowd(random, &planned.bytes);
    compare(tally, &crowded, right, order, &start);
    let colliding = encode(&collisions::table(random));
    compare(tally, &colliding, right, order, &start);
    let cut = &planned.bytes[..random.below(planned.bytes.len())];
    compare(tally, cut, right, order, &start);
    let (processors, line) = (processors::any(random), line_lengths::any(random));
    let wrong = Settings { processors, line, ..right };
    compare(tally, &planned.bytes, wrong, order, &start);
    let line = line_lengths::bad(random);
    compare(tally, &planned.bytes, Settings { line, ..right }, order, &start);
    let other = random.pick(&[0, length - 1, length + 1]);
    let other = memories::any(random, other);
    compare(tally, &planned.bytes, right, order, &other);
    compare(tally, &planned.bytes, wrong, order, &other);
}
