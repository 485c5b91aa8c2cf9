//! Large tables, with indices and counts above two bytes: steps from counts
//! near the ends of the lists, runs in a caller's order, and a table with many
//! bytes behind it.

use crate::plans::Planned;
use crate::rows::numbers;
use crate::stop::{first_difference, same_bits, stop};
use vempaldi_checks::by_hand;
use vempaldi_checks::encoder::encode;
use vempaldi_checks::examples::EXAMPLE;
use vempaldi_checks::large;
use vempaldi_checks::library_running as library;
use vempaldi_checks::memories;
use vempaldi_checks::outcome::{agrees, ACCEPTED};
use vempaldi_checks::random::Random;
use vempaldi_checks::settings::Settings;
use vempaldi_checks::stepping::{Counts, Report, Schedule};
use vempaldi_checks::table::Table;

/// More bytes than two can count.
const LONG_ORDER: usize = 70_000;

pub fn compare_all() {
    followed();
    longer_memory();
    let mut random = Random::new(15);
    let start = memories::any(&mut random, 131_072);
    let mut steps = 0;
    for (processors, line) in [(1, 1), (2, 64), (64, 63)] {
        let planned = planned_for(2, Settings::new(processors, line));
        steps += near_the_ends(&planned, &start);
        runs(&mut random, &planned, &start);
    }
    // The highest numbers by hand. Loop 1 is to be peeled by two more.
    for (processors, plan) in [(1, [(9, 0), (10_000, 2)]), (3, [(10_000, 9_998), (10_000, 10_000)])]
    {
        let settings = Settings::of(processors).with_plan(&by_hand::typed(&plan));
        let planned = planned_for(2, settings);
        steps += near_the_ends(&planned, &start);
        runs(&mut random, &planned, &start);
    }
    // The longest list that there can be: 1,048,576 iterations.
    steps += near_the_ends(&planned_for(16, Settings::of(1)), &start);
    let start = memories::any(&mut random, 262_144);
    for (processors, line) in [(1, 1), (64, 63)] {
        let table = large::last_indices_by_four();
        let planned = planned_of(&table, Settings::new(processors, line));
        steps += near_the_ends(&planned, &start);
        runs(&mut random, &planned, &start);
    }
    println!(
        "large tables: {steps} steps near the ends of their lists, runs of {LONG_ORDER} bytes"
    );
}

fn planned_for(loops: usize, settings: Settings) -> Planned {
    planned_of(&large::last_indices(loops), settings)
}

fn planned_of(table: &Table, settings: Settings) -> Planned {
    let bytes = encode(table);
    let schedule = Schedule::new(&bytes, settings).expect("planned");
    Planned { bytes, schedule }
}

/// Rows of steps of some processors from five iterations before the end of
/// every fused list; then past the barrier, and to the end.
fn near_the_ends(planned: &Planned, start: &[f64]) -> u64 {
    let lists = &planned.schedule.lists;
    let mut counts = [0; 64];
    for (count, own) in counts.iter_mut().zip(lists) {
        *count = own.fused.len() as u32 - 5;
    }
    let (mut found, mut wanted) = (start.to_vec(), start.to_vec());
    let mut steps = 0;
    let last = lists.len() as u32 - 1;
    for named in [last, 0] {
        for _ in 0..7 {
            step(planned, &mut counts, named, &mut found, &mut wanted);
            steps += 1;
        }
    }
    for (count, own) in counts.iter_mut().zip(lists) {
        *count = own.fused.len() as u32;
    }
    for named in [0, last, last + 1, 65_536, 65_536 + last] {
        for _ in 0..4 {
            step(planned, &mut counts, named, &mut found, &mut wanted);
            steps += 1;
        }
    }
    steps
}

fn step(planned: &Planned, counts: &mut Counts, named: u32, found: &mut [f64], wanted: &mut [f64]) {
    let settings = planned.schedule.settings;
    let start = [71, 72, 73];
    let (mut own, mut report) = (*counts, start);
    let answer = library::step(&planned.bytes, settings, named, &mut own, found, &mut report);
    let expected = planned.schedule.checked_step(named, counts, wanted);
    let wanted_report = expected.as_ref().map_or(start, |&report: &Report| numbers(report));
    let same = agrees(&answer, expected.as_ref().err())
        && report == wanted_report
        && own == *counts
        && same_bits(found, wanted);
    if !same {
        let details = format!(
            "  {settings:?}, stepped {named}\n\
             \x20 library  {answer:?}, report {report:?}, counts {own:?}\n\
             \x20 expected {expected:?}, counts {counts:?}\n{}",
            first_difference(found, wanted)
        );
        stop("step of a large table", &planned.bytes, &details);
    }
}

/// One order that mixes the processors, and one that names none of them, so
/// that all of its bytes are idle.
fn runs(random: &mut Random, planned: &Planned, start: &[f64]) {
    let settings = planned.schedule.settings;
    let processors = settings.processors as usize;
    let mixed = (0..LONG_ORDER).map(|_| random.below(processors + 1) as u8).collect();
    let orders: [Vec<u8>; 2] = [mixed, vec![64; LONG_ORDER]];
    let idle = orders.map(|order| {
        let (mut found, mut wanted) = (start.to_vec(), start.to_vec());
        let (answer, idle) = library::run(&planned.bytes, settings, &order, &mut found);
        let expected = planned.schedule.run(&order, &mut wanted);
        if answer != ACCEPTED || idle != expected || !same_bits(&found, &wanted) {
            let difference = first_difference(&found, &wanted);
            let details = format!("  {answer:?}, idle {idle}, expected {expected}\n{difference}");
            stop("run of a large table", &planned.bytes, &details);
        }
        idle
    });
    assert_eq!(idle[1], LONG_ORDER as u64, "all bytes that name no processor are idle");
}

/// 12 of a memory of which the low two bytes of its length are the right ones,
/// and nothing else changes.
fn longer_memory() {
    let start = vec![0.5; 36 + 65_536];
    let mut memory = start.clone();
    let wrong = [12, 0, 0, 0];
    assert_eq!(library::plain_run(&EXAMPLE, &mut memory), wrong, "plain run");
    assert_eq!(library::run(&EXAMPLE, Settings::of(2), &[0, 1], &mut memory), (wrong, 0), "run");
    let (mut counts, mut report) = ([0; 64], [1, 2, 3]);
    let two = Settings::of(2);
    let answer = library::step(&EXAMPLE, two, 0, &mut counts, &mut memory, &mut report);
    assert_eq!((answer, counts, report), (wrong, [0; 64], [1, 2, 3]), "step");
    assert!(memory == start, "a refused call changed the memory");
}

/// 8 at the table's end, and nothing else changes.
fn followed() {
    let table = large::followed(&EXAMPLE);
    let tail = [8, EXAMPLE.len() as u64, 0, 0];
    let start = vec![0.5; 36];
    let mut memory = start.clone();
    assert_eq!(library::plain_run(&table, &mut memory), tail, "plain run");
    assert_eq!(library::run(&table, Settings::of(2), &[0, 1], &mut memory), (tail, 0), "run");
    let (mut counts, mut report) = ([0; 64], [1, 2, 3]);
    let two = Settings::of(2);
    let answer = library::step(&table, two, 0, &mut counts, &mut memory, &mut report);
    assert_eq!((answer, counts, report), (tail, [0; 64], [1, 2, 3]), "step");
    assert!(memory == start, "a refused call changed the memory");
}
