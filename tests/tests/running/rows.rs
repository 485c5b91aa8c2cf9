//! Complete rows of steps, by the loops' own numbers and by hand: every report,
//! every count and the memory after every call, and at the end the memory of
//! the plain run.

use crate::hands::Hands;
use crate::lines::Lines;
use crate::plans::{planned, planned_by_hand, Planned};
use crate::schedulers::{self, Scheduler};
use crate::stop::{first_difference, same_bits, stop};
use vempaldi_checks::interpreter::plain_run;
use vempaldi_checks::library_running as library;
use vempaldi_checks::memories;
use vempaldi_checks::misjudged::bounds_matter;
use vempaldi_checks::misrun::Misrun;
use vempaldi_checks::outcome::agrees;
use vempaldi_checks::random::Random;
use vempaldi_checks::stepping::{Counts, Report};

const PLANS: u64 = 6_000;
const LEAST_OF_EACH: u64 = 10_000;
const LEAST_LINED: u64 = 1_000;
const LEAST_BY_HAND: u64 = 300;
const LEAST_SHOWN: u64 = 200;
/// Of so many rows, one shows by which of them wrong ways would be seen.
const SOME: u64 = 12;

#[derive(Default)]
struct Calls {
    rows: u64,
    /// Plans for 64 processors, which use every count of the state.
    widest: u64,
    /// Plans of loops that would be shifted or peeled more if their bounds
    /// were not asked.
    apart: u64,
    lines: Lines,
    /// Of one row in so many, so that it is not slow.
    misrun: Misrun,
    done: u64,
    waiting: u64,
    finished: u64,
    refused: u64,
}

pub fn compare_all() {
    own();
    by_hand();
}

fn own() {
    let mut random = Random::new(11);
    let mut calls = Calls::default();
    for _ in 0..PLANS {
        let planned = planned(&mut random);
        let processors = planned.schedule.processors();
        calls.widest += u64::from(processors == 64);
        calls.lines.add(&planned.schedule);
        let parallel = processors > 1;
        calls.apart += u64::from(parallel && bounds_matter(&planned.schedule.table));
        every_row(&mut calls, &mut random, &planned);
    }
    calls.print("rows of steps");
    println!("  {} of {PLANS} plans for 64 processors", calls.widest);
    println!("  {} for two processors and more with loops that bounds keep apart", calls.apart);
    calls.lines.print();
    calls.lines.require(LEAST_LINED);
    calls.misrun.print("statements of an iteration, some of the rows");
    calls.misrun.require(LEAST_SHOWN);
    assert!(calls.widest >= 50, "too few plans for 64 processors");
    assert!(calls.apart >= 500, "too few plans of loops that never meet");
}

fn by_hand() {
    let mut random = Random::new(16);
    let (mut calls, mut hands) = (Calls::default(), Hands::default());
    for _ in 0..PLANS {
        let planned = planned_by_hand(&mut random);
        hands.add(&planned);
        every_row(&mut calls, &mut random, &planned);
    }
    calls.print("rows of steps by hand");
    hands.print();
    hands.require(LEAST_BY_HAND);
    calls.misrun.print("statements of an iteration, some of the rows by hand");
    calls.misrun.require(LEAST_SHOWN);
}

fn every_row(calls: &mut Calls, random: &mut Random, planned: &Planned) {
    for scheduler in schedulers::every(random, planned.schedule.processors()) {
        row(calls, random, planned, scheduler);
    }
}

impl Calls {
    /// Prints what was called; ends the program where it was too little.
    fn print(&self, name: &str) {
        println!(
            "{name}: {} complete rows; {} iterations, {} waiting, {} finished, {} refused",
            self.rows, self.done, self.waiting, self.finished, self.refused
        );
        for count in [self.rows, self.done, self.waiting, self.finished, self.refused] {
            assert!(count >= LEAST_OF_EACH, "too few calls of one kind");
        }
    }
}

/// One row, ended by a few calls more than it needs.
fn row(calls: &mut Calls, random: &mut Random, planned: &Planned, scheduler: Scheduler) {
    let start = memories::any(random, planned.schedule.table.elements() as usize);
    let mut state = State { counts: [0; 64], found: start.clone(), wanted: start.clone() };
    let mut before = 0;
    let mut turn = 0;
    while planned.schedule.lowest(&state.counts).is_some() {
        let schedule = &planned.schedule;
        let named = scheduler.choose(random, schedule, &state.counts, turn, before);
        call(calls, planned, &mut state, named);
        before = named;
        turn += 1;
    }
    for named in 0..=planned.schedule.processors() {
        call(calls, planned, &mut state, named);
    }
    let mut plain = start.clone();
    plain_run(&planned.bytes, &mut plain).expect("accepted");
    if calls.rows.is_multiple_of(SOME) {
        calls.misrun.add(&planned.schedule.table, &start, &plain);
    }
    if !same_bits(&state.found, &plain) {
        let difference = first_difference(&state.found, &plain);
        let settings = planned.schedule.settings;
        let details = format!("  {settings:?}, {scheduler:?}\n{difference}");
        stop("row and plain run", &planned.bytes, &details);
    }
    calls.rows += 1;
}

/// The counts, the library's memory and the second interpreter's.
struct State {
    counts: Counts,
    found: Vec<f64>,
    wanted: Vec<f64>,
}

/// What stands in a report before a call; a refused call leaves it there, and
/// so it would a zeroed one: no report is 0.
const NO_REPORT: [u32; 3] = [91, 92, 93];

/// The three numbers of a report; waiting and finished have 0 behind them.
pub fn numbers(report: Report) -> [u32; 3] {
    match report {
        Report::Done(one) => [1, one.loop_number, one.index],
        Report::Waiting => [2, 0, 0],
        Report::Finished => [3, 0, 0],
    }
}

fn call(calls: &mut Calls, planned: &Planned, state: &mut State, named: u32) {
    let schedule = &planned.schedule;
    let settings = schedule.settings;
    let mut counts = state.counts;
    let mut report = NO_REPORT;
    let answer =
        library::step(&planned.bytes, settings, named, &mut counts, &mut state.found, &mut report);
    let expected = schedule.checked_step(named, &mut state.counts, &mut state.wanted);
    let wanted = expected.as_ref().map_or(NO_REPORT, |&report| numbers(report));
    let same = agrees(&answer, expected.as_ref().err())
        && report == wanted
        && counts == state.counts
        && same_bits(&state.found, &state.wanted);
    if !same {
        let difference = first_difference(&state.found, &state.wanted);
        let details = format!(
            "  {settings:?}, stepped {named}\n\
             \x20 library  {answer:?}, report {report:?}, counts {counts:?}\n\
             \x20 expected {expected:?}, counts {:?}\n{difference}",
            state.counts
        );
        stop("step in a row", &planned.bytes, &details);
    }
    match expected {
        Ok(Report::Done(_)) => calls.done += 1,
        Ok(Report::Waiting) => calls.waiting += 1,
        Ok(Report::Finished) => calls.finished += 1,
        Err(_) => calls.refused += 1,
    }
}
