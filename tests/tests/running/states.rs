//! Single steps from any counts, with wrong numbers, memories and tables: one
//! wrong thing at a time and several at once.

use crate::plans::{planned, planned_by_hand, Planned};
use crate::rows::numbers;
use crate::stop::{first_difference, same_bits, stop};
use vempaldi_checks::collisions;
use vempaldi_checks::damage;
use vempaldi_checks::encoder::encode;
use vempaldi_checks::library_running as library;
use vempaldi_checks::line_lengths;
use vempaldi_checks::memories;
use vempaldi_checks::outcome::{agrees, Refusal};
use vempaldi_checks::plans_by_hand;
use vempaldi_checks::processors;
use vempaldi_checks::random::Random;
use vempaldi_checks::settings::Settings;
use vempaldi_checks::stepping::{step, Counts, Report};
use vempaldi_checks::tally::Tally;

const PLANS: u64 = 10_000;
const CALLS: u64 = 8;

/// Everything that one step is given.
struct Call {
    table: Vec<u8>,
    settings: Settings,
    processor: u32,
    counts: Counts,
    memory: Vec<f64>,
}

pub fn compare_all() {
    let mut random = Random::new(12);
    let mut tally = Tally::new();
    for _ in 0..PLANS {
        let planned = planned(&mut random);
        for _ in 0..CALLS {
            let call = any_call(&mut random, &planned);
            compare(&mut tally, call);
        }
    }
    tally.print("single steps");
    tally.require(&[0, 1, 3, 4, 5, 6, 7, 8, 9, 10, 11, 12, 15, 17], 50);
    by_hand();
}

/// The same with plans by hand, some of which are refused.
fn by_hand() {
    let mut random = Random::new(17);
    let (mut tally, mut ignored) = (Tally::new(), Ignored::default());
    for _ in 0..PLANS {
        let planned = planned_by_hand(&mut random);
        for _ in 0..CALLS {
            let mut call = any_call(&mut random, &planned);
            if random.chance(1, 5) {
                let table = &planned.schedule.table;
                call.settings = plans_by_hand::any(&mut random, table, call.settings);
            }
            ignored.add(&call);
            compare(&mut tally, call);
        }
    }
    tally.print("single steps by hand");
    tally.require(&[0, 1, 3, 4, 5, 6, 7, 8, 9, 10, 11, 12, 15, 17, 19, 20], 50);
    ignored.print_and_require(500);
}

/// Steps that would come to something else if the plan by hand were ignored:
/// another iteration, 15 or not, waiting or not.
#[derive(Default)]
struct Ignored {
    performed: u64,
    state: u64,
    waiting: u64,
}

impl Ignored {
    fn add(&mut self, call: &Call) {
        let come = |settings| {
            let (mut counts, mut memory) = (call.counts, call.memory.clone());
            step(&call.table, settings, call.processor, &mut counts, &mut memory)
        };
        let (by_hand, own) = (come(call.settings), come(call.settings.own()));
        let state =
            |one: &Result<Report, Refusal>| one.as_ref().is_err_and(|refusal| refusal.number == 15);
        let performs = |one: &Result<Report, Refusal>| matches!(one, Ok(Report::Done(_)));
        let both = performs(&by_hand) && performs(&own);
        self.performed += u64::from(both && by_hand != own);
        self.state += u64::from(state(&by_hand) != state(&own));
        let done = by_hand.is_ok() && own.is_ok();
        self.waiting += u64::from(done && performs(&by_hand) != performs(&own));
    }

    fn print_and_require(&self, least: u64) {
        let Ignored { performed, state, waiting } = self;
        println!("  without the plan {performed} would perform another iteration, {state} would");
        println!("  be 15 or not, {waiting} would wait or be finished, or not");
        for count in [performed, state, waiting] {
            assert!(*count >= least, "too few steps that show a plan by hand");
        }
    }
}

fn any_call(random: &mut Random, planned: &Planned) -> Call {
    let processors = planned.schedule.processors();
    let length = planned.schedule.table.elements() as usize;
    let mut call = Call {
        table: planned.bytes.clone(),
        settings: planned.schedule.settings,
        processor: random.below(processors as usize) as u32,
        counts: any_counts(random, planned),
        memory: memories::any(random, length),
    };
    if random.chance(1, 8) {
        call.settings.processors = processors::any(random);
    }
    if random.chance(1, 8) {
        call.settings.line = line_lengths::any(random);
    }
    if random.chance(1, 8) {
        let below = random.below(processors as usize) as u32;
        let above = [processors, 64, 255, 256, 65_536, 65_536 + below, u32::MAX];
        call.processor = random.pick(&above);
    }
    if random.chance(1, 8) {
        let wrong = random.pick(&[0, length - 1, length + 1]);
        call.memory = memories::any(random, wrong);
    }
    match random.below(24) {
        0 => call.table = damage::field(random, &planned.bytes),
        1 => call.table = damage::crowd(random, &planned.bytes),
        2 => call.table.truncate(random.below(planned.bytes.len())),
        3 => call.table = encode(&collisions::table(random)),
        _ => {}
    }
    call
}

/// Counts before the barrier or past it, mostly in order, at times one or two
/// of them not.
fn any_counts(random: &mut Random, planned: &Planned) -> Counts {
    let past = random.chance(1, 2);
    let mut counts = [0; 64];
    for (count, own) in counts.iter_mut().zip(&planned.schedule.lists) {
        let fused = own.fused.len() as i64;
        *count = if past {
            fused + random.between(0, own.peeled.len() as i64)
        } else if random.chance(1, 2) {
            fused
        } else {
            random.between(0, fused)
        } as u32;
    }
    for _ in 0..random.below(3) {
        disturb(random, planned, &mut counts);
    }
    counts
}

fn disturb(random: &mut Random, planned: &Planned, counts: &mut Counts) {
    let processors = planned.schedule.lists.len();
    let b = random.below(processors);
    let own = &planned.schedule.lists[b];
    let (fused, peeled) = (own.fused.len() as u32, own.peeled.len() as u32);
    match random.below(6) {
        0 => counts[b] = fused + peeled + 1,
        1 => counts[b] = fused + 1,
        2 => counts[b] = fused.saturating_sub(1),
        3 => counts[b] = random.pick(&[u32::MAX, 1 << 31, 1 << 16, fused + peeled]),
        _ if processors < 64 => {
            let other = random.between(processors as i64, 63) as usize;
            counts[other] = random.pick(&[1, u32::MAX]);
        }
        _ => counts[63] = 0,
    }
}

fn compare(tally: &mut Tally, call: Call) {
    let mut counts = call.counts;
    let mut wanted_counts = call.counts;
    let mut found = call.memory.clone();
    let mut wanted = call.memory;
    let start = [81, 82, 83];
    let mut report = start;
    let answer = library::step(
        &call.table,
        call.settings,
        call.processor,
        &mut counts,
        &mut found,
        &mut report,
    );
    let expected =
        step(&call.table, call.settings, call.processor, &mut wanted_counts, &mut wanted);
    let wanted_report = expected.as_ref().map_or(start, |&report| numbers(report));
    let same = agrees(&answer, expected.as_ref().err())
        && report == wanted_report
        && counts == wanted_counts
        && same_bits(&found, &wanted);
    if !same {
        let difference = first_difference(&found, &wanted);
        let details = format!(
            "  {:?}, stepped {}, counts {:?}, memory of {}\n\
             \x20 library  {answer:?}, report {report:?}, counts {counts:?}\n\
             \x20 expected {expected:?}, counts {wanted_counts:?}\n{difference}",
            call.settings,
            call.processor,
            call.counts,
            wanted.len()
        );
        stop("single step", &call.table, &details);
    }
    tally.add(answer[0]);
}
