//! Every entry of planning with output buffers that are exact, one byte too
//! short, empty and longer.

use std::hint::black_box;
use vempaldi_checks::blocks::plan;
use vempaldi_checks::collisions;
use vempaldi_checks::damage;
use vempaldi_checks::encoder::encode;
use vempaldi_checks::lent;
use vempaldi_checks::library_planning as library;
use vempaldi_checks::limits;
use vempaldi_checks::line_lengths;
use vempaldi_checks::outcome::{agrees, hex, Answer};
use vempaldi_checks::outputs::{self, Output};
use vempaldi_checks::processors;
use vempaldi_checks::random::Random;
use vempaldi_checks::reader::read;
use vempaldi_checks::settings::Settings;
use vempaldi_checks::statements::Statements;
use vempaldi_checks::tables::{self, Shape, LARGE, MIDDLE, SMALL};
use vempaldi_checks::tally::Tally;

const LEAST_OF_EACH: u64 = 100;
const SMALL_PLANS: u64 = 4_000;
/// Of each ground at the record of a further statement.
const LEAST_AT_STATEMENTS: u64 = 40;

type Expected<'a> = Box<dyn Fn(usize) -> Output + 'a>;
type Call<'a> = Box<dyn Fn(&mut [u8]) -> (Answer, u64) + 'a>;

/// One entry with all its arguments but the output.
pub struct Entry<'a> {
    name: &'static str,
    expected: Expected<'a>,
    call: Call<'a>,
}

impl Entry<'_> {
    /// Whether it writes every iteration.
    pub fn is_list(&self) -> bool {
        self.name.ends_with("list")
    }
}

pub fn compare_all() {
    let mut tally = Tally::new();
    let plans = every_list(&mut tally);
    for case in limits::cases() {
        // What a table itself is refused with stands before a bad line.
        for line in [1, 65] {
            every_entry(&mut tally, &case.bytes, Settings::new(2, line), 1);
        }
    }
    let mut statements = Statements::new();
    for (seed, shape, count) in [(21, SMALL, 6_000), (22, MIDDLE, 2_000), (23, LARGE, 400)] {
        mixed(&mut tally, &mut statements, seed, &shape, count);
    }
    tally.print("entries of planning");
    statements.print("entries of planning");
    statements.require(LEAST_AT_STATEMENTS);
    println!("  every list of {plans} small plans among them");
    tally.require(&[0, 1, 2, 3, 4, 5, 6, 7, 8, 9, 10, 11, 13, 17], LEAST_OF_EACH);
}

/// All lists and ranges of all processors, and one processor too many.
fn every_list(tally: &mut Tally) -> u64 {
    let mut random = Random::new(20);
    let mut plans = 0;
    while plans < SMALL_PLANS {
        let table = tables::aligned(&mut random, &SMALL);
        let line = line_lengths::good(&mut random);
        let most = processors::most(&table, line);
        let count = random.between(1, i64::from(most)) as u32;
        let settings = Settings::new(count, line);
        if plan(&table, settings).is_err() {
            continue;
        }
        let bytes = encode(&table);
        for processor in (0..=count).chain([65_536, 65_536 + count - 1]) {
            for entry in of_processor(&bytes, settings, processor) {
                every_room(tally, &bytes, &entry);
            }
        }
        plans += 1;
    }
    plans
}

fn mixed(tally: &mut Tally, statements: &mut Statements, seed: u64, shape: &Shape, count: u64) {
    let mut random = Random::new(seed);
    let serial = Shape { serial: true, statements: 5, ..*shape };
    for _ in 0..count {
        let good = encode(&tables::aligned(&mut random, shape));
        let meeting = encode(&tables::any(&mut random, &serial));
        let colliding = encode(&collisions::table(&mut random));
        let broken = damage::field(&mut random, &good);
        let crowded = damage::crowd(&mut random, &good);
        let torn = good[..random.below(good.len())].to_vec();
        let stated = damage::statement(&mut random, &good);
        for bytes in [good, meeting, colliding, broken, crowded, torn, stated] {
            statements.add(&bytes, read(&bytes).err().as_ref());
            let processors = processors::any(&mut random);
            let settings = Settings::new(processors, line_lengths::any(&mut random));
            let processor = random.below(processors.max(1) as usize + 1) as u32;
            let above = if random.chance(1, 16) { random.pick(&[1 << 8, 1 << 16]) } else { 0 };
            let processor = processor.saturating_add(above);
            every_entry(tally, &bytes, settings, processor);
        }
    }
}

/// Every entry that plans and has an output.
pub fn of_plan(table: &[u8], settings: Settings, processor: u32) -> Vec<Entry<'_>> {
    let whole = [blocks(table, settings), listing(table, settings)];
    whole.into_iter().chain(of_processor(table, settings, processor)).collect()
}

/// The check of a plan, which has no output: its answer and the threshold.
pub fn check_plan(tally: &mut Tally, table: &[u8], settings: Settings) {
    let expected = outputs::check_plan(table, settings);
    let before = table.to_vec();
    let (answer, told) = library::check_plan(table, settings);
    assert!(black_box(table) == before, "check of a plan: the table itself changed");
    let wanted = *expected.as_ref().unwrap_or(&0);
    if !agrees(&answer, expected.as_ref().err()) || told != wanted {
        eprintln!("check of a plan: the library and the second planner disagree");
        eprintln!("  table    {}", hex(table));
        eprintln!("  {settings:?}");
        eprintln!("  library  {answer:?}, threshold {told}");
        eprintln!("  expected {expected:?}");
        std::process::exit(1);
    }
    tally.add(answer[0]);
}

pub fn every_entry(tally: &mut Tally, table: &[u8], settings: Settings, processor: u32) {
    check_plan(tally, table, settings);
    for entry in of_table(table, settings) {
        every_room(tally, table, &entry);
    }
    for entry in of_processor(table, settings, processor) {
        every_room(tally, table, &entry);
    }
}

pub fn facts(table: &[u8]) -> Entry<'_> {
    Entry {
        name: "facts",
        expected: Box::new(|room| outputs::facts(table, room)),
        call: Box::new(|out| library::facts(table, out)),
    }
}

fn of_table(table: &[u8], settings: Settings) -> [Entry<'_>; 6] {
    [
        facts(table),
        Entry {
            name: "shifts and peels",
            expected: Box::new(|room| outputs::shifts_and_peels(table, room)),
            call: Box::new(|out| library::shifts_and_peels(table, out)),
        },
        Entry {
            name: "threshold",
            expected: Box::new(|room| outputs::threshold(table, room)),
            call: Box::new(|out| library::threshold(table, out)),
        },
        Entry {
            name: "sweeps",
            expected: Box::new(|room| outputs::sweeps(table, room)),
            call: Box::new(|out| library::sweeps(table, out)),
        },
        blocks(table, settings),
        listing(table, settings),
    ]
}

fn blocks(table: &[u8], settings: Settings) -> Entry<'_> {
    Entry {
        name: "blocks",
        expected: Box::new(move |room| outputs::blocks(table, settings, room)),
        call: Box::new(move |out| library::blocks(table, settings, out)),
    }
}

pub fn listing(table: &[u8], settings: Settings) -> Entry<'_> {
    Entry {
        name: "listing",
        expected: Box::new(move |room| outputs::listing(table, settings, room)),
        call: Box::new(move |out| library::listing(table, settings, out)),
    }
}

/// The ranges of a processor, fused and peeled.
pub fn ranges(table: &[u8], settings: Settings, processor: u32) -> [Entry<'_>; 2] {
    [
        Entry {
            name: "fused ranges",
            expected: Box::new(move |room| outputs::fused_ranges(table, settings, processor, room)),
            call: Box::new(move |out| library::fused_ranges(table, settings, processor, out)),
        },
        Entry {
            name: "peeled ranges",
            expected: Box::new(move |room| {
                outputs::peeled_ranges(table, settings, processor, room)
            }),
            call: Box::new(move |out| library::peeled_ranges(table, settings, processor, out)),
        },
    ]
}

fn lists(table: &[u8], settings: Settings, processor: u32) -> [Entry<'_>; 2] {
    [
        Entry {
            name: "fused list",
            expected: Box::new(move |room| outputs::fused_list(table, settings, processor, room)),
            call: Box::new(move |out| library::fused_list(table, settings, processor, out)),
        },
        Entry {
            name: "peeled list",
            expected: Box::new(move |room| outputs::peeled_list(table, settings, processor, room)),
            call: Box::new(move |out| library::peeled_list(table, settings, processor, out)),
        },
    ]
}

fn of_processor(
    table: &[u8],
    settings: Settings,
    processor: u32,
) -> impl Iterator<Item = Entry<'_>> {
    let lists = lists(table, settings, processor);
    lists.into_iter().chain(ranges(table, settings, processor))
}

/// No room, one byte too little, enough, and more.
fn every_room(tally: &mut Tally, table: &[u8], entry: &Entry) {
    let needed = needed(entry);
    let mut rooms = vec![needed, needed + 17];
    if needed > 0 {
        rooms.extend([needed - 1, 0]);
    }
    for room in rooms {
        with_room(tally, table, entry, room);
    }
}

/// The bytes that an accepted call writes, 0 where it is refused.
pub fn needed(entry: &Entry) -> usize {
    (entry.expected)(usize::MAX).map_or(0, |bytes| bytes.len())
}

pub fn with_room(tally: &mut Tally, table: &[u8], entry: &Entry, room: usize) {
    let expected = (entry.expected)(room);
    let before = table.to_vec();
    let result = lent::compare(room, &expected, |out| (entry.call)(out));
    assert!(black_box(table) == before, "{}: the table itself changed", entry.name);
    match result {
        Ok(answer) => tally.add(answer[0]),
        Err(report) => {
            eprintln!("{}: the library and the second planner disagree", entry.name);
            eprintln!("  table    {}", hex(table));
            eprintln!("{report}");
            std::process::exit(1);
        }
    }
}
