//! The text of the listing, line by line, and the refusals of its call.

use vempaldi_checks::damage;
use vempaldi_checks::encoder::encode;
use vempaldi_checks::examples::{two_ahead, EXAMPLE, TWO_AHEAD_LISTINGS};
use vempaldi_checks::examples::{EXAMPLE_LINES_OF_4, EXAMPLE_LISTING};
use vempaldi_checks::lent;
use vempaldi_checks::library_planning as library;
use vempaldi_checks::limits;
use vempaldi_checks::line_lengths;
use vempaldi_checks::outcome::hex;
use vempaldi_checks::outputs;
use vempaldi_checks::processors;
use vempaldi_checks::random::Random;
use vempaldi_checks::settings::Settings;
use vempaldi_checks::table::{Item, Loop, Operation, Reference, Table};
use vempaldi_checks::tables::{self, Shape, LARGE, MIDDLE, SMALL};
use vempaldi_checks::tally::Tally;

const LEAST_TABLES: u64 = 100_000;
const LEAST_OF_EACH: u64 = 500;
const LEAST_WITH_PEELED: u64 = 20_000;
/// What is lent to a call that is refused: room for the line that the listing
/// program would write.
const REFUSED_ROOM: usize = 64;
/// So much room is said to be always enough, and nearly so much is needed.
const ENOUGH: usize = 50_000;
const LONG: usize = 48_274;

struct Counts {
    tables: u64,
    with_peeled: u64,
    grounds: Tally,
}

pub fn compare_all() {
    let mut counts = Counts { tables: 0, with_peeled: 0, grounds: Tally::new() };
    typed();
    for count in 0..=255 {
        compare(&mut counts, &EXAMPLE, Settings::of(count));
        compare(&mut counts, &EXAMPLE, Settings::new(2, count));
    }
    for case in limits::cases() {
        compare(&mut counts, &case.bytes, Settings::of(2));
    }
    for (seed, shape, tables) in shapes() {
        whole(&mut counts, seed, &shape, tables);
        damaged(&mut counts, seed + 100, &shape, tables / 4);
    }
    full(&mut counts);
    long(&mut counts);
    counts.grounds.print("listings");
    println!("  of {} tables; {} plans have peeled lines", counts.tables, counts.with_peeled);
    counts.grounds.require(&[0, 1, 2, 3, 4, 5, 6, 7, 8, 9, 10, 11, 17], LEAST_OF_EACH);
    assert!(counts.tables >= LEAST_TABLES, "too few tables");
    assert!(counts.with_peeled >= LEAST_WITH_PEELED, "too few plans with peeled lines");
}

/// Known listings, typed: the example's, for lines of one iteration and of
/// four, and those of loops that meet and do not.
fn typed() {
    let ahead = TWO_AHEAD_LISTINGS.map(|(last, text)| (two_ahead(last), Settings::of(3), text));
    let example = (EXAMPLE.to_vec(), Settings::of(2), EXAMPLE_LISTING);
    let of_4 = (EXAMPLE.to_vec(), Settings::new(2, 4), EXAMPLE_LINES_OF_4);
    for (table, settings, wanted) in ahead.into_iter().chain([example, of_4]) {
        let mut out = [0; 256];
        let (_, written) = library::listing(&table, settings, &mut out);
        let found = String::from_utf8_lossy(&out[..written as usize]);
        assert_eq!(found, wanted, "a typed listing for {settings:?}");
    }
}

/// Seed, shape and count of the tables of each kind.
fn shapes() -> Vec<(u64, Shape, u64)> {
    let near = Shape { offset: 2, length: 300, ..MIDDLE };
    let dense = Shape { arrays: 2, loops: 16, offset: 1, length: 400, ..MIDDLE };
    let long = Shape { offset: 9, length: 60_000, ..LARGE };
    vec![
        (1, SMALL, 30_000),
        (2, MIDDLE, 10_000),
        (3, LARGE, 3_000),
        (4, near, 10_000),
        (5, dense, 10_000),
        (6, long, 4_000),
    ]
}

/// The listing of one table, into a buffer that is a little longer.
fn compare(counts: &mut Counts, table: &[u8], settings: Settings) {
    let expected = outputs::listing(table, settings, ENOUGH);
    let number = expected.as_ref().map_or_else(|refusal| refusal.number, |_| 0);
    let text =
        expected.as_ref().map_or("".into(), |bytes| String::from_utf8_lossy(bytes)).into_owned();
    let room = expected.as_ref().map_or(REFUSED_ROOM, |bytes| bytes.len() + 5);
    let result = lent::compare(room, &expected, |out| library::listing(table, settings, out));
    if let Err(report) = result {
        eprintln!("listing: the library and the second planner disagree");
        eprintln!("  table    {}, {settings:?}", hex(table));
        show_first_difference(table, settings, &text);
        eprintln!("{report}");
        std::process::exit(1);
    }
    counts.grounds.add(number);
    counts.with_peeled += u64::from(text.contains("peeled"));
}

fn show_first_difference(table: &[u8], settings: Settings, wanted: &str) {
    let mut out = vec![0; 65_536];
    let (_, written) = library::listing(table, settings, &mut out);
    let found = String::from_utf8_lossy(&out[..(written as usize).min(out.len())]).into_owned();
    let mut found = found.lines();
    for (number, wanted) in wanted.lines().enumerate() {
        let found = found.next();
        if found != Some(wanted) {
            eprintln!("  line {number}: library {found:?}, expected {wanted:?}");
            return;
        }
    }
}

/// One table with numbers of processors that include, for lines of any length
/// and of one iteration, the largest that has a plan and the next one.
fn several(counts: &mut Counts, random: &mut Random, table: &Table) {
    counts.tables += 1;
    let bytes = encode(table);
    let line = if random.chance(1, 3) { 1 } else { line_lengths::good(random) };
    let most = processors::most(table, line);
    let fewer = random.between(1, i64::from(most)) as u32;
    for processors in [most, most + 1, fewer] {
        compare(counts, &bytes, Settings::new(processors, line));
    }
    compare(counts, &bytes, any_settings(random));
}

fn any_settings(random: &mut Random) -> Settings {
    Settings::new(processors::any(random), line_lengths::any(random))
}

fn whole(counts: &mut Counts, seed: u64, shape: &Shape, count: u64) {
    let mut random = Random::new(seed);
    for _ in 0..count {
        let table = tables::any(&mut random, shape);
        several(counts, &mut random, &table);
        let table = tables::aligned(&mut random, shape);
        several(counts, &mut random, &table);
    }
}

fn damaged(counts: &mut Counts, seed: u64, shape: &Shape, count: u64) {
    let mut random = Random::new(seed);
    let serial = Shape { serial: true, ..*shape };
    for _ in 0..count {
        counts.tables += 5;
        let bytes = encode(&tables::any(&mut random, &serial));
        let settings = any_settings(&mut random);
        compare(counts, &bytes, settings);
        compare(counts, &bytes[..random.below(bytes.len())], settings);
        compare(counts, &damage::crowd(&mut random, &bytes), settings);
        compare(counts, &damage::field(&mut random, &bytes), settings);
        compare(counts, &damage::change_byte(&mut random, &bytes), settings);
    }
}

/// Full tables, with every number of processors and lines of every length.
fn full(counts: &mut Counts) {
    let mut random = Random::new(7);
    for reads in 0..=4 {
        counts.tables += 1;
        let table = encode(&tables::full(&mut random, 1 + reads % 4, reads, 4));
        for number in 0..=66 {
            compare(counts, &table, Settings::of(number));
            compare(counts, &table, Settings::new(66 - number, number));
        }
    }
}

/// As long a listing as any that we know: sixteen loops in sixty-four blocks,
/// every index of five digits, every shift and peel but the first loop's of
/// three, and a fused and a peeled range wherever there can be one.
fn long(counts: &mut Counts) {
    counts.tables += 1;
    let table = encode(&long_table());
    let most = Settings::of(64);
    let text = outputs::listing(&table, most, ENOUGH).expect("accepted");
    assert_eq!(text.len(), LONG, "the long listing");
    compare(counts, &table, most);
    let enough = lent::compare(ENOUGH, &Ok(text), |out| library::listing(&table, most, out));
    assert!(enough.is_ok(), "{}", enough.unwrap_err());
}

/// Loop 0 stores A0[i]; each of the others stores A1[i] and reads A0[i - 100],
/// A0[i + 100] and A2[i] to A7[i]. So they have shift 100 and peel 100, and
/// blocks of 201 leave each of them one fused index.
fn long_table() -> Table {
    let (first, last) = (10_000, 10_000 + 64 * 201 - 1);
    let at = |array, offset| Reference { array, offset };
    let a_loop = |to, items| Loop::of_one(first, last, to, items);
    let mut items =
        vec![Item::Read(at(0, -100)), Item::Read(at(0, 100)), Item::Operation(Operation::Add)];
    for array in 2..8 {
        items.extend([Item::Read(at(array, 0)), Item::Operation(Operation::Add)]);
    }
    let mut loops = vec![a_loop(at(0, 0), vec![Item::Constant(1)])];
    loops.extend((1..16).map(|_| a_loop(at(1, 0), items.clone())));
    Table { arrays: vec![last + 101; 8], loops }
}
