//! Facts and ranges: over many tables, right and damaged, and with every room
//! from none to one byte more than is needed.

use crate::entries::{facts, needed, ranges, with_room, Entry};
use vempaldi_checks::collisions;
use vempaldi_checks::damage;
use vempaldi_checks::encoder::encode;
use vempaldi_checks::examples::EXAMPLE;
use vempaldi_checks::library_planning as library;
use vempaldi_checks::limits;
use vempaldi_checks::line_lengths;
use vempaldi_checks::outcome::{Answer, ACCEPTED};
use vempaldi_checks::processors;
use vempaldi_checks::random::Random;
use vempaldi_checks::settings::Settings;
use vempaldi_checks::table::Table;
use vempaldi_checks::tables::{self, Shape, LARGE, MIDDLE, SMALL};
use vempaldi_checks::tally::Tally;

const LEAST_OF_EACH: u64 = 500;
const LEAST: u64 = 400_000;
/// So much room is said to be always enough, and the full table needs it.
const FACTS_ROOM: usize = 268;
const RANGES_ROOM: usize = 128;

pub fn compare_all() {
    typed();
    let (mut of_facts, mut of_ranges) = (Tally::new(), Tally::new());
    for case in limits::cases() {
        every_room(&mut of_facts, &case.bytes, &facts(&case.bytes));
        for entry in ranges(&case.bytes, Settings::new(2, 3), 1) {
            every_room(&mut of_ranges, &case.bytes, &entry);
        }
    }
    for (seed, shape, count) in [(31, SMALL, 50_000), (32, MIDDLE, 10_000), (33, LARGE, 3_000)] {
        many(&mut of_facts, &mut of_ranges, seed, &shape, count);
    }
    rooms(&mut of_facts, &mut of_ranges);
    of_facts.print("facts");
    of_facts.require(&[0, 1, 2, 3, 4, 5, 6, 7, 8, 9, 13], LEAST_OF_EACH);
    of_ranges.print("ranges");
    of_ranges.require(&[0, 1, 2, 3, 4, 5, 6, 7, 8, 9, 10, 11, 13, 17], LEAST_OF_EACH);
    assert!(of_facts.total() >= LEAST, "too few facts");
    assert!(of_ranges.total() >= LEAST, "too few ranges");
}

/// An accepted call that writes these numbers.
pub fn written(call: &dyn Fn(&mut [u8]) -> (Answer, u64), wanted: &[u32]) {
    let mut out = [0xA5; FACTS_ROOM];
    let (answer, count) = call(&mut out);
    assert_eq!((answer, count), (ACCEPTED, 4 * wanted.len() as u64));
    let wanted: Vec<u8> = wanted.iter().flat_map(|number| number.to_le_bytes()).collect();
    assert_eq!(out[..wanted.len()], wanted);
}

/// The example's, typed.
fn typed() {
    let (table, two) = (EXAMPLE.to_vec(), Settings::of(2));
    let facts = [3, 2, 36, 0, 12, 12, 12, 24, 12, 1, 10, 1, 10];
    written(&|out| library::facts(&table, out), &facts);
    written(&|out| library::fused_ranges(&table, two, 0, out), &[1, 6, 1, 5]);
    written(&|out| library::fused_ranges(&table, two, 1, out), &[6, 11, 7, 11]);
    written(&|out| library::peeled_ranges(&table, two, 0, out), &[0, 0, 5, 7]);
    written(&|out| library::peeled_ranges(&table, two, 1, out), &[0, 0, 0, 0]);
    // Lines of four iterations: 1 to 4, 5 to 8, and the begun 9 to 10.
    let four = Settings::new(2, 4);
    written(&|out| library::fused_ranges(&table, four, 0, out), &[1, 9, 1, 8]);
    written(&|out| library::fused_ranges(&table, four, 1, out), &[9, 11, 10, 11]);
    written(&|out| library::peeled_ranges(&table, four, 0, out), &[0, 0, 8, 10]);
    written(&|out| library::peeled_ranges(&table, four, 1, out), &[0, 0, 0, 0]);
}

/// Tables of one shape: right ones, ones whose iterations meet, damaged ones.
fn many(of_facts: &mut Tally, of_ranges: &mut Tally, seed: u64, shape: &Shape, count: usize) {
    let mut random = Random::new(seed);
    let serial = Shape { serial: true, ..*shape };
    for _ in 0..count {
        let table = tables::aligned(&mut random, shape);
        let good = encode(&table);
        planned(of_ranges, &mut random, &table, &good);
        let others = [
            encode(&tables::any(&mut random, shape)),
            encode(&tables::any(&mut random, &serial)),
            encode(&collisions::table(&mut random)),
            damage::change_byte(&mut random, &good),
            damage::field(&mut random, &good),
            damage::crowd(&mut random, &good),
            good[..random.below(good.len())].to_vec(),
        ];
        for bytes in others.iter().chain([&good]) {
            any_room(of_facts, &mut random, bytes, &facts(bytes));
            let processors = processors::any(&mut random);
            let processor = any_processor(&mut random, processors);
            let settings = Settings::new(processors, line_lengths::any(&mut random));
            let phase = random.below(2);
            let entry = &ranges(bytes, settings, processor)[phase];
            any_room(of_ranges, &mut random, bytes, entry);
        }
    }
}

/// One processor of a number that has a plan, or is the first that has none.
fn planned(tally: &mut Tally, random: &mut Random, table: &Table, bytes: &[u8]) {
    let line = line_lengths::good(random);
    let most = processors::most(table, line);
    let fewer = random.between(1, most.into()) as u32;
    let processors = random.pick(&[most, most, most + 1, fewer]);
    let processor = any_processor(random, processors);
    for entry in ranges(bytes, Settings::new(processors, line), processor) {
        any_room(tally, random, bytes, &entry);
    }
}

/// Mostly one below the number of processors.
fn any_processor(random: &mut Random, processors: u32) -> u32 {
    match random.below(8) {
        0 => {
            let below = random.below(processors.clamp(1, 64) as usize) as u32;
            let above = [processors, processors.wrapping_add(1), 64, 256, u32::MAX];
            // Some are below the number of processors in their low bytes.
            random.pick(&[&above[..], &[65_536, 65_536 + below]].concat())
        }
        _ => random.below(processors.clamp(1, 64) as usize) as u32,
    }
}

/// Mostly enough, at times one byte too little or any number.
fn any_room(tally: &mut Tally, random: &mut Random, table: &[u8], entry: &Entry) {
    let needed = needed(entry);
    let room = match random.below(4) {
        0 => needed.saturating_sub(1),
        1 => random.below(FACTS_ROOM + 1),
        _ => needed,
    };
    with_room(tally, table, entry, room);
}

fn every_room(tally: &mut Tally, table: &[u8], entry: &Entry) {
    for room in 0..=needed(entry) + 1 {
        with_room(tally, table, entry, room);
    }
}

/// Every room, of tables of each size; the full one needs the most.
fn rooms(of_facts: &mut Tally, of_ranges: &mut Tally) {
    let mut random = Random::new(34);
    let full = tables::full(&mut random, 4, 2, 4);
    let bytes = encode(&full);
    assert_eq!(needed(&facts(&bytes)), FACTS_ROOM, "the longest facts");
    assert_eq!(needed(&ranges(&bytes, Settings::of(64), 0)[0]), RANGES_ROOM, "the longest ranges");
    let mut all = vec![full];
    for shape in [SMALL, MIDDLE, LARGE] {
        all.extend((0..150).map(|_| tables::aligned(&mut random, &shape)));
    }
    for table in &all {
        let bytes = encode(table);
        every_room(of_facts, &bytes, &facts(&bytes));
        let line = line_lengths::good(&mut random);
        let processors = processors::most(table, line);
        for processor in [0, processors / 2, processors - 1, processors] {
            for entry in ranges(&bytes, Settings::new(processors, line), processor) {
                every_room(of_ranges, &bytes, &entry);
            }
        }
    }
}
