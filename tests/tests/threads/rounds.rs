//! What rounds of calls are given, from a seed: the same in every run.

use crate::calls::Given;
use vempaldi_checks::collisions;
use vempaldi_checks::damage;
use vempaldi_checks::encoder::encode;
use vempaldi_checks::line_lengths;
use vempaldi_checks::memories;
use vempaldi_checks::plans_by_hand;
use vempaldi_checks::processors;
use vempaldi_checks::random::Random;
use vempaldi_checks::settings::Settings;
use vempaldi_checks::table::Table;
use vempaldi_checks::tables::{self, Shape, SMALL};

/// The steps of a round.
pub const STEPS: usize = 9;
/// Room for every output of the tables that are made here.
const ROOM: usize = 8_192;
/// Enough indices for 64 processors.
const WIDE: Shape = Shape { items: 5, length: 150, offset: 1, ..SMALL };

pub struct Made {
    bytes: Vec<u8>,
    /// The table before any damage, for which plans by hand are made.
    table: Table,
    elements: usize,
    /// A line's length, and the most processors for which there is a plan.
    line: u32,
    most: u32,
}

pub fn tables(seed: u64, count: usize) -> Vec<Made> {
    let mut random = Random::new(seed);
    (0..count).map(|_| made(&mut random)).collect()
}

fn made(random: &mut Random) -> Made {
    let shape = if random.chance(1, 3) { WIDE } else { SMALL };
    let table = tables::aligned(random, &shape);
    let line = if random.chance(1, 4) { 1 } else { random.small(1, 12) as u32 };
    let (elements, most) = (table.elements() as usize, processors::most(&table, line));
    let bytes = encode(&table);
    let bytes = match random.below(12) {
        0 => damage::field(random, &bytes),
        1 => damage::change_byte(random, &bytes),
        2 => bytes[..random.below(bytes.len())].to_vec(),
        3 => encode(&collisions::table(random)),
        _ => bytes,
    };
    Made { bytes, table, elements, line, most }
}

/// A round for each table of one's own, every fourth with a common one in
/// its place.
pub fn rounds<'a>(seed: u64, own: &'a [Made], common: &'a [Made]) -> Vec<Given<'a>> {
    let mut random = Random::new(seed);
    let mut round = |(at, own): (usize, &'a Made)| {
        let shared = at % 4 == 3;
        let made = if shared { &common[random.below(common.len())] } else { own };
        given(&mut random, made)
    };
    own.iter().enumerate().map(&mut round).collect()
}

/// Mostly what is right for the table, now and then one thing that is not.
fn given<'a>(random: &mut Random, made: &'a Made) -> Given<'a> {
    let processors = random.between(1, i64::from(made.most)) as usize;
    let mut given = Given {
        table: &made.bytes,
        settings: Settings::new(processors as u32, made.line),
        processor: random.below(processors) as u32,
        room: ROOM,
        memory: memories::any(random, made.elements),
        order: (0..random.below(60)).map(|_| random.below(processors + 1) as u8).collect(),
        counts: [0; 64],
        named: (0..STEPS).map(|_| random.below(processors) as u32).collect(),
    };
    if random.chance(1, 3) {
        given.settings = plans_by_hand::any(random, &made.table, given.settings);
    }
    match random.below(20) {
        0 => given.settings.processors = processors::any(random),
        1 => given.settings.line = line_lengths::any(random),
        2 => given.settings.line = line_lengths::bad(random),
        3 => given.room = random.below(40),
        4 => given.memory.truncate(made.elements - 1),
        5 => given.counts[random.below(64)] = random.between(1, 40) as u32,
        _ => {}
    }
    given
}
