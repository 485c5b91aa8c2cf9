//! Random tables with settings for which they have a plan.

use vempaldi_checks::by_hand;
use vempaldi_checks::encoder::encode;
use vempaldi_checks::line_lengths;
use vempaldi_checks::lined;
use vempaldi_checks::meeting;
use vempaldi_checks::planner::threshold;
use vempaldi_checks::plans_by_hand;
use vempaldi_checks::processors;
use vempaldi_checks::random::Random;
use vempaldi_checks::settings::Settings;
use vempaldi_checks::stepping::Schedule;
use vempaldi_checks::table::Table;
use vempaldi_checks::tables::{self, Shape, SMALL};

/// Offsets next to 0, so that many processors find room.
const NEAR: Shape = Shape { arrays: 4, loops: 6, items: 8, length: 40, offset: 1, ..SMALL };
/// Long chains over few arrays.
const CHAINED: Shape = Shape { arrays: 2, loops: 8, items: 5, length: 60, offset: 2, ..SMALL };

/// Enough indices for 64 processors.
const WIDE: Shape = Shape { items: 5, length: 150, offset: 1, ..SMALL };

pub struct Planned {
    pub bytes: Vec<u8>,
    pub schedule: Schedule,
}

/// Mostly two processors or more, mostly with loops over like bounds, and with
/// lines of one iteration and of more.
pub fn planned(random: &mut Random) -> Planned {
    loop {
        let (table, line) = a_table(random);
        let most = i64::from(processors::most(&table, line));
        if most == 1 && random.chance(7, 8) {
            continue;
        }
        let least = if random.chance(1, 3) { most } else { most.min(2) };
        let processors = random.between(least, most) as u32;
        let bytes = encode(&table);
        if let Ok(schedule) = Schedule::new(&bytes, Settings::new(processors, line)) {
            return Planned { bytes, schedule };
        }
    }
}

/// The same with plans by hand. For one processor they may be far above all
/// indices.
pub fn planned_by_hand(random: &mut Random) -> Planned {
    loop {
        let (table, line) = a_table(random);
        let high = random.chance(1, 6);
        let made = if high { plans_by_hand::high } else { plans_by_hand::good };
        let mut settings = made(random, &table, Settings::new(1, line));
        let plan = by_hand::in_force(&table, &settings).expect("a good plan");
        let most = i64::from(processors::most_with(&table, line, threshold(&plan)));
        if most == 1 && !high && random.chance(7, 8) {
            continue;
        }
        settings.processors = random.between(most.min(2), most) as u32;
        let bytes = encode(&table);
        if let Ok(schedule) = Schedule::new(&bytes, settings) {
            return Planned { bytes, schedule };
        }
    }
}

/// A table and a line's length. Lines are short mostly, for most tables are;
/// those that are wide enough for 64 processors are so with two iterations at
/// most.
fn a_table(random: &mut Random) -> (Table, u32) {
    let line = match random.below(6) {
        0 => 1,
        1 => line_lengths::good(random),
        _ => random.small(2, 9) as u32,
    };
    match random.below(13) {
        0 | 1 => (tables::any(random, &SMALL), line),
        2 | 3 => (tables::aligned(random, &SMALL), line),
        4 | 5 => (tables::aligned(random, &NEAR), line),
        6 | 7 => (tables::aligned(random, &CHAINED), line),
        8 | 9 => (meeting::short_table(random), line),
        10 => (tables::aligned(random, &WIDE), random.pick(&[1, 1, 1, 2])),
        _ => lined_table(random),
    }
}

/// Lines of any length, and few of them, so that rows are not too long.
fn lined_table(random: &mut Random) -> (Table, u32) {
    let settings = Settings::new(random.pick(&[2, 2, 3]), random.between(2, 64) as u32);
    (lined::made_for(random, settings, 1), settings.line)
}
