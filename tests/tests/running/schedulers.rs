//! Ways to choose the processor of the next call, some of them against every
//! habit that a schedule could lean on.

use vempaldi_checks::random::Random;
use vempaldi_checks::stepping::{Counts, Schedule};

#[derive(Clone, Copy, Debug)]
pub enum Scheduler {
    /// 0, 1, ... P - 1, and again, whatever the calls report.
    RoundRobin,
    /// The highest processor that can step.
    Last,
    /// The lowest processor that can step.
    First,
    /// Any number, also some that are no processor.
    Random,
    /// One processor steps only when no other can.
    Starve(u32),
    /// One processor as long as it can step, then another.
    Burst,
}

pub fn every(random: &mut Random, processors: u32) -> [Scheduler; 6] {
    [
        Scheduler::RoundRobin,
        Scheduler::Last,
        Scheduler::First,
        Scheduler::Random,
        Scheduler::Starve(random.below(processors as usize) as u32),
        Scheduler::Burst,
    ]
}

/// Whether the next step of the processor would perform an iteration.
fn can_step(schedule: &Schedule, counts: &Counts, b: u32) -> bool {
    schedule.next(b as usize, counts, schedule.barrier_open(counts)).is_some()
}

impl Scheduler {
    /// The number that the next call names; `before` is what the last call
    /// named.
    pub fn choose(
        self,
        random: &mut Random,
        schedule: &Schedule,
        counts: &Counts,
        turn: u32,
        before: u32,
    ) -> u32 {
        let processors = schedule.processors();
        let able = || (0..processors).filter(|&b| can_step(schedule, counts, b));
        // A few calls of every row name any number, so that waiting, finished
        // and refused calls stand in it too.
        if random.chance(1, 8) {
            return random.pick(&[0, processors - 1, processors, 63, 64, 256, 65_536, u32::MAX]);
        }
        let chosen = match self {
            Scheduler::RoundRobin => Some(turn % processors),
            Scheduler::Last => able().next_back(),
            Scheduler::First => able().next(),
            Scheduler::Random => Some(random.below(processors as usize + 1) as u32),
            Scheduler::Starve(starved) => able().find(|&b| b != starved).or(Some(starved)),
            Scheduler::Burst => {
                let stay = able().find(|&b| b == before);
                stay.or_else(|| able().nth(random.below(able().count().max(1))))
            }
        };
        chosen.unwrap_or(0)
    }
}
