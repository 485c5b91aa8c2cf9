//! Steps, and the run in a caller's order.

use crate::blocks::{number_below, plan_naming, MOST_PROCESSORS};
use crate::interpreter::{beginnings, fits, iteration};
use crate::lists::{lists, Iteration, Lists};
use crate::outcome::Refusal;
use crate::reader::read;
use crate::settings::Settings;
use crate::table::Table;

const STATE: u64 = 15;

/// The count of iterations done, for each processor.
pub type Counts = [u32; MOST_PROCESSORS as usize];

#[derive(Clone, Copy, Debug, PartialEq, Eq)]
pub enum Report {
    Done(Iteration),
    Waiting,
    Finished,
}

/// A table with its lists.
pub struct Schedule {
    pub table: Table,
    pub settings: Settings,
    pub lists: Vec<Lists>,
    beginnings: Vec<usize>,
}

impl Schedule {
    /// Reads a table and plans it; grounds 1 to 9, 19, 20, 10 of P alone, 17
    /// and 11.
    pub fn new(bytes: &[u8], settings: Settings) -> Result<Schedule, Refusal> {
        Schedule::naming(bytes, settings, None)
    }

    /// The same for a call that names a processor.
    fn naming(bytes: &[u8], settings: Settings, named: Option<u32>) -> Result<Schedule, Refusal> {
        let table = read(bytes)?;
        let lists = lists(&plan_naming(&table, settings, named)?);
        let beginnings = beginnings(&table);
        Ok(Schedule { table, settings, lists, beginnings })
    }

    pub fn processors(&self) -> u32 {
        self.lists.len() as u32
    }

    /// One step of a processor below P, from counts that are known to be in
    /// order.
    pub fn step(&self, processor: u32, counts: &mut Counts, memory: &mut [f64]) -> Report {
        let b = processor as usize;
        let Some(next) = self.next(b, counts, self.barrier_open(counts)) else {
            let finished = self.barrier_open(counts);
            return if finished { Report::Finished } else { Report::Waiting };
        };
        let one = &self.table.loops[next.loop_number as usize];
        iteration(one, &self.beginnings, memory, next.index);
        counts[b] += 1;
        Report::Done(next)
    }

    /// The iteration that a step of processor b would perform.
    pub fn next(&self, b: usize, counts: &Counts, open: bool) -> Option<Iteration> {
        let own = &self.lists[b];
        let done = counts[b] as usize;
        match own.fused.get(done) {
            Some(&one) => Some(one),
            None if open => own.peeled.get(done - own.fused.len()).copied(),
            None => None,
        }
    }

    /// The barrier is open once every fused list is used up.
    pub fn barrier_open(&self, counts: &Counts) -> bool {
        let mut both = self.lists.iter().zip(counts);
        both.all(|(own, &done)| done as usize >= own.fused.len())
    }

    /// Ground 15.
    pub fn in_order(&self, counts: &Counts) -> Result<(), Refusal> {
        let open = self.barrier_open(counts);
        let holds = counts.iter().enumerate().all(|(b, &done)| match self.lists.get(b) {
            Some(own) if open => done as usize <= own.fused.len() + own.peeled.len(),
            Some(own) => done as usize <= own.fused.len(),
            None => done == 0,
        });
        if holds {
            Ok(())
        } else {
            Err(Refusal::whole(STATE))
        }
    }

    /// Grounds 10 (of the stepped number), 12 and 15, then the step.
    pub fn checked_step(
        &self,
        processor: u32,
        counts: &mut Counts,
        memory: &mut [f64],
    ) -> Result<Report, Refusal> {
        number_below(processor, self.processors())?;
        fits(&self.table, memory)?;
        self.in_order(counts)?;
        Ok(self.step(processor, counts, memory))
    }

    /// The steps that the bytes name, then the lowest processor that can
    /// step until none can. The result is the idle count.
    pub fn run(&self, order: &[u8], memory: &mut [f64]) -> u64 {
        let mut counts = [0; MOST_PROCESSORS as usize];
        let mut idle = 0;
        for &byte in order {
            let named = u32::from(byte);
            let done = named < self.processors()
                && matches!(self.step(named, &mut counts, memory), Report::Done(_));
            idle += u64::from(!done);
        }
        while let Some(lowest) = self.lowest(&counts) {
            self.step(lowest, &mut counts, memory);
        }
        idle
    }

    /// The lowest-numbered processor whose next step performs an iteration.
    pub fn lowest(&self, counts: &Counts) -> Option<u32> {
        let open = self.barrier_open(counts);
        (0..self.processors()).find(|&b| self.next(b as usize, counts, open).is_some())
    }
}

/// One public step: every ground in its order.
pub fn step(
    bytes: &[u8],
    settings: Settings,
    processor: u32,
    counts: &mut Counts,
    memory: &mut [f64],
) -> Result<Report, Refusal> {
    let schedule = Schedule::naming(bytes, settings, Some(processor))?;
    schedule.checked_step(processor, counts, memory)
}

/// One public run in a caller's order.
pub fn run(
    bytes: &[u8],
    settings: Settings,
    order: &[u8],
    memory: &mut [f64],
) -> Result<u64, Refusal> {
    let schedule = Schedule::new(bytes, settings)?;
    fits(&schedule.table, memory)?;
    Ok(schedule.run(order, memory))
}
