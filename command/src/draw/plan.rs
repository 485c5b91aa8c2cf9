//! What is drawn: a table's plan, as the library gives it.

use crate::by_hand::in_force;
use crate::infix::assignments;
use crate::names::Names;
use crate::records::decode;
use std::ops::Range;
use vempaldi::{Amounts, Block, Refusal, Settings, Sweeps};

/// What a processor runs of a loop on one side of the barrier, both ends included.
#[derive(Clone, Copy)]
pub struct Part {
    pub processor: usize,
    pub number: usize,
    pub from: u32,
    pub to: u32,
}

impl Part {
    pub fn is_single(&self) -> bool {
        self.from == self.to
    }
}

pub struct Loop {
    pub first: u32,
    pub last: u32,
    /// All of them, in words.
    pub statements: String,
    pub amounts: Amounts,
}

pub struct Plan {
    pub listing: String,
    pub loops: Vec<Loop>,
    pub blocks: Vec<Block>,
    pub fused: Vec<Part>,
    pub peeled: Vec<Part>,
    pub threshold: u32,
    pub sweeps: Sweeps,
    /// How many indices a line has.
    pub line: u32,
    /// Whether shifts and peels were given and not found.
    pub by_hand: bool,
}

impl Plan {
    pub fn of(table: &[u8], settings: Settings, names: &Names) -> Result<Plan, Refusal> {
        let listing = vempaldi::listing(table, settings)?;
        let (fused, peeled) = ranges(table, settings)?;
        let (amounts, threshold) = in_force(table, settings)?;
        let decoded = decode(table).0.loops;
        let loops = decoded.iter().zip(amounts).map(|(one, amounts)| {
            let statements = assignments(one, names).map_or(String::new(), |infix| infix.text);
            Loop { first: one.first, last: one.last, statements, amounts }
        });
        Ok(Plan {
            loops: loops.collect(),
            blocks: vempaldi::blocks(table, settings)?,
            fused,
            peeled,
            threshold,
            sweeps: vempaldi::sweeps(table)?,
            line: settings.line,
            by_hand: settings.by_hand().is_some(),
            listing,
        })
    }

    pub fn first(&self) -> u32 {
        self.blocks[0].first
    }

    pub fn last(&self) -> u32 {
        self.blocks[self.blocks.len() - 1].last
    }
}

/// The parts of some processors.
pub fn of_processors<'a>(parts: &'a [Part], processors: &'a Range<usize>) -> impl Iterator<Item = &'a Part> + 'a {
    parts.iter().filter(|part| processors.contains(&part.processor))
}

/// The parts that are not empty, fused and peeled, by processor and then by loop: the one place where they are read.
fn ranges(table: &[u8], settings: Settings) -> Result<(Vec<Part>, Vec<Part>), Refusal> {
    let fused = parts(settings, |processor| vempaldi::fused_ranges(table, settings, processor))?;
    let peeled = parts(settings, |processor| vempaldi::peeled_ranges(table, settings, processor))?;
    Ok((fused, peeled))
}

fn parts(settings: Settings, ranges: impl Fn(u32) -> Result<Vec<Range<u32>>, Refusal>) -> Result<Vec<Part>, Refusal> {
    let mut all = Vec::new();
    for processor in 0..settings.processors {
        let own = ranges(processor)?.into_iter().enumerate().filter(|(_, range)| !range.is_empty());
        all.extend(own.map(|(number, range)| Part {
            processor: processor as usize,
            number,
            from: range.start,
            to: range.end - 1,
        }));
    }
    Ok(all)
}
