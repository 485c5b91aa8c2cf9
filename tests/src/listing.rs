//! The text that the listing program writes.

use crate::blocks::{plan, Plan, Range};
use crate::outcome::Refusal;
use crate::reader::read;
use crate::settings::Settings;
use crate::sweeps::sweeps;
use crate::table::Table;
use std::fmt::Write;

/// What the program writes: the lines of the plan for cache lines of one
/// iteration, or the single line of the refusal.
pub fn listing(bytes: &[u8], processors: u32) -> String {
    match lines(bytes, Settings::of(processors)) {
        Ok(text) => text,
        Err(refusal) => format!("refused {} {}\n", refusal.number, refusal.place),
    }
}

/// The lines of the plan.
pub fn lines(bytes: &[u8], settings: Settings) -> Result<String, Refusal> {
    let table = read(bytes)?;
    let plan = plan(&table, settings)?;
    let mut text = String::new();
    write_lines(&mut text, &table, &plan).expect("a string takes every line");
    Ok(text)
}

fn write_lines(text: &mut String, table: &Table, plan: &Plan) -> std::fmt::Result {
    for (k, one) in plan.amounts.iter().enumerate() {
        writeln!(text, "loop {k} {} {}", one.shift, one.peel)?;
    }
    for (b, block) in plan.blocks.iter().enumerate() {
        writeln!(text, "block {b} {} {}", block.a, block.e)?;
    }
    write_ranges(text, "fused", plan, Plan::fused)?;
    write_ranges(text, "peeled", plan, Plan::peeled)?;
    let sweeps = sweeps(table);
    writeln!(text, "sweeps {} {}", sweeps.before, sweeps.after)
}

/// The ranges by block and within it by loop, empty ones left out.
fn write_ranges(
    text: &mut String,
    word: &str,
    plan: &Plan,
    range: fn(&Plan, usize, usize) -> Range,
) -> std::fmt::Result {
    for b in 0..plan.blocks.len() {
        for k in 0..plan.amounts.len() {
            let part = range(plan, b, k);
            if part.count() > 0 {
                writeln!(text, "{word} {b} {k} {} {}", part.a, part.e)?;
            }
        }
    }
    Ok(())
}
