//! Why there is no plan for so many processors in such lines (ground 11), and for how many there is one. That there is none is the library's
//! answer; here the numbers that it went by are put into words.

use crate::wording::counted;
use vempaldi::{blocks, check_plan, facts, Settings, MOST_PROCESSORS};

pub fn short(table: &[u8], settings: Settings) -> Option<String> {
    let loops = facts(table).ok()?.loops;
    let first = loops.iter().map(|one| one.first).min()?;
    let last = loops.iter().map(|one| one.last).max()?;
    let indices = last - first + 1;
    let lines = indices.div_ceil(settings.line);
    let split = split(indices, lines, settings.line);
    let by_hand = settings.by_hand().is_some();
    let why = if lines < settings.processors {
        format!("{split} for {}", counted(settings.processors as usize, "processor"))
    } else {
        // No block has fewer lines than the last one, and what its last line lacks is cut off.
        let least = settings.line * (lines / settings.processors) - (settings.line * lines - indices);
        let block = if settings.line == 1 { "a block" } else { "a last block" };
        let whose = if by_hand { "the plan's threshold" } else { "the threshold" };
        let threshold = threshold(table, settings)?;
        format!("{split} in {} blocks leave {block} of {least}, {whose} is {threshold}", settings.processors)
    };
    let such = if settings.line == 1 { "" } else { "in such lines " };
    let holds = if by_hand { "this plan is accepted" } else { "there is a plan" };
    Some(format!("{why}; {such}{holds} for {} at most", counted(most(table, settings)? as usize, "processor")))
}

/// That of the plan by hand, where there is one. A plan that is accepted at all is accepted for one processor, whatever its threshold.
fn threshold(table: &[u8], mut settings: Settings) -> Option<u32> {
    settings.processors = 1;
    check_plan(table, settings).ok()
}

/// What is split over the blocks: `10 indices`, `3 lines of 4 (10 indices)`.
fn split(indices: u32, lines: u32, line: u32) -> String {
    let indices = counted(indices as usize, "index");
    match line {
        1 => indices,
        _ => format!("{} of {line} ({indices})", counted(lines as usize, "line")),
    }
}

/// The most processors for which there is a plan in such lines, or for which the plan by hand is one.
fn most(table: &[u8], mut settings: Settings) -> Option<u32> {
    (1..=MOST_PROCESSORS).rev().find(|&count| {
        settings.processors = count;
        blocks(table, settings).is_ok()
    })
}
