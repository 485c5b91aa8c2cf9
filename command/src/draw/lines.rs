//! Ticks where lines begin. Lines of one index have none, and neither have lines that are too narrow for their ticks to be told apart.

use super::plan::Plan;
use crate::scale::Scale;
use crate::svg::Picture;
use std::ops::Range;

const HEIGHT: f64 = 5.0;
/// The least distance of two ticks.
const LEAST: f64 = 4.0;

/// The indices at which a line begins, in the blocks of these processors. Blocks begin on whole lines, so the first block's first is one.
fn starts(plan: &Plan, processors: &Range<usize>) -> impl Iterator<Item = u32> {
    let (first, last) = (plan.blocks[processors.start].first, plan.blocks[processors.end - 1].last);
    (first..=last).step_by(plan.line as usize)
}

/// Whether every line has room for its tick. The last one of all may have fewer indices, and no tick follows it.
pub fn are_wide(plan: &Plan, processors: &Range<usize>, scale: &Scale) -> bool {
    let ends = |start: u32| (start, start + plan.line - 1);
    let mut whole = starts(plan, processors).map(ends).filter(|&(_, end)| end <= plan.last());
    plan.line > 1 && whole.all(|(start, end)| scale.span(start, end).1 >= LEAST)
}

pub fn draw(picture: &mut Picture, plan: &Plan, processors: &Range<usize>, scale: &Scale, top: f64) {
    for start in starts(plan, processors) {
        picture.tick(scale.span(start, start).0, (top, top + HEIGHT), "ruler", start);
    }
}
