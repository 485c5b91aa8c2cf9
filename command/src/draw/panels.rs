//! Which blocks stand side by side: as many as have room for every label, and no more than eight. The next ones stand in a panel below.

use super::labels::{self, Side};
use super::plan::{of_processors, Part, Plan};
use super::style::{SMALL, STRONG};
use crate::scale::{Axis, Need};
use crate::svg::letters::width;
use std::ops::Range;
use vempaldi::Block;

const MOST_BLOCKS: usize = 8;
/// A panel of several blocks needs no more than this.
const MOST_WIDTH: f64 = 1100.0;
const LEAST_WIDTH: f64 = 640.0;
/// What is spare beside the labels, so that longer parts look longer.
const SPARE: f64 = 1.05;
/// Around the head of a column.
const PADDING: f64 = 6.0;

pub struct Panel {
    pub processors: Range<usize>,
    /// The first index of the first block.
    pub first: u32,
    /// Over the blocks, and over what the last of these processors has peeled of the next block.
    pub axis: Axis,
}

pub fn panels(plan: &Plan) -> Vec<Panel> {
    let count = plan.blocks.len();
    let narrow = |panels: &Vec<Panel>| panels.iter().all(|panel| panel.axis.least_width() <= MOST_WIDTH);
    let fewest = count.div_ceil(MOST_BLOCKS);
    (fewest..count).map(|number| split(plan, number)).find(narrow).unwrap_or_else(|| split(plan, count))
}

/// The width of the axis, the same in all panels.
pub fn chart_width(panels: &[Panel]) -> f64 {
    panels.iter().map(|panel| panel.axis.least_width() * SPARE).fold(LEAST_WIDTH, f64::max)
}

/// So many panels, whose counts of blocks differ by one at most.
fn split(plan: &Plan, number: usize) -> Vec<Panel> {
    let (each, longer) = (plan.blocks.len() / number, plan.blocks.len() % number);
    let start = |at: usize| at * each + at.min(longer);
    (0..number).map(|at| panel(plan, start(at)..start(at + 1))).collect()
}

fn panel(plan: &Plan, processors: Range<usize>) -> Panel {
    let blocks = &plan.blocks[processors.clone()];
    let fused = of_processors(&plan.fused, &processors).map(|part| need(part, &labels::indices(part), Side::Fused));
    let peeled = of_processors(&plan.peeled, &processors).map(|part| need(part, &labels::full(part), Side::Peeled));
    let heads = processors.clone().zip(blocks).map(|(number, block)| head(number, block));
    let needs: Vec<Need> = heads.chain(fused).chain(peeled).collect();
    Panel { first: blocks[0].first, axis: Axis::new(&needs), processors }
}

fn need(part: &Part, label: &str, side: Side) -> Need {
    Need { from: part.from, past: part.to + 1, room: labels::room(part, label, side) }
}

fn head(number: usize, block: &Block) -> Need {
    let name = width(&format!("P{number}"), &STRONG);
    let bounds = width(&labels::range(block.first, block.last, "-"), &SMALL);
    Need { from: block.first, past: block.last + 1, room: name.max(bounds) + PADDING }
}
