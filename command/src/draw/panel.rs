//! One panel: its blocks across, its loops down; above the barrier what is fused, below it what is peeled.

use super::forms::Forms;
use super::labels::{self, Side, BEFORE, DIAMOND};
use super::lines;
use super::panels::Panel;
use super::plan::{of_processors, Part, Plan};
use super::style::{PLAIN, SAID, SMALL, STRONG};
use super::{LEFT, MARGIN};
use crate::scale::Scale;
use crate::svg::letters::width;
use crate::svg::{Frame, Picture};
use std::ops::Range;

const SHIFT_AT: f64 = 300.0;
const PEEL_AT: f64 = 346.0;
/// The room of a shift or a peel, and of its head.
const NUMBER: f64 = 44.0;
/// Room for the statements: as far as the shifts.
const STATEMENTS: f64 = SHIFT_AT - MARGIN - 8.0;
const ROW: f64 = 31.0;
const BAR: f64 = 20.0;
/// From the top of a panel to its first loop, and from the barrier to the first loop below it.
const HEADS: f64 = 62.0;
const BELOW: f64 = 34.0;
/// From the top of a panel to its ticks, which end above its first loop.
const TICKS: f64 = 37.0;
/// The height of a panel whose processors run nothing.
const WITHOUT_ROWS: f64 = 42.0;

pub struct View<'a> {
    plan: &'a Plan,
    panel: &'a Panel,
    pub scale: Scale,
    /// The loops of which these processors run anything, and those of which they peel anything.
    loops: Vec<usize>,
    peeled: Vec<usize>,
    width: f64,
}

/// Where things stand, from the top of the picture.
struct Layout {
    top: f64,
    fused: f64,
    barrier: f64,
    peeled: f64,
    end: f64,
}

impl<'a> View<'a> {
    pub fn new(plan: &'a Plan, panel: &'a Panel, width: f64) -> View<'a> {
        let runs = |parts: &[Part], number: usize| of_processors(parts, &panel.processors).any(|part| part.number == number);
        let numbers = 0..plan.loops.len();
        let peeled: Vec<usize> = numbers.clone().filter(|&number| runs(&plan.peeled, number)).collect();
        let loops = numbers.filter(|&number| runs(&plan.fused, number) || peeled.contains(&number)).collect();
        View { plan, panel, scale: panel.axis.scale(LEFT, width), loops, peeled, width }
    }

    fn layout(&self, top: f64) -> Layout {
        let fused = top + HEADS;
        let note = if self.loops.len() < self.plan.loops.len() { 18.0 } else { 0.0 };
        let barrier = fused + ROW * self.loops.len() as f64 + note + 8.0;
        let peeled = barrier + BELOW;
        // Processors that run nothing have no rows and no barrier.
        let end = if self.loops.is_empty() { top + WITHOUT_ROWS } else { peeled + ROW * self.peeled.len() as f64 };
        Layout { top, fused, barrier, peeled, end }
    }

    /// Draws the panel from `top` on; the result is where it ends.
    pub fn draw(&self, picture: &mut Picture, forms: &Forms, top: f64) -> f64 {
        let layout = self.layout(top);
        let Range { start, end } = self.panel.processors;
        picture.open("panel", &[("first", start as u32), ("last", end as u32 - 1)]);
        self.columns(picture, &layout);
        self.heads(picture, forms, top);
        if forms.ticks {
            lines::draw(picture, self.plan, &self.panel.processors, &self.scale, top + TICKS);
        }
        match self.loops.is_empty() {
            true => picture.text(MARGIN, top + 32.0, &SMALL, "no iteration of any loop here"),
            false => self.sides(picture, forms, &layout),
        }
        picture.close();
        layout.end
    }

    /// What stands before the barrier, the barrier, and what stands past it.
    fn sides(&self, picture: &mut Picture, forms: &Forms, layout: &Layout) {
        self.margin(picture, layout);
        self.rows(picture, &self.loops, layout.fused);
        self.note(picture, layout.barrier - 14.0);
        self.rows(picture, &self.peeled, layout.peeled);
        self.later(picture, layout.fused);
        self.bars(picture, Side::Fused, forms.full, layout.fused);
        self.bars(picture, Side::Peeled, true, layout.peeled);
        picture.line((MARGIN, layout.barrier), (LEFT + self.width, layout.barrier), "barrier");
    }

    /// The blocks behind everything. Where the last peeled parts reach into the next block, that has no head here.
    fn columns(&self, picture: &mut Picture, layout: &Layout) {
        let height = layout.end - layout.top;
        for number in self.panel.processors.clone() {
            let block = &self.plan.blocks[number];
            let span = self.scale.span(block.first, block.last);
            picture.rectangle(Frame::over(span, layout.top, height), if number % 2 == 0 { "even" } else { "odd" });
            let right = span.0 + span.1;
            if number + 1 < self.plan.blocks.len() {
                picture.line((right, layout.top), (right, layout.end), "end");
            }
        }
    }

    /// Whether there are lines of several indices, each wide enough to be seen.
    pub fn has_wide_lines(&self) -> bool {
        lines::are_wide(self.plan, &self.panel.processors, &self.scale)
    }

    pub fn spans(&self) -> Vec<(f64, f64)> {
        let blocks = &self.plan.blocks[self.panel.processors.clone()];
        blocks.iter().map(|block| self.scale.span(block.first, block.last)).collect()
    }

    pub fn names(&self, word: &str) -> Vec<String> {
        self.panel.processors.clone().map(|number| format!("{word}{number}")).collect()
    }

    pub fn bounds(&self, word: &str) -> Vec<String> {
        let blocks = &self.plan.blocks[self.panel.processors.clone()];
        blocks.iter().map(|block| labels::range(block.first, block.last, word)).collect()
    }

    /// The names and bounds of the blocks.
    fn heads(&self, picture: &mut Picture, forms: &Forms, top: f64) {
        let texts = self.names(forms.name).into_iter().zip(self.bounds(forms.bounds));
        for (span, (name, bounds)) in self.spans().into_iter().zip(texts) {
            picture.centred(span, top + 16.0, &STRONG, &name);
            picture.centred(span, top + 32.0, &SMALL, &bounds);
        }
        if self.panel.processors.len() < self.plan.blocks.len() {
            picture.text(MARGIN, top + 16.0, &STRONG, &labels::processors(&self.panel.processors));
        }
    }

    /// What the rows and columns at the margin are.
    fn margin(&self, picture: &mut Picture, layout: &Layout) {
        picture.text(MARGIN, layout.fused - 10.0, &STRONG, "before the barrier");
        picture.centred((SHIFT_AT, NUMBER), layout.fused - 10.0, &STRONG, "shift");
        picture.centred((PEEL_AT, NUMBER), layout.fused - 10.0, &STRONG, "peel");
        let nothing = if self.peeled.is_empty() { ": nothing" } else { "" };
        picture.text(MARGIN, layout.barrier + 20.0, &STRONG, &format!("past the barrier{nothing}"));
        picture.text(LEFT + 6.0, layout.barrier + 20.0, &SAID, "barrier: opens when every processor has run its fused part");
    }

    /// The loops' statements, shifts and peels at the margin, and their own bounds as thin lines.
    fn rows(&self, picture: &mut Picture, numbers: &[usize], top: f64) {
        for (at, &number) in numbers.iter().enumerate() {
            let (one, y) = (&self.plan.loops[number], top + ROW * at as f64);
            picture.text(MARGIN, y + 9.0, &STRONG, &format!("loop {number}"));
            picture.cut((MARGIN, STATEMENTS), y + 22.0, &SMALL, &one.statements);
            picture.centred((SHIFT_AT, NUMBER), y + 14.0, &PLAIN, &one.amounts.shift.to_string());
            picture.centred((PEEL_AT, NUMBER), y + 14.0, &PLAIN, &one.amounts.peel.to_string());
            let (x, length) = self.scale.span(one.first, one.last);
            picture.line((x, y + BAR / 2.0), (x + length, y + BAR / 2.0), "own");
        }
    }

    /// The loops that have no row.
    fn note(&self, picture: &mut Picture, y: f64) {
        let others: Vec<usize> = (0..self.plan.loops.len()).filter(|number| !self.loops.contains(number)).collect();
        if !others.is_empty() {
            picture.text(MARGIN, y, &SMALL, &format!("nothing of {} here", labels::loops(&others)));
        }
    }

    /// The places above the barrier of what is run past it, by these processors or by the one before them.
    fn later(&self, picture: &mut Picture, top: f64) {
        let processors = self.panel.processors.start.saturating_sub(1)..self.panel.processors.end;
        for part in of_processors(&self.plan.peeled, &processors).filter(|part| part.to >= self.panel.first) {
            let Some(at) = self.loops.iter().position(|&number| number == part.number) else { continue };
            let frame = Frame::over(self.scale.span(part.from, part.to), top + ROW * at as f64, BAR);
            picture.part(frame, "later", &[], &format!("left for past the barrier: {}", tells(part)));
        }
    }

    /// The fused parts with their room.
    pub fn fused(&self) -> impl Iterator<Item = (&Part, f64)> + '_ {
        let own = of_processors(&self.plan.fused, &self.panel.processors);
        own.map(|part| (part, self.scale.span(part.from, part.to).1))
    }

    fn bars(&self, picture: &mut Picture, side: Side, full: bool, top: f64) {
        let (parts, rows) = match side {
            Side::Fused => (&self.plan.fused, &self.loops),
            Side::Peeled => (&self.plan.peeled, &self.peeled),
        };
        for part in of_processors(parts, &self.panel.processors) {
            let row = rows.iter().position(|&number| number == part.number).unwrap_or(0);
            let frame = Frame::over(self.scale.span(part.from, part.to), top + ROW * row as f64, BAR);
            bar(picture, frame, part, side, &if full { labels::full(part) } else { labels::indices(part) });
        }
    }
}

fn tells(part: &Part) -> String {
    format!("processor {}, loop {}, {}", part.processor, part.number, labels::range(part.from, part.to, " to "))
}

/// A part with its label; a single iteration has a diamond before it.
fn bar(picture: &mut Picture, frame: Frame, part: &Part, side: Side, label: &str) {
    let data = [("processor", part.processor as u32), ("loop", part.number as u32), ("from", part.from), ("to", part.to)];
    picture.part(frame, side.word(), &data, &format!("{}: {}", side.word(), tells(part)));
    let y = frame.y + BAR / 2.0 + 4.0;
    if !part.is_single() {
        return picture.centred((frame.x, frame.width), y, side.font(), label);
    }
    let start = frame.x + (frame.width - BEFORE - width(label, side.font())) / 2.0;
    picture.diamond((start + DIAMOND, frame.y + BAR / 2.0), DIAMOND, &format!("one-{}", side.word()));
    picture.text(start + BEFORE, y, side.font(), label);
}
