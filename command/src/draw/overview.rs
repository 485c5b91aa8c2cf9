//! All blocks in one row, to scale, above the panels that show a few of them each; below it where each loop lies.

use super::labels::{self, DIAMOND};
use super::panels::Panel;
use super::plan::{Loop, Plan};
use super::style::{SMALL, STRONG};
use super::{LEFT, MARGIN};
use crate::scale::Scale;
use crate::svg::letters::width;
use crate::svg::{Frame, Picture};

const HEADS: f64 = 38.0;
const ROW: f64 = 16.0;
const BAR: f64 = 8.0;
/// A loop is drawn no narrower than it can be seen.
const LEAST: f64 = 6.0;

/// Draws it from `top` on; the result is where it ends.
pub fn draw(picture: &mut Picture, plan: &Plan, panels: &[Panel], top: f64, width: f64) -> f64 {
    let scale = Scale::straight(plan.first(), plan.last(), LEFT, width);
    let end = top + HEADS + ROW * plan.loops.len() as f64 + 4.0;
    picture.open("overview", &[]);
    picture.text(MARGIN, top + 16.0, &STRONG, "all blocks, to scale");
    columns(picture, plan, &scale, (top, end), panels);
    for (number, one) in plan.loops.iter().enumerate() {
        let y = top + HEADS + ROW * number as f64;
        let said = format!("loop {number}: {}", one.statements);
        picture.cut((MARGIN, LEFT - MARGIN - 12.0), y + 11.0, &SMALL, &said);
        let (x, length) = scale.span(one.first, one.last);
        let x = x.min(LEFT + width - LEAST);
        bar(picture, Frame::over((x, length.max(LEAST)), y + 4.0, BAR), number, one, LEFT + width);
    }
    picture.close();
    end
}

/// A column for each panel, and a ruler with a line where a block begins.
fn columns(picture: &mut Picture, plan: &Plan, scale: &Scale, (top, end): (f64, f64), panels: &[Panel]) {
    let span = |panel: &Panel| {
        let last = panel.processors.end - 1;
        scale.span(plan.blocks[panel.processors.start].first, plan.blocks[last].last)
    };
    let spans: Vec<(f64, f64)> = panels.iter().map(span).collect();
    for (at, (panel, &(x, length))) in panels.iter().zip(&spans).enumerate() {
        let class = if at % 2 == 0 { "even" } else { "odd" };
        picture.part(Frame::over((x, length), top, end - top), class, &[], &labels::processors(&panel.processors));
        for number in panel.processors.clone() {
            let x = scale.span(plan.blocks[number].first, plan.blocks[number].last).0;
            picture.line((x, top + HEADS - 5.0), (x, top + HEADS + 1.0), "ruler");
        }
    }
    let ends = |panel: &Panel| (panel.processors.start as u32, panel.processors.end as u32 - 1);
    let named = |word: &str| {
        let name = |panel| labels::range(ends(panel).0, ends(panel).1, &format!("-{word}"));
        panels.iter().map(|panel| format!("{word}{}", name(panel))).collect()
    };
    let every = picture.spread(&spans, 1, top + 16.0, &STRONG, &[named("P"), named("")]);
    let bounds = |panel: &Panel| {
        let (first, last) = (&plan.blocks[panel.processors.start], &plan.blocks[panel.processors.end - 1]);
        labels::range(first.first, last.last, "-")
    };
    picture.spread(&spans, every, top + 30.0, &SMALL, &[panels.iter().map(bounds).collect()]);
}

/// A loop from its first to its last index; a single iteration as a diamond with its index.
fn bar(picture: &mut Picture, frame: Frame, number: usize, one: &Loop, right: f64) {
    let data = [("loop", number as u32), ("first", one.first), ("last", one.last)];
    let tells = format!("loop {number}: {}", labels::range(one.first, one.last, " to "));
    if one.first < one.last {
        return picture.part(frame, "whole", &data, &tells);
    }
    picture.part(frame, "spot", &data, &tells);
    let x = (frame.x + frame.width / 2.0).clamp(LEFT + DIAMOND, right - DIAMOND);
    picture.diamond((x, frame.y + BAR / 2.0), DIAMOND, "one-whole");
    let label = one.first.to_string();
    let length = width(&label, &SMALL);
    let behind = x + DIAMOND + 3.0;
    let start = if behind + length <= right { behind } else { x - DIAMOND - 3.0 - length };
    picture.text(start, frame.y + 8.0, &SMALL, &label);
}
