//! `draw`: a picture of a plan. Blocks stand across, loops down; above the barrier what is fused, below it what is peeled. Many blocks
//! stand in panels, one below the other, under a row of all.

mod forms;
mod labels;
mod lines;
mod overview;
mod panel;
mod panels;
mod plan;
mod style;

use crate::answers;
use crate::input::Input;
use crate::options::Options;
use crate::outcome::{Failure, Outcome};
use crate::refusals::Asked;
use crate::svg::letters::width;
use crate::svg::{shortened, Frame, Picture};
use crate::wording::counted;
use forms::Forms;
use labels::{Side, DIAMOND};
use panel::View;
use panels::{chart_width, panels};
use plan::Plan;
use style::{style, PLAIN, SMALL, TITLE};

const MARGIN: f64 = 16.0;
/// Room at the left for loops, shifts and peels.
const LEFT: f64 = 396.0;
/// What is kept free behind a name, for the count of processors.
const BEHIND: f64 = 200.0;
/// Between two panels.
const GAP: f64 = 28.0;

pub fn draw(options: &Options) -> Result<Outcome, Failure> {
    let name = options.one_file()?;
    let settings = options.settings()?;
    answers::needs_file(options)?;
    let input = match Input::read(name)? {
        Ok(input) => input,
        Err(error) => return answers::wrong_text(name, &error),
    };
    match Plan::of(&input.table, settings, &input.names) {
        Ok(plan) => answers::made(options, picture(name, &plan).as_bytes(), &plan.listing),
        Err(refusal) => answers::refused(options, &input, &refusal, &Asked::plan(settings)),
    }
}

fn picture(name: &str, plan: &Plan) -> String {
    let panels = panels(plan);
    let width = chart_width(&panels);
    let mut picture = Picture::default();
    let title = head(&mut picture, name, plan, LEFT + width - MARGIN);
    let mut y = 66.0;
    if panels.len() > 1 {
        y = GAP + overview::draw(&mut picture, plan, &panels, y, width);
    }
    let views: Vec<View> = panels.iter().map(|panel| View::new(plan, panel, width)).collect();
    let forms = Forms::of(&views);
    for view in &views {
        y = GAP + view.draw(&mut picture, &forms, y);
    }
    let mut end = foot(&mut picture, y - 8.0);
    if forms.ticks {
        end = foot_of_ticks(&mut picture, end, plan.line);
    }
    if views.iter().any(|view| view.scale.bent) {
        end = foot_of_scale(&mut picture, end);
    }
    picture.finish((LEFT + width + MARGIN, end + MARGIN), &format!("Plan of {title}"), &style())
}

/// The title, as much of it as the room has, and what is known of the whole plan.
fn head(picture: &mut Picture, name: &str, plan: &Plan, room: f64) -> String {
    let count = plan.blocks.len();
    let whose = if plan.by_hand { ", plan by hand" } else { "" };
    let behind = format!(": {}{whose}", counted(count, "processor"));
    let title = format!("{}{behind}", called(name, room - BEHIND.max(width(&behind, &TITLE))));
    picture.text(MARGIN, 28.0, &TITLE, &title);
    let rule = if count == 1 { "it holds for two processors or more" } else { "no block may be shorter" };
    let lines = if plan.line == 1 { String::new() } else { format!(" in lines of {}", plan.line) };
    let facts = format!(
        "indices {} to {}{lines}; threshold {} ({rule}); sweeps over arrays {} before fusion, {} after",
        plan.first(),
        plan.last(),
        plan.threshold,
        plan.sweeps.before,
        plan.sweeps.after
    );
    picture.text(MARGIN, 48.0, &SMALL, &facts);
    title
}

/// What the picture is of: a file by its last name.
fn called(name: &str, room: f64) -> String {
    match name {
        "-" => "standard input".to_string(),
        _ => shortened(name.rsplit('/').next().unwrap_or(name), &TITLE, room),
    }
}

/// What the shapes mean. The result is where it ends.
fn foot(picture: &mut Picture, top: f64) -> f64 {
    let mut entry = |column: f64, row: f64, class: &str, said: &str| {
        let (x, y) = (MARGIN + column, top + row);
        picture.rectangle(Frame { x, y, width: 30.0, height: 14.0 }, class);
        picture.text(x + 38.0, y + 11.0, &PLAIN, said);
    };
    entry(0.0, 0.0, Side::Fused.word(), "fused: a processor runs these in rising order of index + shift");
    entry(520.0, 0.0, Side::Peeled.word(), "peeled: past the barrier, loop by loop");
    entry(0.0, 22.0, Side::Fused.word(), "with a diamond: a single iteration");
    entry(520.0, 22.0, "later", "the place of what is peeled");
    picture.diamond((MARGIN + 15.0, top + 29.0), DIAMOND, "one-fused");
    top + 36.0
}

/// What the ticks mean, with some of them.
fn foot_of_ticks(picture: &mut Picture, top: f64, line: u32) -> f64 {
    for at in 0..4 {
        let x = MARGIN + 3.0 + 8.0 * f64::from(at);
        picture.line((x, top + 12.0), (x, top + 17.0), "ruler");
    }
    let said = format!("ticks: at each a line of {line} indices begins; blocks begin on whole lines");
    picture.text(MARGIN + 38.0, top + 19.0, &PLAIN, &said);
    top + 22.0
}

fn foot_of_scale(picture: &mut Picture, top: f64) -> f64 {
    let said = "Not to scale: what would be narrower than its label is drawn wider than the rest.";
    picture.text(MARGIN, top + 18.0, &SMALL, said);
    top + 22.0
}

#[cfg(test)]
mod tests {
    use super::*;
    use crate::names::Names;

    /// One array of 12 elements, one loop from 1 to 10 that doubles it.
    const TABLE: [u8; 28] = [1, 12, 0, 0, 0, 2, 1, 0, 0, 0, 10, 0, 0, 0, 0, 0, 0, 3, 0, 0, 0, 4, 2, 0, 0, 0, 5, 3];

    fn drawn(names: Names) -> String {
        let table = [&TABLE[..], &[6]].concat();
        picture("flow.txt", &Plan::of(&table, 2.into(), &names).expect("a plan"))
    }

    #[test]
    fn a_loop_is_shown_with_the_names_of_its_arrays() {
        assert!(drawn(Names(vec!["flow".to_string()])).contains(">flow[i] = flow[i] * 2</text>"));
        assert!(drawn(Names::default()).contains(">A0[i] = A0[i] * 2</text>"));
        // No text has such names, but nothing here would break by them.
        assert!(drawn(Names(vec!["a<&".to_string()])).contains(">a&lt;&amp;[i] = a&lt;&amp;[i] * 2</text>"));
    }
}
