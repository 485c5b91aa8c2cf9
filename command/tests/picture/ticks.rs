//! The ticks of a picture, and what must hold of them in the picture of any plan.

use crate::drawn::{lines, part_of, Drawn};
use crate::xml::Element;

/// A line narrower than this has no tick, and then no line has.
const LEAST: f64 = 4.0;
/// Coordinates have one digit behind the point, and a right end is the sum of two such.
const ROUNDED: f64 = 0.2;

/// The index of each tick and where it stands, from the left.
pub fn of(element: &Element) -> Vec<(u32, f64)> {
    let own = element.with("ruler").into_iter().filter(|one| !one.get("data-index").is_empty());
    let mut ticks: Vec<(u32, f64)> = own.map(|one| (one.number("data-index") as u32, one.number("x1"))).collect();
    ticks.sort_by(|a, b| a.partial_cmp(b).expect("numbers"));
    ticks
}

/// Where the edges before indices lie in a panel, by what is drawn there: its blocks and its parts. Between two of them the axis is straight.
struct Axis(Vec<(f64, f64)>);

impl Axis {
    fn of(panel: &Element, blocks: &[Vec<u32>]) -> Axis {
        let mut columns: Vec<&Element> = ["even", "odd"].iter().flat_map(|class| panel.with(class)).collect();
        columns.sort_by(|a, b| a.number("x").total_cmp(&b.number("x")));
        let bounds = columns.into_iter().zip(blocks).map(|(one, block)| (one, block[1], block[2]));
        let parts =
            ["fused", "peeled"].iter().flat_map(|word| panel.with(word)).map(|one| (one, part_of(one)[2], part_of(one)[3]));
        let mut edges: Vec<(f64, f64)> = Vec::new();
        for (one, from, to) in bounds.chain(parts) {
            let left = one.number("x");
            edges.extend([(f64::from(from), left), (f64::from(to) + 1.0, left + one.number("width"))]);
        }
        edges.sort_by(|a, b| a.partial_cmp(b).expect("numbers"));
        edges.dedup_by_key(|edge| edge.0);
        Axis(edges)
    }

    fn at(&self, index: u32) -> f64 {
        let index = f64::from(index);
        let after = self.0.iter().position(|edge| edge.0 >= index).expect("inside").max(1);
        let (a, b) = (self.0[after - 1], self.0[after]);
        a.1 + (index - a.0) / (b.0 - a.0) * (b.1 - a.1)
    }
}

/// In each panel a tick where each line of its blocks begins, counted from the least first; or none anywhere, where a line has one index or
/// some whole line is too narrow. The legend has them where they are drawn, and the head says how long a line is.
pub fn check(drawn: &Drawn, listing: &str, line: u32) {
    let blocks = lines(listing, "block");
    let (least, greatest) = (blocks[0][1], blocks[blocks.len() - 1][2]);
    let (mut narrowest, mut marked) = (f64::MAX, 0);
    let panels = drawn.root.with("panel");
    for panel in &panels {
        let own = &blocks[panel.number("data-first") as usize..=panel.number("data-last") as usize];
        let axis = Axis::of(panel, own);
        let starts: Vec<u32> = (own[0][1]..=own[own.len() - 1][2]).filter(|index| (index - least) % line == 0).collect();
        let whole = starts.iter().filter(|start| **start + line - 1 <= greatest);
        narrowest = whole.map(|start| axis.at(start + line) - axis.at(*start)).fold(narrowest, f64::min);
        let ticks = of(panel);
        if ticks.is_empty() {
            continue;
        }
        marked += 1;
        assert_eq!(ticks.iter().map(|tick| tick.0).collect::<Vec<_>>(), starts);
        for (index, x) in ticks {
            assert!((x - axis.at(index)).abs() < ROUNDED, "{index}: {x} and not {}", axis.at(index));
        }
        stand_above_the_rows(panel);
    }
    assert!(marked == 0 || marked == panels.len(), "{marked} panels of {} have ticks", panels.len());
    let wide = line > 1 && narrowest >= LEAST;
    assert!((marked > 0) == wide || line > 1 && (narrowest - LEAST).abs() < 2.0 * ROUNDED, "{marked} panels, {narrowest}");
    let legend = format!("ticks: at each a line of {line} indices begins; blocks begin on whole lines");
    assert_eq!(drawn.said("plain").contains(&legend.as_str()), marked > 0);
    assert_eq!(drawn.said("small")[0].contains(&format!(" in lines of {line};")), line > 1);
}

/// Below the heads of the columns and above the first loop.
fn stand_above_the_rows(panel: &Element) {
    let top = panel.with("even").iter().chain(&panel.with("odd")).map(|one| one.number("y")).fold(f64::MAX, f64::min);
    let first = panel.with("own").iter().map(|one| one.number("y1")).fold(f64::MAX, f64::min);
    for tick in panel.with("ruler") {
        assert_eq!(tick.get("x1"), tick.get("x2"));
        assert!(tick.number("y1") > top + 35.0 && tick.number("y2") < first - 10.0, "{tick:?}");
        assert!(tick.number("y2") - tick.number("y1") >= 4.0, "{tick:?}");
    }
}
