//! The axis of indices. It is to scale where every part is then as wide as its label; else what would be too narrow is drawn wider, and
//! the rest stays in proportion.

use std::ops::Range;

/// So much room is wanted from an index to the one before `past`.
pub struct Need {
    pub from: u32,
    pub past: u32,
    pub room: f64,
}

/// Two ends that differ are drawn at least this far apart.
const LEAST: f64 = 4.0;

/// The axis cut into pieces where some part begins or ends.
pub struct Axis {
    /// The edges of the pieces: edge i lies before index i.
    edges: Vec<u32>,
    /// Which pieces together want how much room, those of few pieces first.
    wants: Vec<(Range<usize>, f64)>,
}

impl Axis {
    pub fn new(needs: &[Need]) -> Axis {
        let mut edges: Vec<u32> = needs.iter().flat_map(|need| [need.from, need.past]).collect();
        edges.sort_unstable();
        edges.dedup();
        let place = |edge: u32| edges.partition_point(|&other| other < edge);
        let mut wants: Vec<_> = needs.iter().map(|need| (place(need.from)..place(need.past), need.room)).collect();
        // What is widened for few pieces counts for all that contain them.
        wants.sort_by_key(|(pieces, _)| pieces.len());
        Axis { edges, wants }
    }

    fn lengths(&self) -> impl Iterator<Item = f64> + '_ {
        self.edges.windows(2).map(|pair| f64::from(pair[1] - pair[0]))
    }

    /// How wide each piece is where an index has at least this width and every want is met.
    fn widths(&self, unit: f64) -> Vec<f64> {
        let lengths: Vec<f64> = self.lengths().collect();
        let mut widths: Vec<f64> = lengths.iter().map(|length| LEAST.max(unit * length)).collect();
        for (pieces, room) in &self.wants {
            let missing = room - widths[pieces.clone()].iter().sum::<f64>();
            let indices: f64 = lengths[pieces.clone()].iter().sum();
            if missing > 0.0 {
                pieces.clone().for_each(|at| widths[at] += missing * lengths[at] / indices);
            }
        }
        widths
    }

    /// The width below which some want could not be met.
    pub fn least_width(&self) -> f64 {
        self.widths(0.0).iter().sum()
    }

    /// The axis drawn from `left` on, in a width that is no less than the least.
    pub fn scale(&self, left: f64, width: f64) -> Scale {
        let indices: f64 = self.lengths().sum();
        let (mut low, mut high) = (0.0, width / indices);
        for _ in 0..60 {
            let unit = (low + high) / 2.0;
            match self.widths(unit).iter().sum::<f64>() <= width {
                true => low = unit,
                false => high = unit,
            }
        }
        let widths = self.widths(low);
        let spare = width - widths.iter().sum::<f64>();
        let mut points = vec![(f64::from(self.edges[0]), left)];
        for (length, own) in self.lengths().zip(widths) {
            let last = points[points.len() - 1];
            points.push((last.0 + length, last.1 + own + spare * length / indices));
        }
        Scale { bent: is_bent(&points), points }
    }
}

pub struct Scale {
    /// Where an edge between two indices lies, rising in both; between two points the axis is straight.
    points: Vec<(f64, f64)>,
    /// Whether some indices are drawn wider than others.
    pub bent: bool,
}

impl Scale {
    /// From one index to another with no piece wider than its indices.
    pub fn straight(first: u32, last: u32, left: f64, width: f64) -> Scale {
        Scale { points: vec![(f64::from(first), left), (f64::from(last) + 1.0, left + width)], bent: false }
    }

    /// Where the cell of an index begins; it ends where that of the next one begins. What lies outside the axis is at its end.
    fn at(&self, edge: f64) -> f64 {
        let after = self.points.iter().position(|point| point.0 >= edge).unwrap_or(self.points.len() - 1).max(1);
        let (a, b) = (self.points[after - 1], self.points[after]);
        a.1 + ((edge - a.0) / (b.0 - a.0)).clamp(0.0, 1.0) * (b.1 - a.1)
    }

    /// Left end and width of the indices from a to e, both included.
    pub fn span(&self, a: u32, e: u32) -> (f64, f64) {
        let left = self.at(f64::from(a));
        (left, self.at(f64::from(e) + 1.0) - left)
    }
}

fn is_bent(points: &[(f64, f64)]) -> bool {
    let (a, b) = (points[0], points[points.len() - 1]);
    let straight = |edge: f64| a.1 + (edge - a.0) / (b.0 - a.0) * (b.1 - a.1);
    points.iter().any(|&(edge, x)| (x - straight(edge)).abs() > 0.5)
}

#[cfg(test)]
mod tests {
    use super::*;

    fn need(from: u32, past: u32, room: f64) -> Need {
        Need { from, past, room }
    }

    #[test]
    fn an_axis_with_room_for_all_is_to_scale() {
        let scale = Axis::new(&[need(10, 20, 30.0), need(20, 110, 50.0)]).scale(5.0, 400.0);
        assert!(!scale.bent);
        let near = |(x, width): (f64, f64), wanted: (f64, f64)| (x - wanted.0).abs() < 0.01 && (width - wanted.1).abs() < 0.01;
        assert!(near(scale.span(10, 19), (5.0, 40.0)), "{:?}", scale.span(10, 19));
        assert!(near(scale.span(60, 84), (205.0, 100.0)), "{:?}", scale.span(60, 84));
    }

    /// The block's end lies in the middle of what is peeled around it, though the label needs more than both pieces have.
    #[test]
    fn what_is_widened_is_widened_evenly() {
        let axis = Axis::new(&[need(0, 500, 0.0), need(500, 1000, 0.0), need(499, 501, 80.0)]);
        assert!((axis.least_width() - 88.0).abs() < 0.01, "{}", axis.least_width());
        let scale = axis.scale(0.0, 400.0);
        assert!(scale.bent);
        assert!((scale.span(499, 499).1 - 40.0).abs() < 0.5 && (scale.span(0, 499).1 - 200.0).abs() < 0.5);
    }

    #[test]
    fn what_lies_outside_is_cut() {
        let scale = Axis::new(&[need(10, 20, 0.0)]).scale(100.0, 50.0);
        assert_eq!((scale.span(0, 14).0, scale.span(15, 99).0 + scale.span(15, 99).1), (100.0, 150.0));
        assert_eq!(scale.span(0, 5), (100.0, 0.0));
    }
}
