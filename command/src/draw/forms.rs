//! The forms of texts, the same in all panels: the longest that have room everywhere.

use super::labels::{self, Side};
use super::panel::View;
use super::style::{SMALL, STRONG};
use crate::svg::letters::{width, Font};

pub struct Forms {
    /// Before a processor's number at the head of its column.
    pub name: &'static str,
    /// Between the first and the last index of a block.
    pub bounds: &'static str,
    /// Whether fused parts name their processor; it stands at the head of the column too.
    pub full: bool,
    /// Whether ticks show where lines begin.
    pub ticks: bool,
}

impl Forms {
    pub fn of(views: &[View]) -> Forms {
        let names = views.iter().all(|view| fit(&view.spans(), &view.names("processor "), &STRONG));
        let bounds = views.iter().all(|view| fit(&view.spans(), &view.bounds(" to "), &SMALL));
        let mut parts = views.iter().flat_map(View::fused);
        Forms {
            name: if names { "processor " } else { "P" },
            bounds: if bounds { " to " } else { "-" },
            full: parts.all(|(part, room)| labels::room(part, &labels::full(part), Side::Fused) <= room),
            ticks: views.iter().all(View::has_wide_lines),
        }
    }
}

fn fit(spans: &[(f64, f64)], texts: &[String], font: &Font) -> bool {
    spans.iter().zip(texts).all(|(span, text)| width(text, font) <= span.1)
}
