//! What is written on a part, and how much room that needs.

use super::plan::Part;
use super::style::{IN_FUSED, IN_PEELED};
use crate::svg::letters::{width, Font};
use std::ops::Range;

/// A processor's two sides of the barrier.
#[derive(Clone, Copy, PartialEq, Eq)]
pub enum Side {
    Fused,
    Peeled,
}

impl Side {
    pub fn word(self) -> &'static str {
        match self {
            Side::Fused => "fused",
            Side::Peeled => "peeled",
        }
    }

    pub fn font(self) -> &'static Font {
        match self {
            Side::Fused => &IN_FUSED,
            Side::Peeled => &IN_PEELED,
        }
    }
}

/// Between a label and the ends of its part.
const PADDING: f64 = 4.0;
/// Half the height of the diamond that marks a single iteration, and what it takes before the label.
pub const DIAMOND: f64 = 5.0;
pub const BEFORE: f64 = 2.0 * DIAMOND + 4.0;

/// `7`, or two ends with a word between them.
pub fn range(from: u32, to: u32, word: &str) -> String {
    match from == to {
        true => from.to_string(),
        false => format!("{from}{word}{to}"),
    }
}

/// The indices of a part: `7`, `1-50`.
pub fn indices(part: &Part) -> String {
    range(part.from, part.to, "-")
}

/// With the processor: `P0: 1-50`.
pub fn full(part: &Part) -> String {
    format!("P{}: {}", part.processor, indices(part))
}

/// How much of the picture's width a label takes on its part, with the diamond of a single iteration.
pub fn room(part: &Part, label: &str, side: Side) -> f64 {
    let mark = if part.is_single() { BEFORE } else { 0.0 };
    width(label, side.font()) + mark + 2.0 * PADDING
}

/// `loop 3`, `loops 1, 2`.
pub fn loops(numbers: &[usize]) -> String {
    let said: Vec<String> = numbers.iter().map(usize::to_string).collect();
    format!("loop{} {}", if numbers.len() == 1 { "" } else { "s" }, said.join(", "))
}

/// `processor 3`, `processors 0 to 7`.
pub fn processors(numbers: &Range<usize>) -> String {
    match numbers.len() {
        1 => format!("processor {}", numbers.start),
        _ => format!("processors {} to {}", numbers.start, numbers.end - 1),
    }
}
