//! Where things stand in a picture: their boxes. The letters are measured by the advance widths of DejaVu Sans, a wide font.

use crate::xml::Element;
use std::collections::HashMap;

#[derive(Clone, Copy, Debug)]
pub struct Area {
    pub left: f64,
    pub top: f64,
    pub right: f64,
    pub bottom: f64,
}

/// Coordinates have one digit behind the point.
const ROUNDED: f64 = 0.11;

impl Area {
    pub fn of_rectangle(one: &Element) -> Area {
        let (left, top) = (one.number("x"), one.number("y"));
        Area { left, top, right: left + one.number("width"), bottom: top + one.number("height") }
    }

    pub fn of_polygon(one: &Element) -> Area {
        let points = one.get("points").split(' ').map(|point| point.split_once(',').expect("a point"));
        let (x, y): (Vec<f64>, Vec<f64>) =
            points.map(|(x, y)| (x.parse::<f64>().expect("x"), y.parse::<f64>().expect("y"))).unzip();
        let (low, high) = (
            |all: &[f64]| all.iter().copied().fold(f64::MAX, f64::min),
            |all: &[f64]| all.iter().copied().fold(f64::MIN, f64::max),
        );
        Area { left: low(&x), top: low(&y), right: high(&x), bottom: high(&y) }
    }

    pub fn width(&self) -> f64 {
        self.right - self.left
    }

    pub fn height(&self) -> f64 {
        self.bottom - self.top
    }

    pub fn holds(&self, other: &Area) -> bool {
        let across = self.left <= other.left + ROUNDED && other.right <= self.right + ROUNDED;
        across && self.top <= other.top + ROUNDED && other.bottom <= self.bottom + ROUNDED
    }

    pub fn meets(&self, other: &Area) -> bool {
        let across = self.left < other.right - ROUNDED && other.left < self.right - ROUNDED;
        across && self.top < other.bottom - ROUNDED && other.top < self.bottom - ROUNDED
    }
}

/// The properties of each class, as the picture's own style has them.
pub struct Style(HashMap<String, HashMap<String, String>>);

impl Style {
    pub fn of(root: &Element) -> Style {
        let style = root.inner.iter().find(|one| one.name == "style").expect("a style");
        let mut rules: HashMap<String, HashMap<String, String>> = HashMap::new();
        for rule in style.text.split('}').filter(|rule| !rule.trim().is_empty()) {
            let (selectors, properties) = rule.split_once('{').expect("a rule");
            let pairs = properties.split(';').filter_map(|one| one.split_once(':'));
            let pairs: Vec<_> = pairs.map(|(name, value)| (name.trim().to_string(), value.trim().to_string())).collect();
            for selector in selectors.split(',') {
                rules.entry(selector.trim().to_string()).or_default().extend(pairs.clone());
            }
        }
        Style(rules)
    }

    pub fn property(&self, one: &Element, name: &str) -> Option<&str> {
        let mut classes = one.get("class").split(' ');
        classes.find_map(|class| self.0.get(&format!(".{class}"))?.get(name)).map(String::as_str)
    }

    pub fn font_size(&self, text: &Element) -> f64 {
        let size = self.property(text, "font-size").unwrap_or_else(|| panic!("no size of {text:?}"));
        size.strip_suffix("px").expect("in points").parse().expect("a number")
    }

    /// The box of a text's letters.
    pub fn text_area(&self, text: &Element) -> Area {
        let size = self.font_size(text);
        let widths = if self.property(text, "font-weight") == Some("bold") { &BOLD } else { &REGULAR };
        let letter = |one: char| widths.get((one as usize).wrapping_sub(32)).map_or(1.0, |&width| f64::from(width) / 1000.0);
        let width = size * text.text.chars().map(letter).sum::<f64>();
        let x = text.number("x");
        let left = if self.property(text, "text-anchor") == Some("middle") { x - width / 2.0 } else { x };
        let y = text.number("y");
        Area { left, top: y - 0.76 * size, right: left + width, bottom: y + 0.24 * size }
    }
}

/// In thousandths of the size, from the space to the tilde.
const REGULAR: [u16; 95] = [
    318, 401, 460, 838, 636, 950, 780, 275, 390, 390, 500, 838, 318, 361, 318, 337, 636, 636, 636, 636, 636, 636, 636, 636, 636,
    636, 337, 337, 838, 838, 838, 531, 1000, 684, 686, 698, 770, 632, 575, 775, 752, 295, 295, 656, 557, 863, 748, 787, 603, 787,
    695, 635, 611, 732, 684, 989, 685, 611, 685, 390, 337, 390, 838, 500, 500, 613, 635, 550, 635, 615, 352, 635, 634, 278, 278,
    579, 278, 974, 634, 612, 635, 635, 411, 521, 392, 634, 592, 818, 592, 592, 525, 636, 337, 636, 838,
];
const BOLD: [u16; 95] = [
    348, 456, 521, 838, 696, 1002, 872, 306, 457, 457, 523, 838, 380, 415, 380, 365, 696, 696, 696, 696, 696, 696, 696, 696, 696,
    696, 400, 400, 838, 838, 838, 580, 1000, 774, 762, 734, 830, 683, 683, 821, 837, 372, 372, 775, 637, 995, 837, 850, 733, 850,
    770, 720, 682, 812, 774, 1103, 771, 724, 725, 457, 365, 457, 838, 500, 500, 675, 716, 593, 716, 678, 435, 716, 712, 343, 343,
    665, 343, 1042, 712, 687, 716, 716, 493, 595, 478, 712, 652, 924, 645, 652, 582, 712, 365, 712, 838,
];
