//! A picture as a reader sees it, and what must hold of the picture of any plan.

use crate::area::{Area, Style};
use crate::xml::{read, Element};
use std::collections::BTreeMap;

/// Processor, loop, first and last index.
pub type Part = [u32; 4];

/// The lines of a listing that begin with a word, as numbers.
pub fn lines(listing: &str, word: &str) -> Vec<Vec<u32>> {
    let own = listing.lines().filter_map(|line| line.strip_prefix(word));
    own.map(|fields| fields.split_whitespace().map(|field| field.parse().expect("a number")).collect()).collect()
}

pub fn parts(listing: &str, word: &str) -> Vec<Part> {
    lines(listing, word).into_iter().map(|fields| fields.try_into().expect("four")).collect()
}

/// `7`, `1-50`.
fn indices(from: u32, to: u32) -> String {
    match from == to {
        true => from.to_string(),
        false => format!("{from}-{to}"),
    }
}

pub struct Drawn {
    pub root: Element,
    pub style: Style,
}

impl Drawn {
    pub fn new(picture: &str) -> Drawn {
        let root = read(picture);
        Drawn { style: Style::of(&root), root }
    }

    pub fn frame(&self) -> Area {
        let (width, height) = (self.root.number("width"), self.root.number("height"));
        assert_eq!(self.root.get("viewBox"), format!("0 0 {width} {height}"));
        Area { left: 0.0, top: 0.0, right: width, bottom: height }
    }

    pub fn texts(&self) -> Vec<(&Element, Area)> {
        let texts = self.root.all().into_iter().filter(|one| one.name == "text");
        texts.map(|one| (one, self.style.text_area(one))).collect()
    }

    pub fn said(&self, class: &str) -> Vec<&str> {
        self.root.with(class).into_iter().map(|one| one.text.as_str()).collect()
    }

    /// Everything that must hold of a picture, whatever its plan.
    pub fn check(&self, listing: &str, loops: &[(u32, u32)]) {
        self.every_part_is_drawn_once(listing);
        self.every_part_is_labelled();
        self.panels_are_in_order(listing);
        self.sides_and_axes();
        self.rows_have_shift_and_peel(listing);
        self.peeled_parts_are_left_out_above(listing);
        self.overview_has_every_loop(listing, loops);
        self.everything_is_inside();
        self.texts_are_apart();
    }

    fn every_part_is_drawn_once(&self, listing: &str) {
        for word in ["fused", "peeled"] {
            let mut wanted = parts(listing, word);
            let mut found: Vec<Part> = self.drawn_parts(word).into_iter().map(part_of).collect();
            wanted.sort_unstable();
            found.sort_unstable();
            assert_eq!(found, wanted, "{word}");
        }
    }

    /// The shapes that have a part's numbers: those of the legend have none.
    pub fn drawn_parts(&self, word: &str) -> Vec<&Element> {
        self.root.with(word).into_iter().filter(|one| !one.get("data-loop").is_empty()).collect()
    }

    fn every_part_is_labelled(&self) {
        for panel in self.root.with("panel") {
            let inside = panel.all();
            let texts: Vec<(&str, Area)> = inside
                .iter()
                .filter(|one| one.name == "text")
                .map(|one| (one.text.as_str(), self.style.text_area(one)))
                .collect();
            let marks: Vec<Area> = inside.iter().filter(|one| one.name == "polygon").map(|one| Area::of_polygon(one)).collect();
            for word in ["fused", "peeled"] {
                inside.iter().filter(|one| one.is(word)).for_each(|shape| is_labelled(shape, word, &texts, &marks));
            }
        }
    }

    /// Up to eight blocks side by side, each block once, with its name and bounds at its head.
    fn panels_are_in_order(&self, listing: &str) {
        let blocks = lines(listing, "block");
        let mut next = 0;
        for panel in self.root.with("panel") {
            let (first, last) = (panel.number("data-first") as usize, panel.number("data-last") as usize);
            assert!(first == next && last < first + 8, "{first} {last}");
            next = last + 1;
            let said: Vec<&str> = panel.all().iter().filter(|one| one.name == "text").map(|one| one.text.as_str()).collect();
            for block in &blocks[first..=last] {
                let heads = [format!("processor {}", block[0]), format!("P{}", block[0])];
                let bounds = indices(block[1], block[2]);
                assert!(said.iter().any(|text| heads.contains(&text.to_string())), "{block:?} {said:?}");
                assert!(
                    said.contains(&bounds.as_str()) || said.contains(&bounds.replace('-', " to ").as_str()),
                    "{block:?} {said:?}"
                );
            }
        }
        assert_eq!(next, blocks.len());
    }

    /// In a panel the fused parts stand above the barrier and the peeled ones below it; each loop has a row of its own on each side; and
    /// one index lies at one place, a greater one further to the right.
    fn sides_and_axes(&self) {
        for panel in self.root.with("panel") {
            let mut edges: Vec<(u32, f64)> = Vec::new();
            let barrier = panel.with("barrier").first().map_or(0.0, |line| line.number("y1"));
            for word in ["fused", "peeled"] {
                let mut rows: BTreeMap<u32, f64> = BTreeMap::new();
                for shape in panel.with(word) {
                    let ([processor, number, from, to], area) = (part_of(shape), Area::of_rectangle(shape));
                    assert!((panel.number("data-first")..=panel.number("data-last")).contains(&f64::from(processor)));
                    assert_eq!((word == "fused", word == "peeled"), (area.bottom < barrier, area.top > barrier), "{shape:?}");
                    assert_eq!(*rows.entry(number).or_insert(area.top), area.top, "{shape:?}");
                    edges.extend([(from, area.left), (to + 1, area.right)]);
                }
                let heights: Vec<f64> = rows.into_values().collect();
                assert!(heights.windows(2).all(|pair| pair[0] + 20.0 < pair[1]), "{heights:?}");
            }
            edges.sort_by(|a, b| a.partial_cmp(b).expect("numbers"));
            for pair in edges.windows(2) {
                let apart = pair[1].1 - pair[0].1;
                // Both ends are rounded, and a right end is the sum of two such.
                let right = if pair[0].0 == pair[1].0 { apart.abs() < 0.2 } else { apart > 3.5 };
                assert!(right, "{pair:?}");
            }
        }
    }

    /// Beside each loop's name stand its shift and its peel, on both sides of the barrier.
    fn rows_have_shift_and_peel(&self, listing: &str) {
        let amounts = lines(listing, "loop");
        for panel in self.root.with("panel") {
            let plain = panel.with("plain");
            let named = panel.with("strong").into_iter().filter_map(|one| Some((one, one.text.strip_prefix("loop ")?)));
            for (name, number) in named {
                let row = |one: &&&Element| (one.number("y") - name.number("y")).abs() < 12.0;
                let beside: Vec<u32> = plain.iter().filter(row).map(|one| one.text.parse().expect("a number")).collect();
                let number: usize = number.parse().expect("a number");
                assert_eq!(beside, amounts[number][1..], "loop {number}");
            }
        }
    }

    /// Above the barrier the place of each peeled part is outlined, and no fused part reaches into it. A part of the processor before
    /// the panel's first is outlined as far as it reaches into the panel.
    fn peeled_parts_are_left_out_above(&self, listing: &str) {
        let peeled = parts(listing, "peeled");
        for panel in self.root.with("panel") {
            let fused: Vec<(Part, Area)> =
                panel.with("fused").into_iter().map(|one| (part_of(one), Area::of_rectangle(one))).collect();
            let below: Vec<(Part, Area)> =
                panel.with("peeled").into_iter().map(|one| (part_of(one), Area::of_rectangle(one))).collect();
            let outlines: Vec<(&Element, Area)> =
                panel.with("later").into_iter().map(|one| (one, Area::of_rectangle(one))).collect();
            for ([processor, number, from, to], area) in &below {
                let range = indices(*from, *to).replace('-', " to ");
                let title = format!("left for past the barrier: processor {processor}, loop {number}, {range}");
                let found: Vec<&Area> = outlines.iter().filter(|(one, _)| one.title() == title).map(|(_, own)| own).collect();
                assert!(found.len() == 1 && (found[0].left, found[0].right) == (area.left, area.right), "{title}: {found:?}");
                let row = fused.iter().find(|(other, _)| other[1] == *number).map_or(found[0].top, |(_, own)| own.top);
                assert_eq!(found[0].top, row, "{title}");
            }
            assert!(fused.iter().all(|(_, own)| outlines.iter().all(|(_, other)| !own.meets(other))));
            let before = panel.number("data-first") - 1.0;
            let others = outlines.len() - below.len();
            assert!(others <= peeled.iter().filter(|part| f64::from(part[0]) == before).count());
        }
    }

    /// Where the blocks do not all stand in one panel, all loops lie to scale in a row of all blocks.
    fn overview_has_every_loop(&self, listing: &str, loops: &[(u32, u32)]) {
        let several = self.root.with("panel").len() > 1;
        let overview = self.root.with("overview");
        assert_eq!(overview.len(), usize::from(several));
        let Some(overview) = overview.first() else { return };
        self.overview_says_where_panels_lie(overview, listing);
        let blocks = lines(listing, "block");
        let (first, last) = (f64::from(blocks[0][1]), f64::from(blocks[blocks.len() - 1][2]));
        let chart: Vec<Area> = ["even", "odd"].iter().flat_map(|class| overview.with(class)).map(Area::of_rectangle).collect();
        let left = chart.iter().map(|area| area.left).fold(f64::MAX, f64::min);
        let right = chart.iter().map(|area| area.right).fold(0.0, f64::max);
        let at = |edge: f64| left + (edge - first) / (last + 1.0 - first) * (right - left);
        for (number, &(from, to)) in loops.iter().enumerate() {
            let class = if from == to { "spot" } else { "whole" };
            let found: Vec<&Element> =
                overview.with(class).into_iter().filter(|one| one.number("data-loop") as usize == number).collect();
            assert_eq!(found.len(), 1, "{number}");
            let (shape, area) = (found[0], Area::of_rectangle(found[0]));
            assert_eq!((shape.number("data-first"), shape.number("data-last")), (f64::from(from), f64::from(to)));
            // A loop that would be too narrow is wider, and then stays inside.
            let near = |x: f64, wanted: f64| (x - wanted).abs() < 6.3;
            assert!(near(area.left, at(f64::from(from))) && near(area.right, at(f64::from(to) + 1.0)), "{area:?}");
            assert!(area.width() >= 5.9 && area.left >= left - 0.2 && area.right <= right + 0.2, "{area:?}");
            if from == to {
                self.is_marked(overview, &area, from);
            }
        }
    }

    /// Beside the head of the row of all blocks stand the panels' names, and below these their indices.
    fn overview_says_where_panels_lie(&self, overview: &Element, listing: &str) {
        let blocks = lines(listing, "block");
        let end = |panel: &&Element, name: &str| panel.number(name) as usize;
        let ends: Vec<(usize, usize)> =
            self.root.with("panel").iter().map(|panel| (end(panel, "data-first"), end(panel, "data-last"))).collect();
        let bare: Vec<String> = ends.iter().map(|&(first, last)| indices(first as u32, last as u32)).collect();
        let named = bare.iter().map(|name| format!("P{}", name.replace('-', "-P"))).collect();
        let bounds = ends.iter().map(|&(first, last)| indices(blocks[first][1], blocks[last][2])).collect();
        let head =
            overview.with("strong").into_iter().find(|one| one.text == "all blocks, to scale").expect("a head").number("y");
        let names = self.stand_over_columns(overview, head, &[named, bare]);
        let below = self.stand_over_columns(overview, head + 14.0, &[bounds]);
        assert!(below.is_multiple_of(names) || below == ends.len(), "indices of every {below}th panel, names of every {names}th");
    }

    /// One text at least in that line: those of one of these rows, each over its column; or every second, third and so on from the first,
    /// each from its column's left edge on and not as far as the next. The result is how many columns these are apart.
    fn stand_over_columns(&self, overview: &Element, y: f64, rows: &[Vec<String>]) -> usize {
        let is_text = |one: &&Element| one.name == "text" && one.number("y") == y && one.text != "all blocks, to scale";
        let texts: Vec<(&str, Area)> =
            overview.all().into_iter().filter(is_text).map(|one| (one.text.as_str(), self.style.text_area(one))).collect();
        let mut columns: Vec<Area> =
            ["even", "odd"].iter().flat_map(|class| overview.with(class)).map(Area::of_rectangle).collect();
        columns.sort_by(|a, b| a.left.total_cmp(&b.left));
        let place = |row: &Vec<String>| texts.iter().map(|(text, _)| row.iter().position(|own| own == text)).collect();
        let places: Option<Vec<usize>> = rows.iter().find_map(place);
        let places = places.unwrap_or_else(|| panic!("{texts:?} are no row of {rows:?}"));
        let step = places.get(1).map_or(columns.len(), |second| *second);
        let wanted: Vec<usize> = (0..columns.len()).step_by(step).collect();
        // The last one may have no room.
        let all = places == wanted || step > 1 && places == wanted[..wanted.len() - 1];
        assert!(!places.is_empty() && all && step <= 8, "{texts:?} of {rows:?}");
        for (at, (text, area)) in places.iter().zip(&texts) {
            let past = columns.get(at + step).map_or(columns[columns.len() - 1].right, |next| next.left);
            let (own, room) = (&columns[*at], Area { right: past, ..columns[*at] });
            assert!(room.holds(area) && own.meets(area), "{text} {area:?} {own:?}");
        }
        step
    }

    /// A diamond where the loop lies, and its index beside it.
    fn is_marked(&self, overview: &Element, spot: &Area, index: u32) {
        let marks = overview.with("one-whole");
        let mark = marks.iter().map(|one| Area::of_polygon(one)).find(|mark| mark.meets(spot)).expect("a mark");
        assert!(mark.width() >= 8.0 && mark.height() >= 8.0, "{mark:?}");
        let label = overview.with("small").into_iter().find(|one| {
            let area = self.style.text_area(one);
            let beside = (area.left - mark.right).abs().min((mark.left - area.right).abs());
            one.text == index.to_string() && area.top < spot.bottom && area.bottom > spot.top && beside < 12.0
        });
        assert!(label.is_some(), "no label of {index}");
    }

    fn everything_is_inside(&self) {
        let frame = self.frame();
        for (text, area) in self.texts() {
            assert!(frame.holds(&area) && !text.text.is_empty(), "{text:?} {area:?}");
            assert!(self.style.font_size(text) >= 10.0, "{text:?}");
        }
        for one in self.root.all() {
            match one.name.as_str() {
                "rect" if !one.is("paper") => assert!(frame.holds(&Area::of_rectangle(one)), "{one:?}"),
                "polygon" => assert!(frame.holds(&Area::of_polygon(one)), "{one:?}"),
                "line" => {
                    let (left, top) = (one.number("x1"), one.number("y1"));
                    let line = Area { left, top, right: one.number("x2"), bottom: one.number("y2") };
                    assert!(line.left <= line.right && line.top <= line.bottom && frame.holds(&line), "{one:?}");
                }
                _ => (),
            }
        }
    }

    fn texts_are_apart(&self) {
        let mut texts = self.texts();
        texts.sort_by(|a, b| a.1.top.total_cmp(&b.1.top));
        for (at, (text, area)) in texts.iter().enumerate() {
            // Behind the first that begins below this one, all do.
            let near = texts[at + 1..].iter().take_while(|(_, other)| other.top < area.bottom);
            for (other, other_area) in near {
                assert!(!area.meets(other_area), "{text:?} {area:?}\nmeets {other:?} {other_area:?}");
            }
        }
    }
}

/// A shape's title and the one text on it say the same as its numbers, and a single iteration has a mark that is seen.
fn is_labelled(shape: &Element, word: &str, texts: &[(&str, Area)], marks: &[Area]) {
    let [processor, number, from, to] = part_of(shape);
    let range = indices(from, to).replace('-', " to ");
    assert_eq!(shape.title(), format!("{word}: processor {processor}, loop {number}, {range}"));
    let area = Area::of_rectangle(shape);
    let on: Vec<&str> = texts.iter().filter(|(_, own)| area.meets(own)).map(|(text, _)| *text).collect();
    let full = format!("P{processor}: {}", indices(from, to));
    let short = word == "fused" && on == [indices(from, to)];
    assert!(on == [full.as_str()] || short, "{on:?} on {shape:?}");
    assert!(texts.iter().all(|(_, own)| area.holds(own) || !area.meets(own)), "a label leaves {shape:?}");
    let own: Vec<&Area> = marks.iter().filter(|mark| area.meets(mark)).collect();
    assert_eq!(own.len(), usize::from(from == to), "{shape:?}");
    assert!(own.iter().all(|mark| area.holds(mark) && mark.width() >= 8.0 && mark.height() >= 8.0), "{own:?}");
}

pub fn part_of(shape: &Element) -> Part {
    ["data-processor", "data-loop", "data-from", "data-to"].map(|name| shape.number(name) as u32)
}
