//! Colours and letters. Blue and orange are told apart by every kind of eye, and what is peeled stands in rows of its own besides.

use crate::svg::letters::Font;

pub const TITLE: Font = Font { class: "title", size: 17.0, bold: true, colour: "#222" };
pub const STRONG: Font = Font { class: "strong", size: 12.0, bold: true, colour: "#222" };
pub const PLAIN: Font = Font { class: "plain", size: 12.0, bold: false, colour: "#222" };
pub const SMALL: Font = Font { class: "small", size: 11.0, bold: false, colour: "#4a4a4a" };
pub const SAID: Font = Font { class: "said", size: 12.0, bold: true, colour: "#a01c1c" };
pub const IN_FUSED: Font = Font { class: "in-fused", size: 11.0, bold: false, colour: "#fff" };
pub const IN_PEELED: Font = Font { class: "in-peeled", size: 11.0, bold: false, colour: "#2a1700" };

const SHAPES: &str = "\
text { font-family: sans-serif; }
.mid { text-anchor: middle; }
.paper { fill: #fff; }
.even { fill: #f1f3f6; }
.odd { fill: #e4e8ee; }
.own { stroke: #aab; stroke-width: 1; }
.end { stroke: #8891a3; stroke-width: 1; stroke-dasharray: 3 3; }
.ruler { stroke: #4a4a4a; stroke-width: 1; }
.barrier { stroke: #a01c1c; stroke-width: 4; }
.said { stroke: #eef0f4; stroke-width: 4px; paint-order: stroke; }
.spot { fill-opacity: 0; }
.fused, .whole { fill: #2f6db3; stroke: #fff; }
.peeled { fill: #e8891c; stroke: #fff; }
.later { fill: none; stroke: #b9670a; stroke-width: 1.2; stroke-dasharray: 3 2; }
.one-fused { fill: #fff; }
.one-peeled { fill: #2a1700; }
.one-whole { fill: #2f6db3; }
";

pub fn style() -> String {
    let fonts = [TITLE, STRONG, PLAIN, SMALL, SAID, IN_FUSED, IN_PEELED];
    fonts.iter().map(Font::style).collect::<String>() + SHAPES
}
