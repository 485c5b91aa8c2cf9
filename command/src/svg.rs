//! The few shapes of a picture.

pub mod letters;

use letters::{width, Font};

/// On both sides of a text that has others beside it.
const APART: f64 = 2.0;

#[derive(Default)]
pub struct Picture {
    body: String,
}

/// A frame: left, top, width, height.
#[derive(Clone, Copy)]
pub struct Frame {
    pub x: f64,
    pub y: f64,
    pub width: f64,
    pub height: f64,
}

impl Frame {
    pub fn over((x, width): (f64, f64), y: f64, height: f64) -> Frame {
        Frame { x, y, width, height }
    }

    fn attributes(&self) -> String {
        format!("x='{:.1}' y='{:.1}' width='{:.1}' height='{:.1}'", self.x, self.y, self.width, self.height)
    }
}

impl Picture {
    pub fn rectangle(&mut self, frame: Frame, class: &str) {
        self.body += &format!("<rect class='{class}' {}/>\n", frame.attributes());
    }

    /// Begins a group; what it is stands in its attributes for a program.
    pub fn open(&mut self, class: &str, data: &[(&str, u32)]) {
        self.body += &format!("<g class='{class}'{}>\n", attributes(data));
    }

    pub fn close(&mut self) {
        self.body += "</g>\n";
    }

    /// A rectangle that tells what it is when the pointer rests on it, and in its attributes for a program.
    pub fn part(&mut self, frame: Frame, class: &str, data: &[(&str, u32)], tells: &str) {
        let shape = format!("{} rx='2'{}", frame.attributes(), attributes(data));
        self.body += &format!("<rect class='{class}' {shape}><title>{}</title></rect>\n", escape(tells));
    }

    /// A diamond around a point.
    pub fn diamond(&mut self, (x, y): (f64, f64), half: f64, class: &str) {
        let (left, right, top, bottom) = (x - half, x + half, y - half, y + half);
        let points = format!("{x:.1},{top:.1} {right:.1},{y:.1} {x:.1},{bottom:.1} {left:.1},{y:.1}");
        self.body += &format!("<polygon class='{class}' points='{points}'/>\n");
    }

    pub fn line(&mut self, from: (f64, f64), to: (f64, f64), class: &str) {
        let ends = format!("x1='{:.1}' y1='{:.1}' x2='{:.1}' y2='{:.1}'", from.0, from.1, to.0, to.1);
        self.body += &format!("<line class='{class}' {ends}/>\n");
    }

    /// An upright line that stands for an index, which its attributes tell a program.
    pub fn tick(&mut self, x: f64, (top, bottom): (f64, f64), class: &str, index: u32) {
        let ends = format!("x1='{x:.1}' y1='{top:.1}' x2='{x:.1}' y2='{bottom:.1}'");
        self.body += &format!("<line class='{class}' {ends}{}/>\n", attributes(&[("index", index)]));
    }

    pub fn text(&mut self, x: f64, y: f64, font: &Font, said: &str) {
        self.body += &format!("<text class='{}' x='{x:.1}' y='{y:.1}'>{}</text>\n", font.class, escape(said));
    }

    pub fn centred(&mut self, (x, room): (f64, f64), y: f64, font: &Font, said: &str) {
        let x = x + room / 2.0;
        self.body += &format!("<text class='{} mid' x='{x:.1}' y='{y:.1}'>{}</text>\n", font.class, escape(said));
    }

    /// The first of the rows whose texts all fit, each in the middle of its room. Where none does, every second text, every third and so
    /// on, each from the left edge of its own room on into those that stay without; the last one is left out where it has no room. Only
    /// multiples of `every` are asked for, so that a row can keep to the one above it. The result is how many rooms the texts are apart.
    pub fn spread(&mut self, rooms: &[(f64, f64)], every: usize, y: f64, font: &Font, rows: &[Vec<String>]) -> usize {
        let fits = |room: &(f64, f64), text: &str| width(text, font) + 2.0 * APART <= room.1;
        let all_fit = |&(step, row): &(usize, &Vec<String>)| {
            let whole = rooms.chunks_exact(step).map(together);
            whole.zip(row.iter().step_by(step)).all(|(room, text)| fits(&room, text))
        };
        let mut choices = (1..=rooms.len()).flat_map(|times| rows.iter().map(move |row| (times * every, row)));
        let Some((step, row)) = choices.find(all_fit) else { return every };
        let texts = rooms.chunks(step).map(together).zip(row.iter().step_by(step));
        for (room, text) in texts.filter(|(room, text)| fits(room, text)) {
            match step {
                1 => self.centred(room, y, font, text),
                _ => self.text(room.0 + APART, y, font, text),
            }
        }
        step
    }

    /// As much of a text as the room has, with dots behind where some is missing; all of it when the pointer rests on it.
    pub fn cut(&mut self, (x, room): (f64, f64), y: f64, font: &Font, said: &str) {
        let place = format!("class='{}' x='{x:.1}' y='{y:.1}'", font.class);
        let shown = shortened(said, font, room);
        self.body += &format!("<text {place}><title>{}</title>{}</text>\n", escape(said), escape(&shown));
    }

    pub fn finish(self, size: (f64, f64), title: &str, style: &str) -> String {
        let (width, height) = (size.0.ceil(), size.1.ceil());
        let size = format!("width='{width}' height='{height}' viewBox='0 0 {width} {height}'");
        let head = format!("<svg xmlns='http://www.w3.org/2000/svg' {size} role='img'>\n<title>{}</title>\n", escape(title));
        let paper = format!("<rect class='paper' width='{width}' height='{height}'/>\n");
        format!("{head}<style>\n{style}</style>\n{paper}{}</svg>\n", self.body)
    }
}

/// Rooms side by side as one.
fn together(rooms: &[(f64, f64)]) -> (f64, f64) {
    let (first, last) = (rooms[0], rooms[rooms.len() - 1]);
    (first.0, last.0 + last.1 - first.0)
}

fn attributes(data: &[(&str, u32)]) -> String {
    data.iter().map(|(name, value)| format!(" data-{name}='{value}'")).collect()
}

/// Whole words where one at least fits, else letters.
pub fn shortened(said: &str, font: &Font, room: f64) -> String {
    if width(said, font) <= room {
        return said.to_string();
    }
    let words = said.match_indices(' ').rev().map(|(at, _)| format!("{} ..", &said[..at]));
    let letters = said.char_indices().rev().map(|(at, _)| format!("{}..", &said[..at]));
    words.chain(letters).find(|text| width(text, font) <= room).unwrap_or_default()
}

/// Characters that no XML may have stand as the replacement character.
fn escape(text: &str) -> String {
    let mut escaped = String::new();
    for letter in text.chars() {
        match letter {
            '&' => escaped += "&amp;",
            '<' => escaped += "&lt;",
            '>' => escaped += "&gt;",
            '\'' => escaped += "&apos;",
            '"' => escaped += "&quot;",
            '\0'..='\u{1f}' | '\u{7f}'..='\u{9f}' | '\u{fffe}' | '\u{ffff}' => escaped.push('\u{fffd}'),
            _ => escaped.push(letter),
        }
    }
    escaped
}
