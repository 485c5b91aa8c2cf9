//! How wide a text is, about. The reader's sans-serif is not known, so a wide one is assumed: the widths are those of DejaVu Sans, or a
//! little more.

/// A class of texts: the name that the style knows it by.
pub struct Font {
    pub class: &'static str,
    pub size: f64,
    pub bold: bool,
    pub colour: &'static str,
}

impl Font {
    pub fn style(&self) -> String {
        let weight = if self.bold { "bold" } else { "normal" };
        format!(".{} {{ font-size: {}px; font-weight: {weight}; fill: {}; }}\n", self.class, self.size, self.colour)
    }
}

/// How much wider a bold letter is.
const BOLD: f64 = 1.15;

pub fn width(text: &str, font: &Font) -> f64 {
    let weight = if font.bold { BOLD } else { 1.0 };
    text.chars().map(letter).sum::<f64>() * font.size * weight
}

/// In shares of the font's size.
fn letter(letter: char) -> f64 {
    match letter {
        ' ' | '.' | ',' | ':' | ';' | '\'' | '|' | '!' | '/' | '-' | '(' | ')' | '[' | ']' => 0.4,
        'f' | 'i' | 'j' | 'l' | 'r' | 't' | 'I' | 'J' => 0.42,
        '*' | '_' => 0.5,
        'a'..='l' | 'n'..='v' | 'x'..='z' | '0'..='9' => 0.64,
        'A'..='L' | 'N'..='V' | 'X'..='Z' => 0.79,
        '+' | '=' | '<' | '>' => 0.84,
        _ => 1.0,
    }
}
