//! Where a table's records and fields stand in the text that it was made from, and a line of that text with a mark below.

use std::ops::Range;

/// A piece of a text: its line, counted from 1, and its bytes in that line.
#[derive(Clone, Debug, Default, PartialEq, Eq)]
pub struct Span {
    pub line: usize,
    pub bytes: Range<usize>,
}

/// What of a record a refusal is about.
#[derive(Clone, Copy, Debug, PartialEq, Eq)]
pub enum Field {
    /// No field more than the others.
    Whole,
    Length,
    First,
    Last,
    /// An array and an offset together.
    Reference,
    Array,
    Offset,
}

/// The spans of one record: of the word that makes it, and of its fields where they have words of their own.
#[derive(Clone, Debug, Default)]
pub struct Spot {
    pub whole: Span,
    pub fields: Vec<(Field, Span)>,
}

impl Spot {
    pub fn span(&self, field: Field) -> &Span {
        self.fields.iter().find(|(own, _)| *own == field).map_or(&self.whole, |(_, span)| span)
    }
}

/// A longer line is shown in part.
const MOST: usize = 100;
/// How much of a long line is shown before what is marked.
const BEFORE: usize = 50;

/// The column of a byte of a line, counted from 1 in characters.
pub fn column(line: &str, byte: usize) -> usize {
    line[..byte].chars().count() + 1
}

/// The line and below it a mark, in two lines; characters that a terminal would obey are shown as blanks.
pub fn marked(line: &str, bytes: &Range<usize>) -> String {
    let shown: Vec<char> = line.trim_end().chars().map(|one| if one.is_control() { ' ' } else { one }).collect();
    let at = column(line, bytes.start) - 1;
    let count = line[bytes.clone()].chars().count().clamp(1, MOST - BEFORE);
    let from = if shown.len() > MOST { at.saturating_sub(BEFORE) } else { 0 };
    let to = shown.len().min(from + MOST);
    let part: String = shown[from.min(to)..to].iter().collect();
    let (front, back) = (if from > 0 { ".." } else { "" }, if to < shown.len() { ".." } else { "" });
    format!("  {front}{part}{back}\n  {}{}", " ".repeat(front.len() + at - from), "^".repeat(count))
}
