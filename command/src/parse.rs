//! The bytes of a table from its text, and where in the text each of its records and fields stands.

use crate::limits::{INDICES, LENGTHS, OFFSETS};
use crate::names::Names;
use crate::numbers::{looks_like_number, no_item};
use crate::pieces::Piece;
use crate::records::OPERATIONS;
use crate::spans::{column, marked, Field, Span, Spot};
use crate::wording::quoted;
use std::fmt;
use std::ops::{Range, RangeInclusive};

/// What is wrong with a text, and where: line and column count from 1, columns in characters.
#[derive(Debug)]
pub struct TextError {
    pub line: usize,
    pub column: usize,
    pub token: String,
    pub what: String,
    /// The line with a mark below the token.
    shown: String,
}

impl fmt::Display for TextError {
    fn fmt(&self, out: &mut fmt::Formatter<'_>) -> fmt::Result {
        write!(out, "{}:{}: {}\n{}", self.line, self.column, self.what, self.shown)
    }
}

/// The bytes, the arrays' names, and for each record where it stands in the text.
pub struct Made {
    pub bytes: Vec<u8>,
    pub names: Names,
    spots: Vec<Spot>,
    lines: Vec<String>,
}

/// A place in a text as it is told: line, column, the token, and the line with a mark below.
pub struct Told {
    pub line: usize,
    pub column: usize,
    pub token: String,
    pub shown: String,
}

impl Made {
    /// Where a record's field stands in the text.
    pub fn place(&self, record: usize, field: Field) -> Told {
        let nowhere = Span { line: 1, bytes: 0..0 };
        let span = self.spots.get(record).map_or(&nowhere, |spot| spot.span(field));
        let line = self.lines.get(span.line - 1).map_or("", String::as_str);
        Told {
            line: span.line,
            column: column(line, span.bytes.start),
            token: line[span.bytes.clone()].to_string(),
            shown: marked(line, &span.bytes),
        }
    }
}

/// What is wrong, and with which bytes of the line.
struct Wrong {
    bytes: Range<usize>,
    what: String,
}

fn wrong(piece: &Piece, what: impl Into<String>) -> Wrong {
    Wrong { bytes: piece.bytes(), what: what.into() }
}

/// The table of a text. Its numbers are only asked to fit their fields; whether the table is accepted is the library's to say.
pub fn make(text: &str) -> Result<Made, TextError> {
    let made = Made { bytes: Vec::new(), names: Names::default(), spots: Vec::new(), lines: Vec::new() };
    let mut maker = Maker { in_loop: false, made };
    for line in text.lines() {
        maker.made.lines.push(line.to_string());
        maker.take(Piece::of_line(line)).map_err(|wrong| text_error(maker.made.lines.len(), line, wrong))?;
    }
    maker.end();
    Ok(maker.made)
}

fn text_error(number: usize, line: &str, wrong: Wrong) -> TextError {
    TextError {
        line: number,
        column: column(line, wrong.bytes.start),
        token: line[wrong.bytes.clone()].to_string(),
        what: wrong.what,
        shown: marked(line, &wrong.bytes),
    }
}

struct Maker {
    in_loop: bool,
    made: Made,
}

/// The three bytes of an array's number and an offset, and where both stand.
struct Reference {
    encoded: [u8; 3],
    array: Range<usize>,
    offset: Range<usize>,
}

const LOOP_FORM: &str = "a loop is 'loop FIRST LAST -> NAME[i+OFFSET]: ITEMS'";
const STATEMENT_FORM: &str = "a further statement is '-> NAME[i+OFFSET]: ITEMS' in a line of its own";
const ARRAY_FORM: &str = "an array is 'array NAME LENGTH'";

impl Maker {
    fn take(&mut self, line: Piece) -> Result<(), Wrong> {
        let Some(first) = line.words().next() else { return Ok(()) };
        match first.text {
            "array" => self.array(&first, line.behind(&first)),
            "loop" => self.a_loop(&first, line.behind(&first)),
            word if word.starts_with("->") => {
                let arrow = first.part(0..2);
                self.statement(&arrow, line.behind(&arrow))
            }
            _ if self.in_loop => self.items(line),
            word => Err(wrong(&first, format!("{} where a line begins with 'array' or 'loop'", quoted(word)))),
        }
    }

    fn record(&mut self, bytes: &[u8], word: &Piece, fields: &[(Field, Range<usize>)]) {
        let line = self.made.lines.len();
        let span = |bytes: &Range<usize>| Span { line, bytes: bytes.clone() };
        let fields = fields.iter().map(|(field, bytes)| (*field, span(bytes))).collect();
        self.made.spots.push(Spot { whole: span(&word.bytes()), fields });
        self.made.bytes.extend_from_slice(bytes);
    }

    /// The end has no word of its own: it stands where the last record does.
    fn end(&mut self) {
        let whole = self.made.spots.last().map_or(Span { line: 1, bytes: 0..0 }, |spot| spot.whole.clone());
        self.made.spots.push(Spot { whole, fields: Vec::new() });
        self.made.bytes.push(6);
    }

    fn array(&mut self, keyword: &Piece, said: Piece) -> Result<(), Wrong> {
        let words: Vec<Piece> = said.words().collect();
        let [name, length] = words[..] else { return Err(wrong(words.get(2).unwrap_or(keyword), ARRAY_FORM)) };
        if !is_name(name.text) {
            return Err(wrong(&name, format!("{} is not a name: a letter, then letters, digits or _", quoted(name.text))));
        }
        if self.made.names.0.iter().any(|known| known == name.text) {
            return Err(wrong(&name, format!("there is an array {} already", name.text)));
        }
        let value = number(&length, "a length", &LENGTHS)?;
        self.made.names.0.push(name.text.to_string());
        self.record(&[&[1][..], &value.to_le_bytes()].concat(), keyword, &[(Field::Length, length.bytes())]);
        Ok(())
    }

    fn a_loop(&mut self, keyword: &Piece, said: Piece) -> Result<(), Wrong> {
        let (head, body) = said.split(":").ok_or_else(|| wrong(keyword, format!("a ':' is missing: {LOOP_FORM}")))?;
        let (bounds, store) = head.split("->").ok_or_else(|| wrong(keyword, format!("a '->' is missing: {LOOP_FORM}")))?;
        let words: Vec<Piece> = bounds.words().collect();
        let [first, last] = words[..] else { return Err(wrong(words.get(2).unwrap_or(keyword), LOOP_FORM)) };
        let bounds = [number(&first, "an index", &INDICES)?, number(&last, "an index", &INDICES)?];
        let store = store.trimmed();
        let stored = self.stored(&store)?;
        let fields = [
            (Field::First, first.bytes()),
            (Field::Last, last.bytes()),
            (Field::Reference, store.bytes()),
            (Field::Array, stored.array),
            (Field::Offset, stored.offset),
        ];
        let encoded = [&[2][..], &bounds[0].to_le_bytes(), &bounds[1].to_le_bytes(), &stored.encoded].concat();
        self.record(&encoded, keyword, &fields);
        self.in_loop = true;
        self.items(body)
    }

    /// Whether there is a loop before it is the library's to say.
    fn statement(&mut self, arrow: &Piece, said: Piece) -> Result<(), Wrong> {
        let (store, body) = said.split(":").ok_or_else(|| wrong(arrow, format!("a ':' is missing: {STATEMENT_FORM}")))?;
        let store = store.trimmed();
        let stored = self.stored(&store)?;
        let fields = [(Field::Reference, store.bytes()), (Field::Array, stored.array), (Field::Offset, stored.offset)];
        self.record(&[&[7][..], &stored.encoded].concat(), arrow, &fields);
        self.in_loop = true;
        self.items(body)
    }

    fn stored(&self, store: &Piece) -> Result<Reference, Wrong> {
        self.reference(store, "not what a statement stores: NAME[i], NAME[i+3] or NAME[i-3]")
    }

    fn items(&mut self, said: Piece) -> Result<(), Wrong> {
        said.words().try_for_each(|word| self.item(&word))
    }

    fn item(&mut self, word: &Piece) -> Result<(), Wrong> {
        if let Some(code) = OPERATIONS.iter().position(|name| *name == word.text) {
            self.record(&[5, code as u8 + 1], word, &[]);
        } else if word.text.starts_with("->") {
            return Err(wrong(word, format!("{} is no item: {STATEMENT_FORM}", quoted(word.text))));
        } else if looks_like_number(word.text) {
            // A sign would be taken by `parse`.
            let value = word.text.parse().ok().filter(|_| !word.text.starts_with('+'));
            let value: u32 = value.ok_or_else(|| wrong(word, no_item(word.text, &self.made.names.of(0))))?;
            self.record(&[&[4][..], &value.to_le_bytes()].concat(), word, &[]);
        } else {
            let read = self.reference(word, "no item: NAME[i+OFFSET], a whole number, or one of + - * / neg")?;
            let fields = [(Field::Array, read.array), (Field::Offset, read.offset)];
            self.record(&[&[3][..], &read.encoded].concat(), word, &fields);
        }
        Ok(())
    }

    fn reference(&self, word: &Piece, what: &str) -> Result<Reference, Wrong> {
        let no_form = || wrong(word, format!("{} is {what}", quoted(word.text)));
        let open = word.text.find("[i").filter(|_| word.text.ends_with(']')).ok_or_else(no_form)?;
        let (name, offset) = (word.part(0..open), word.part(open + 2..word.text.len() - 1));
        let known = &self.made.names.0;
        let array = known.iter().position(|one| one == name.text).ok_or_else(|| wrong(&name, no_array(name.text, known)))?;
        let value = offset_value(&offset)?;
        let [low, high] = value.to_le_bytes();
        // Where no offset is written, the whole reference stands for it.
        let at = if offset.text.is_empty() { word.bytes() } else { offset.bytes() };
        Ok(Reference { encoded: [u8::try_from(array).unwrap_or(u8::MAX), low, high], array: name.bytes(), offset: at })
    }
}

fn offset_value(offset: &Piece) -> Result<i16, Wrong> {
    let signed = offset.text.starts_with(['+', '-']);
    let too_large = |text: &str| format!("{} is not an offset, {} to {}", quoted(text), OFFSETS.start(), OFFSETS.end());
    match offset.text {
        "" => Ok(0),
        text if signed => text.parse().map_err(|_| wrong(offset, too_large(text))),
        text => Err(wrong(offset, format!("{} is not an offset: +3 or -3", quoted(text)))),
    }
}

fn no_array(name: &str, known: &[String]) -> String {
    match known {
        [] => format!("no array {}; there is none yet", quoted(name)),
        [one] => format!("no array {}; there is {one}", quoted(name)),
        _ => format!("no array {}; there are {}", quoted(name), known.join(", ")),
    }
}

/// A length or an index. The library says whether it is in its range; here it only has to fit its four bytes.
fn number(word: &Piece, what: &str, allowed: &RangeInclusive<u32>) -> Result<u32, Wrong> {
    let hint = if word.text.starts_with('-') { " (it is not negative)" } else { "" };
    let no_number = || format!("{} is not {what}, {} to {}{hint}", quoted(word.text), allowed.start(), allowed.end());
    word.text.parse().map_err(|_| wrong(word, no_number()))
}

fn is_name(word: &str) -> bool {
    let inner = |one: char| one.is_ascii_alphanumeric() || one == '_';
    word.starts_with(|first: char| first.is_ascii_alphabetic()) && word.chars().all(inner)
}
