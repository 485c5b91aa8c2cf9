//! Refusals in words: the ground and its place as the library told them, what in the table or in the call meets the ground, and for a
//! text the line with a mark below.

use crate::by_hand;
use crate::explain::{explain, record_at, Explanation};
use crate::input::{first_word, Input};
use crate::parse::Told;
use crate::serial::{explain_serial, Serial};
use crate::short::short;
use crate::unmet::Unmet;
use crate::wording::{counted, quoted};
use vempaldi::{facts, Ground, Refusal, Settings, LONGEST_LINE, MOST_PROCESSORS};

/// What was asked beside the table, which the words of 10, 11, 12, 17, 19 and 20 are about.
#[derive(Clone, Copy, Default)]
pub struct Asked {
    pub settings: Option<Settings>,
    /// The length of the memory.
    pub numbers: Option<usize>,
}

impl Asked {
    pub fn plan(settings: Settings) -> Asked {
        Asked { settings: Some(settings), numbers: None }
    }
}

/// The whole of it: the file, for a text with line and column, the message, and a line with a mark below where there is one.
pub fn describe(input: &Input, refusal: &Refusal, asked: &Asked) -> String {
    let place = text_place(input, refusal);
    let head = place.as_ref().map_or(input.name.clone(), |told| format!("{}:{}:{}", input.name, told.line, told.column));
    let shown = match (refusal.references(), unmet(input, refusal, asked)) {
        (Some(pair), _) => Serial::new(&input.table, &input.names, refusal.place, pair).marked(),
        (_, Some(unmet)) => unmet.marked(),
        _ => place.map(|told| told.shown),
    };
    let shown = shown.map_or(String::new(), |lines| format!("\n{lines}"));
    format!("{head}: {}{shown}", message(input, refusal, asked))
}

/// Where in a text the thing stands that a refusal is about. Only grounds that are met in the table have such a place.
pub fn text_place(input: &Input, refusal: &Refusal) -> Option<Told> {
    let made = input.made.as_ref()?;
    let Explanation { record, field, .. } = explanation(input, refusal)?;
    Some(made.place(record, field))
}

fn explanation(input: &Input, refusal: &Refusal) -> Option<Explanation> {
    match refusal.references() {
        Some(pair) => explain_serial(&input.table, &input.names, refusal.place, pair),
        None => explain(&input.table, &input.names, refusal),
    }
}

/// What refusal 20 is about.
fn unmet<'a>(input: &'a Input, refusal: &Refusal, asked: &Asked) -> Option<Unmet<'a>> {
    Unmet::new(&input.table, &input.names, &asked.settings?, refusal.loops()?)
}

/// In one line: number, word, record and byte, and what is wrong.
pub fn message(input: &Input, refusal: &Refusal, asked: &Asked) -> String {
    let ground = refusal.ground;
    let place = match (ground, refusal.references()) {
        _ if ground == Ground::Unmet => format!(" from loop {} to loop {}", refusal.place, refusal.named[0]),
        (_, Some(pair)) => format!(" at {}", Serial::new(&input.table, &input.names, refusal.place, pair).at()),
        (Ground::Tail, _) => format!(" at byte {}", refusal.place),
        _ if ground.has_byte() => format!(" at {}", record_at(&input.table, refusal.place as usize)),
        _ => String::new(),
    };
    let words = match ground {
        Ground::Processors => asked.settings.map(|one| format!("P is {}, allowed are 1 to {MOST_PROCESSORS}", one.processors)),
        Ground::Line => asked.settings.map(|one| format!("W is {}, allowed are 1 to {LONGEST_LINE}", one.line)),
        Ground::Plan => asked.settings.and_then(|settings| by_hand::wrong_form(&input.table, &settings)),
        Ground::Unmet => unmet(input, refusal, asked).and_then(|unmet| unmet.words()),
        Ground::Short => asked.settings.and_then(|settings| short(&input.table, settings)),
        Ground::Memory => asked.numbers.and_then(|numbers| lengths(&input.table, numbers)),
        _ => explanation(input, refusal).map(|explanation| explanation.words),
    };
    let words = words.unwrap_or_else(|| ground.text().to_string());
    let more = looks_like_text(&input.table, refusal).unwrap_or_default();
    format!("refused {} {}{place}: {words}{more}", ground.number(), ground.word())
}

/// A refusal that no single table has, in one line: that of joining.
pub fn line(refusal: &Refusal, words: &str) -> String {
    format!("refused {} {}: {words}", refusal.ground.number(), refusal.ground.word())
}

fn lengths(table: &[u8], numbers: usize) -> Option<String> {
    let elements = facts(table).ok()?.elements as usize;
    Some(format!("the memory has {}, the table {}", counted(numbers, "number"), counted(elements, "element")))
}

/// A hint where what is no table is printable: it may be meant as a text.
fn looks_like_text(table: &[u8], refusal: &Refusal) -> Option<String> {
    let printable = |byte: &u8| !byte.is_ascii_control() || b"\t\n\r".contains(byte);
    if refusal.ground != Ground::Kind || refusal.place != 0 || !table.iter().all(printable) {
        return None;
    }
    let begins = first_word(table).map(|word| format!("begins with {} and not with", quoted(&word)));
    Some(format!(" (this looks like text, but {} 'array' or 'loop')", begins.as_deref().unwrap_or("has no")))
}
