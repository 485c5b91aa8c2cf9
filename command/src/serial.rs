//! Refusal 9 in words: the two references that it names, the iterations that meet there, and the loop's statements with both marked.

use crate::explain::{spread, Explanation};
use crate::infix::reference;
use crate::names::Names;
use crate::records::{decode, records, Loop, Record, Reference};
use crate::spans::Field;
use crate::unmet::marked_loop;

/// The loop and the two references of a refusal 9, all by number, in a table.
pub struct Serial<'a> {
    table: &'a [u8],
    names: &'a Names,
    place: u64,
    pair: (usize, usize),
}

/// The loop and how two of its iterations meet: iteration i by `one` and iteration i + `apart` by `other`, which stores. `one` is the read
/// of the two, and where both store the higher one.
struct Meeting {
    decoded: Loop,
    one: Reference,
    other: Reference,
    apart: i64,
}

impl<'a> Serial<'a> {
    pub fn new(table: &'a [u8], names: &'a Names, place: u64, pair: (usize, usize)) -> Serial<'a> {
        Serial { table, names, place, pair }
    }

    /// The record of a reference of the loop, with its number: destinations are in loops and statements.
    fn record(&self, reference: usize) -> Option<(usize, Record<'a>)> {
        let rows = records(self.table).into_iter().enumerate();
        let loops = usize::try_from(self.place).ok()?;
        let mut opened = 0;
        let own = rows.skip_while(|(_, record)| {
            opened += usize::from(record.kind == 2);
            opened <= loops
        });
        own.filter(|(_, record)| matches!(record.kind, 2 | 3 | 7)).nth(reference)
    }

    /// Loop and references, these with their records and bytes.
    pub fn at(&self) -> String {
        let said = |reference: usize| match self.record(reference) {
            Some((number, record)) => format!("{reference} (record {number}, byte {})", record.at),
            None => reference.to_string(),
        };
        format!("loop {}, references {} and {}", self.place, said(self.pair.0), said(self.pair.1))
    }

    fn meeting(&self) -> Option<Meeting> {
        let decoded = decode(self.table).0.loops.into_iter().nth(usize::try_from(self.place).ok()?)?;
        let references = decoded.references();
        let (lower, higher) = (*references.get(self.pair.0)?, *references.get(self.pair.1)?);
        let (one, other) = if lower.stores { (higher, lower) } else { (lower, higher) };
        let apart = i64::from(one.offset) - i64::from(other.offset);
        Some(Meeting { decoded, one, other, apart })
    }

    /// The lowest iteration that is, by the first of the two, where another one stores. It is told where the higher reference stands: there
    /// whoever reads on from the loop's beginning has met both.
    pub fn explain(&self) -> Option<Explanation> {
        let (record, Record { kind, .. }) = self.record(self.pair.1)?;
        let meeting = self.meeting()?;
        let (lowest, _) = meeting.iterations();
        let element = format!("{}[{}]", self.names.of(usize::from(meeting.one.array)), lowest + i64::from(meeting.one.offset));
        let (does, too) = if meeting.one.stores { ("stores", " too") } else { ("reads", "") };
        let words = format!("iteration {lowest} {does} {element}, which iteration {} stores{too}", lowest + meeting.apart);
        let field = if kind == 3 { Field::Whole } else { Field::Reference };
        Some(Explanation { words, record, field })
    }

    /// The loop's statements with its bounds, and below them the two references marked, in two lines.
    pub fn marked(&self) -> Option<String> {
        let meeting = self.meeting()?;
        let number = usize::try_from(self.place).ok()?;
        let lines = marked_loop(number, &meeting.decoded, self.names, &[self.pair.0, self.pair.1])?;
        Some(format!("{lines} {}", meeting.words(self.names)))
    }
}

impl Meeting {
    /// The iterations i of the loop whose other iteration is inside the bounds too.
    fn iterations(&self) -> (i64, i64) {
        let (first, last) = (i64::from(self.decoded.first), i64::from(self.decoded.last));
        (first.max(first - self.apart), last.min(last - self.apart))
    }

    fn words(&self, names: &Names) -> String {
        let (from, to) = self.iterations();
        let when = if self.apart < 0 { "earlier" } else { "later" };
        let other = format!("the {when} iteration i{:+} stores", self.apart);
        let (by, with) = match self.one.stores {
            true => (format!("stores as {}", said(names, &self.one)), format!(" as {}", said(names, &self.other))),
            false => ("reads".to_string(), String::new()),
        };
        format!("iteration i {by} the element that {other}{with} (i = {})", spread(from, to))
    }
}

fn said(names: &Names, one: &Reference) -> String {
    reference(names, one.array, one.offset)
}

/// What refusal 9 is about.
pub fn explain_serial(table: &[u8], names: &Names, place: u64, pair: (usize, usize)) -> Option<Explanation> {
    Serial::new(table, names, place, pair).explain()
}
