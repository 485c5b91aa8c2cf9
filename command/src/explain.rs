//! What in a record meets a ground from 1 to 8. The ground and its place are the library's; here the record at that place is only put
//! into words, in the order of the library's tests. Where nothing in it fits the ground there are no words.

use crate::before::{a_kind, operands, Before};
use crate::infix::reference;
use crate::limits::*;
use crate::names::Names;
use crate::records::{a_loop, body_length, kind_name, number, offset, OPERATIONS};
use crate::spans::Field;
use crate::wording::{counted, ordinal};
use std::fmt::Display;
use std::ops::RangeInclusive;
use vempaldi::{Ground, Refusal, DECIDING_BYTES};

/// The words, and which field of which record they are about.
pub struct Explanation {
    pub words: String,
    pub record: usize,
    pub field: Field,
}

/// The record at a refusal's place, with what stands before it.
struct Place<'a> {
    table: &'a [u8],
    names: &'a Names,
    at: usize,
    before: Before,
}

type Found = Option<(String, Field)>;

pub fn explain(table: &[u8], names: &Names, refusal: &Refusal) -> Option<Explanation> {
    let at = usize::try_from(refusal.place).ok().filter(|at| *at <= table.len() && refusal.ground.has_byte())?;
    let place = Place { table, names, at, before: Before::of(table, at) };
    let (words, field) = match refusal.ground {
        Ground::Torn => place.torn(),
        Ground::Kind => place.kind(),
        Ground::Field => place.field(),
        Ground::Crowd => place.crowd(),
        Ground::Array => place.array(),
        Ground::Body => place.body(),
        Ground::Edge => place.edge(),
        Ground::Tail => place.tail(),
        _ => None,
    }?;
    // An unfinished body is told at the record that would follow it, and is about the last record that it has.
    let unfinished = refusal.ground == Ground::Body && matches!(table.get(at), Some(2 | 6 | 7));
    let record = if unfinished { place.before.records.saturating_sub(1) } else { place.before.records };
    Some(Explanation { words, record, field })
}

/// A value that is outside its range.
fn outside<T: Display + PartialOrd>(what: &str, value: T, allowed: &RangeInclusive<T>) -> Option<String> {
    let words = || format!("{what} {value}, allowed are {} to {}", allowed.start(), allowed.end());
    (!allowed.contains(&value)).then(words)
}

fn whole(words: String) -> Found {
    Some((words, Field::Whole))
}

impl Place<'_> {
    /// The kind and the bytes behind it, where all are there.
    fn record(&self) -> Option<(u8, &[u8])> {
        let kind = *self.table.get(self.at)?;
        Some((kind, self.table.get(self.at + 1..self.at + 1 + body_length(kind)?)?))
    }

    fn torn(&self) -> Found {
        match (self.table.len(), self.table.get(self.at)) {
            (0, _) => whole("the input is empty".to_string()),
            (length, None) => whole(format!("the input ends behind {}, with no end record", counted(length, "byte"))),
            (length, Some(&kind)) => {
                let all = 1 + body_length(kind)?;
                let there = length - self.at;
                let words = format!("{} record has {all} bytes, the input ends behind {there} of them", a_kind(kind));
                (there < all).then_some((words, Field::Whole))
            }
        }
    }

    fn kind(&self) -> Found {
        let kind = *self.table.get(self.at)?;
        match (kind, self.before.arrays.len(), self.before.loops) {
            (1, _, 1..) => whole(format!("an array behind loop {}, arrays come before all loops", self.before.open())),
            (3..=5, _, 0) => whole(format!("{} before any loop, items belong to a loop", a_kind(kind))),
            (7, _, 0) => whole("a statement before any loop, it is a further one of a loop".to_string()),
            (6, 0, _) => whole("the end comes before any array".to_string()),
            (6, _, 0) => whole("the end comes before any loop".to_string()),
            _ => whole(outside("kind", kind, &KINDS)?),
        }
    }

    fn field(&self) -> Found {
        let (kind, body) = self.record()?;
        match kind {
            1 => Some((outside("length", number(body), &LENGTHS)?, Field::Length)),
            2 => {
                let one = a_loop(body);
                self.bounds(one.first, one.last).or_else(|| self.offset(offset(&body[9..])))
            }
            3 | 7 => self.offset(offset(&body[1..])),
            5 => whole(outside("operation", body[0], &OPERATION_CODES)?),
            _ => None,
        }
    }

    fn bounds(&self, first: u32, last: u32) -> Found {
        let too_far = |what, value, field| Some((outside(what, value, &INDICES)?, field));
        too_far("first", first, Field::First).or_else(|| too_far("last", last, Field::Last)).or_else(|| {
            let words = || (format!("first {first} is above last {last}"), Field::First);
            (first > last).then(words)
        })
    }

    fn offset(&self, value: i16) -> Found {
        Some((outside("offset", value, &OFFSETS)?, Field::Offset))
    }

    fn crowd(&self) -> Found {
        let before = &self.before;
        let one_more = |most: usize, what: String| whole(format!("a {} {what}, at most {most} are allowed", ordinal(most + 1)));
        match *self.table.get(self.at)? {
            1 if before.arrays.len() == MOST_ARRAYS => one_more(MOST_ARRAYS, "array".to_string()),
            1 => {
                let length = number(self.record()?.1);
                let sum = before.elements().saturating_add(length);
                let words = format!("length {length} makes {sum} elements in all, at most {MOST_ELEMENTS} are allowed");
                (sum > MOST_ELEMENTS).then_some((words, Field::Length))
            }
            2 if before.loops == MOST_LOOPS => one_more(MOST_LOOPS, "loop".to_string()),
            7 if before.statements == MOST_STATEMENTS => {
                one_more(MOST_STATEMENTS, format!("statement of loop {}", before.open()))
            }
            3..=5 if before.items == MOST_ITEMS => one_more(MOST_ITEMS, format!("item of loop {}", before.open())),
            _ => None,
        }
    }

    /// The number of the array that a loop or a statement stores or that a read reads.
    fn named_array(&self) -> Option<u8> {
        match self.record()? {
            (2, body) => Some(body[8]),
            (3 | 7, body) => Some(body[0]),
            _ => None,
        }
    }

    fn array(&self) -> Found {
        let (number, count) = (self.named_array()?, self.before.arrays.len());
        let there = match count {
            0 => "there is no array yet".to_string(),
            1 => "there is array 0 alone".to_string(),
            _ => format!("there are arrays 0 to {}", count - 1),
        };
        (usize::from(number) >= count).then_some((format!("array {number}, {there}"), Field::Array))
    }

    fn body(&self) -> Found {
        let before = &self.before;
        match *self.table.get(self.at)? {
            2 | 6 | 7 => self.unfinished(),
            3 | 4 if before.waiting == MOST_WAITING => {
                whole(format!("a {} waiting number, at most {MOST_WAITING} may wait", ordinal(MOST_WAITING + 1)))
            }
            5 => {
                let (_, body) = self.record()?;
                let (sign, needed) = (OPERATIONS.get(usize::from(body[0]).checked_sub(1)?)?, operands(body[0]));
                let there = if before.waiting == 0 { "none" } else { "one" };
                let words = format!("'{sign}' takes {}, {there} is there", counted(needed, "waiting number"));
                (before.waiting < needed).then_some((words, Field::Whole))
            }
            _ => None,
        }
    }

    fn unfinished(&self) -> Found {
        let body = self.before.open_body();
        match (self.before.own_items, self.before.waiting) {
            (0, _) => whole(format!("{body} is empty, one number must be left")),
            (_, 1) => None,
            (_, left) => whole(format!("{body} leaves {left} numbers, one must be left")),
        }
    }

    fn edge(&self) -> Found {
        let (array, offset, (first, last), field) = match self.record()? {
            (2, body) => {
                let one = a_loop(body);
                (body[8], offset(&body[9..]), (one.first, one.last), Field::Reference)
            }
            (3, body) => (body[0], offset(&body[1..]), self.before.bounds, Field::Whole),
            (7, body) => (body[0], offset(&body[1..]), self.before.bounds, Field::Reference),
            _ => return None,
        };
        let length = *self.before.arrays.get(usize::from(array))?;
        let (lowest, highest) = (i64::from(first) + i64::from(offset), i64::from(last) + i64::from(offset));
        let reached = if first == last { format!("element {lowest}") } else { format!("elements {lowest} to {highest}") };
        let (said, indices) = (reference(self.names, array, offset), spread(first.into(), last.into()));
        let name = self.names.of(usize::from(array));
        let words = || format!("{said} reaches {reached} for i = {indices}, {name} has {}", spread(0, i64::from(length) - 1));
        (lowest < 0 || highest >= i64::from(length)).then(|| (words(), field))
    }

    fn tail(&self) -> Found {
        let count = self.table.len() - self.at;
        // A file is read no further than what decides.
        let least = if self.table.len() >= DECIDING_BYTES { "at least " } else { "" };
        let follow = if count == 1 && least.is_empty() { "follows" } else { "follow" };
        whole(format!("the end record is byte {}, {least}{} {follow} it", self.at.checked_sub(1)?, counted(count, "byte")))
    }
}

/// `2 to 10`, or the only one.
pub fn spread(from: i64, to: i64) -> String {
    if from == to {
        from.to_string()
    } else {
        format!("{from} to {to}")
    }
}

/// The record whose kind byte stands at a place.
pub fn record_at(table: &[u8], place: usize) -> String {
    let before = Before::of(table, place).records;
    match table.get(place) {
        Some(&kind) => format!("record {before} ({}), byte {place}", kind_name(kind)),
        None => format!("record {before} (absent), byte {place}, the end of the input"),
    }
}
