//! The records of a table, and the table that an accepted row of them is. What the library tells of an accepted table is asked of it
//! (`vempaldi::facts`); this is for what it does not tell: the items of a body, and the records of a table that it refuses.

use vempaldi::BODY_LENGTHS;

/// A whole record: where its kind byte stands, the kind, and the bytes behind it.
pub struct Record<'a> {
    pub at: usize,
    pub kind: u8,
    pub body: &'a [u8],
}

#[derive(Clone, Debug, Default, PartialEq, Eq)]
pub struct Table {
    pub arrays: Vec<u32>,
    pub loops: Vec<Loop>,
}

#[derive(Clone, Debug, PartialEq, Eq)]
pub struct Loop {
    pub first: u32,
    pub last: u32,
    /// In the order in which an iteration runs them: that of the loop's own record, then those of records of kind 7.
    pub statements: Vec<Statement>,
}

/// What is stored, and the body.
#[derive(Clone, Debug, PartialEq, Eq)]
pub struct Statement {
    pub array: u8,
    pub offset: i16,
    pub items: Vec<Item>,
}

#[derive(Clone, Copy, Debug, PartialEq, Eq)]
pub enum Item {
    Read(u8, i16),
    Constant(u32),
    /// The code, 1 to 5.
    Operation(u8),
}

/// How operations are written in the text, by code from 1 on.
pub const OPERATIONS: [&str; 5] = ["+", "-", "*", "/", "neg"];

/// A destination or a read.
#[derive(Clone, Copy, Debug, PartialEq, Eq)]
pub struct Reference {
    /// Its place among the references of its loop, from 0 on in byte order: 9 names references by it.
    pub number: usize,
    pub array: u8,
    pub offset: i16,
    pub stores: bool,
}

impl Loop {
    /// All references in byte order.
    pub fn references(&self) -> Vec<Reference> {
        let all = self.statements.iter().flat_map(Statement::references).enumerate();
        all.map(|(number, (array, offset, stores))| Reference { number, array, offset, stores }).collect()
    }
}

impl Statement {
    /// Array and offset of the destination and then of each read, and whether it stores.
    fn references(&self) -> impl Iterator<Item = (u8, i16, bool)> + '_ {
        let reads = self.items.iter().filter_map(|item| match *item {
            Item::Read(array, offset) => Some((array, offset, false)),
            _ => None,
        });
        [(self.array, self.offset, true)].into_iter().chain(reads)
    }

    /// Its record's bytes, which are also the last ones of a loop's, and no item yet.
    fn of_body(body: &[u8]) -> Statement {
        Statement { array: body[0], offset: offset(&body[1..]), items: Vec::new() }
    }
}

/// How many bytes follow the kind byte.
pub fn body_length(kind: u8) -> Option<usize> {
    BODY_LENGTHS.get(usize::from(kind)).copied().filter(|_| kind > 0)
}

pub fn kind_name(kind: u8) -> &'static str {
    match kind {
        1 => "array",
        2 => "loop",
        3 => "read",
        4 => "constant",
        5 => "operation",
        6 => "end",
        7 => "statement",
        _ => "unknown kind",
    }
}

/// The whole records in order, up to the end record or the first that is not whole or not known.
pub fn records(bytes: &[u8]) -> Vec<Record<'_>> {
    let mut rows = Vec::new();
    let mut at = 0;
    while let Some(&kind) = bytes.get(at) {
        let Some(body) = body_length(kind).and_then(|length| bytes.get(at + 1..at + 1 + length)) else { break };
        rows.push(Record { at, kind, body });
        at += 1 + body.len();
        if kind == 6 {
            break;
        }
    }
    rows
}

/// As much of a table as its records say: all of an accepted one. The flag says whether the end record was met.
pub fn decode(bytes: &[u8]) -> (Table, bool) {
    let mut table = Table::default();
    for record in records(bytes) {
        match (record.kind, table.loops.last_mut()) {
            (1, None) => table.arrays.push(number(record.body)),
            (2, _) => table.loops.push(a_loop(record.body)),
            (3..=5, Some(open)) => match (item(&record), open.statements.last_mut()) {
                (Some(item), Some(statement)) => statement.items.push(item),
                _ => return (table, false),
            },
            (7, Some(open)) => open.statements.push(Statement::of_body(record.body)),
            (6, _) => return (table, true),
            _ => return (table, false),
        }
    }
    (table, false)
}

pub fn a_loop(body: &[u8]) -> Loop {
    let (first, last) = (number(&body[..4]), number(&body[4..8]));
    Loop { first, last, statements: vec![Statement::of_body(&body[8..])] }
}

fn item(record: &Record) -> Option<Item> {
    match record.kind {
        3 => Some(Item::Read(record.body[0], offset(&record.body[1..]))),
        4 => Some(Item::Constant(number(record.body))),
        _ => (1..=5).contains(&record.body[0]).then_some(Item::Operation(record.body[0])),
    }
}

pub fn number(bytes: &[u8]) -> u32 {
    u32::from_le_bytes([bytes[0], bytes[1], bytes[2], bytes[3]])
}

pub fn offset(bytes: &[u8]) -> i16 {
    i16::from_le_bytes([bytes[0], bytes[1]])
}
