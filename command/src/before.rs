//! What the records before a place of a table have made: what the tests on the record at that place go by.

use crate::records::{a_loop, kind_name, number, records, Record};

#[derive(Default)]
pub struct Before {
    /// How many records stand before the place, so also the number of the record there.
    pub records: usize,
    /// The lengths of the arrays.
    pub arrays: Vec<u32>,
    pub loops: usize,
    /// First and last of the last loop, and how many statements and items it has so far.
    pub bounds: (u32, u32),
    pub statements: usize,
    pub items: usize,
    /// What the body of its last statement has and leaves so far.
    pub own_items: usize,
    pub waiting: usize,
}

impl Before {
    /// The records before a place have passed every test of the library, so none of these sums goes wrong.
    pub fn of(table: &[u8], place: usize) -> Before {
        let mut before = Before::default();
        for record in records(table).iter().take_while(|record| record.at < place) {
            before.take(record);
        }
        before
    }

    fn take(&mut self, record: &Record) {
        self.records += 1;
        match record.kind {
            1 => self.arrays.push(number(record.body)),
            2 => {
                let one = a_loop(record.body);
                (self.loops, self.bounds) = (self.loops + 1, (one.first, one.last));
                (self.statements, self.items) = (0, 0);
                self.open_statement();
            }
            3 | 4 => self.take_item(0),
            5 => self.take_item(operands(record.body[0])),
            7 => self.open_statement(),
            _ => {}
        }
    }

    fn open_statement(&mut self) {
        self.statements += 1;
        (self.own_items, self.waiting) = (0, 0);
    }

    /// An item that takes so many waiting numbers and leaves one.
    fn take_item(&mut self, takes: usize) {
        (self.items, self.own_items) = (self.items + 1, self.own_items + 1);
        self.waiting = (self.waiting + 1).saturating_sub(takes);
    }

    pub fn elements(&self) -> u32 {
        self.arrays.iter().fold(0, |sum, length| sum.saturating_add(*length))
    }

    /// The last loop's number.
    pub fn open(&self) -> usize {
        self.loops.saturating_sub(1)
    }

    /// The open body: `the body of loop 1`, or behind a further statement `the body of statement 2 of loop 1`, which count from 0.
    pub fn open_body(&self) -> String {
        match self.statements {
            0 | 1 => format!("the body of loop {}", self.open()),
            count => format!("the body of statement {} of loop {}", count - 1, self.open()),
        }
    }
}

/// How many waiting numbers an operation takes.
pub fn operands(code: u8) -> usize {
    if code == 5 {
        1
    } else {
        2
    }
}

/// `an array`, `a loop`.
pub fn a_kind(kind: u8) -> String {
    let name = kind_name(kind);
    let article = if name.starts_with(['a', 'e', 'o', 'u']) { "an" } else { "a" };
    format!("{article} {name}")
}
