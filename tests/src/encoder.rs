//! Writes tables as bytes. The fields are taken as they come, so that tables
//! with fields outside their ranges can be written too.

use crate::table::*;

#[derive(Clone, Default)]
pub struct Encoder {
    pub bytes: Vec<u8>,
}

impl Encoder {
    pub fn new() -> Encoder {
        Encoder::default()
    }

    pub fn array(mut self, length: u32) -> Encoder {
        self.bytes.push(1);
        self.bytes.extend(length.to_le_bytes());
        self
    }

    pub fn a_loop(mut self, first: u32, last: u32, array: u8, offset: i16) -> Encoder {
        self.bytes.push(2);
        self.bytes.extend(first.to_le_bytes());
        self.bytes.extend(last.to_le_bytes());
        self.bytes.push(array);
        self.bytes.extend(offset.to_le_bytes());
        self
    }

    pub fn read(mut self, array: u8, offset: i16) -> Encoder {
        self.bytes.push(3);
        self.bytes.push(array);
        self.bytes.extend(offset.to_le_bytes());
        self
    }

    pub fn constant(mut self, value: u32) -> Encoder {
        self.bytes.push(4);
        self.bytes.extend(value.to_le_bytes());
        self
    }

    pub fn operation(mut self, code: u8) -> Encoder {
        self.bytes.push(5);
        self.bytes.push(code);
        self
    }

    pub fn statement(mut self, array: u8, offset: i16) -> Encoder {
        self.bytes.push(7);
        self.bytes.push(array);
        self.bytes.extend(offset.to_le_bytes());
        self
    }

    pub fn end(mut self) -> Encoder {
        self.bytes.push(6);
        self
    }

    /// Bytes that need not be a record.
    pub fn raw(mut self, bytes: &[u8]) -> Encoder {
        self.bytes.extend_from_slice(bytes);
        self
    }

    /// The same records `count` times over.
    pub fn repeat(self, count: usize, add: impl Fn(Encoder) -> Encoder) -> Encoder {
        (0..count).fold(self, |encoder, _| add(encoder))
    }

    pub fn item(self, item: Item) -> Encoder {
        match item {
            Item::Read(read) => self.read(read.array, read.offset),
            Item::Constant(value) => self.constant(value),
            Item::Operation(operation) => self.operation(code(operation)),
        }
    }
}

pub fn code(operation: Operation) -> u8 {
    match operation {
        Operation::Add => 1,
        Operation::Subtract => 2,
        Operation::Multiply => 3,
        Operation::Divide => 4,
        Operation::Negate => 5,
    }
}

/// The bytes of a whole table.
pub fn encode(table: &Table) -> Vec<u8> {
    let mut encoder = Encoder::new();
    for &length in &table.arrays {
        encoder = encoder.array(length);
    }
    for one in &table.loops {
        for (number, statement) in one.statements.iter().enumerate() {
            let Reference { array, offset } = statement.destination;
            encoder = match number {
                0 => encoder.a_loop(one.first, one.last, array, offset),
                _ => encoder.statement(array, offset),
            };
            encoder = statement.items.iter().fold(encoder, |encoder, &item| encoder.item(item));
        }
    }
    encoder.end().bytes
}
