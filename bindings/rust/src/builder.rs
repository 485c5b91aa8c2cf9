//! A builder of loop tables: the bytes that every call takes, written record by record.

use std::error::Error;
use std::fmt;

/// How many bytes follow a record's kind byte, by kind: array, loop, read, constant, operation, end, statement. There is no kind 0.
pub const BODY_LENGTHS: [usize; 8] = [0, 4, 11, 3, 4, 1, 0, 3];

/// The room of a builder, in bytes: the 2,364 that decide, and the rest of the longest record that begins at the last of them. Every
/// accepted table fits. Where a record does not, the bytes that decide are all there.
pub const BUILDER_BYTES: usize = crate::DECIDING_BYTES + BODY_LENGTHS[LOOP];

const ARRAY: usize = 1;
const LOOP: usize = 2;
const READ: usize = 3;
const CONSTANT: usize = 4;
const OPERATION: usize = 5;
const END: usize = 6;
const STATEMENT: usize = 7;

/// The operations of a body. All but negate take two waiting numbers, the later one being the right operand.
#[derive(Clone, Copy, Debug, PartialEq, Eq, Hash)]
#[non_exhaustive]
#[repr(u8)]
pub enum Operation {
    Add = 1,
    Subtract = 2,
    Multiply = 3,
    Divide = 4,
    Negate = 5,
}

impl From<Operation> for u8 {
    fn from(operation: Operation) -> u8 {
        operation as u8
    }
}

/// Why a record could not be written.
#[derive(Clone, Copy, Debug, PartialEq, Eq, Hash)]
#[non_exhaustive]
pub enum BuildFault {
    /// A number that its field cannot hold.
    Field,
    /// A record too many for the room: the table would be refused, and [`check`](crate::check) of [`Builder::bytes`] says with what.
    Room,
}

/// The first record that could not be written, counted from 0, and why.
#[derive(Clone, Copy, Debug, PartialEq, Eq, Hash)]
#[non_exhaustive]
pub struct BuildError {
    pub record: usize,
    pub fault: BuildFault,
}

impl fmt::Display for BuildError {
    fn fmt(&self, out: &mut fmt::Formatter<'_>) -> fmt::Result {
        let why = match self.fault {
            BuildFault::Field => "a number does not fit its field",
            BuildFault::Room => "there is no room for it",
        };
        write!(out, "record {} of the table cannot be written: {why}", self.record)
    }
}

impl Error for BuildError {}

/// Writes what it is told, a record a call, and nothing else: whether arrays come before loops, whether a body leaves one number and whether
/// an index is inside its array is for [`check`](crate::check) to say. Two things alone are errors here: a number that its field cannot
/// hold, and a record that there is no room for. The first error is told by [`end`](Builder::end); from then on nothing more is written.
///
/// Numbers may be of any integer type.
///
/// ```
/// use vempaldi::{Builder, Operation};
///
/// let mut builder = Builder::new();
/// let from = builder.array(12);
/// let to = builder.array(12);
/// builder.open_loop(1, 10, to, 0); // for i = 1 to 10: to[i] = from[i-1] + from[i+1]
/// builder.read(from, -1);
/// builder.read(from, 1);
/// builder.operation(Operation::Add);
/// let table = builder.end()?;
/// assert_eq!(table.len(), 5 + 5 + 12 + 4 + 4 + 2 + 1);
/// # Ok::<(), vempaldi::BuildError>(())
/// ```
#[derive(Clone, Debug, Default)]
pub struct Builder {
    bytes: Vec<u8>,
    records: usize,
    arrays: usize,
    error: Option<BuildError>,
}

impl Builder {
    pub fn new() -> Builder {
        Builder::default()
    }

    /// An array of `length` elements. Gives its number, by which loops and reads name it: 0 for the first, and so on.
    pub fn array(&mut self, length: impl TryInto<u32>) -> usize {
        self.record(ARRAY, number(length));
        self.arrays += 1;
        self.arrays - 1
    }

    /// Opens a loop: i goes from `first` to `last`, and element i + `offset` of the array `destination` is stored. The items of its body
    /// follow; a further statement, the next loop or the end closes it.
    pub fn open_loop(
        &mut self,
        first: impl TryInto<u32>,
        last: impl TryInto<u32>,
        destination: impl TryInto<u8>,
        offset: impl TryInto<i16>,
    ) {
        let parts = [number(first), number(last), reference(destination, offset)];
        self.record(LOOP, parts.into_iter().collect::<Option<Vec<_>>>().map(|parts| parts.concat()));
    }

    /// Opens a further statement of the loop, behind a finished body: in the same iteration, element i + `offset` of `array` is stored
    /// next. The items of its own body follow. A loop has up to four statements, that of [`open_loop`](Builder::open_loop) among them.
    ///
    /// ```
    /// use vempaldi::{Builder, Operation};
    ///
    /// let mut builder = Builder::new();
    /// let [from, sum, difference] = [12; 3].map(|length| builder.array(length));
    /// builder.open_loop(1, 10, sum, 0); // for i = 1 to 10: sum[i] = from[i-1] + from[i+1]
    /// builder.read(from, -1);
    /// builder.read(from, 1);
    /// builder.operation(Operation::Add);
    /// builder.statement(difference, 0); // and difference[i] = sum[i] - from[i]
    /// builder.read(sum, 0);
    /// builder.read(from, 0);
    /// builder.operation(Operation::Subtract);
    /// let table = builder.end()?;
    /// assert_eq!(vempaldi::check(&table), Ok(()));
    /// # Ok::<(), vempaldi::BuildError>(())
    /// ```
    pub fn statement(&mut self, array: impl TryInto<u8>, offset: impl TryInto<i16>) {
        self.record(STATEMENT, reference(array, offset));
    }

    /// An item: element i + `offset` of an array.
    pub fn read(&mut self, array: impl TryInto<u8>, offset: impl TryInto<i16>) {
        self.record(READ, reference(array, offset));
    }

    /// An item: a whole number, 0 to 4,294,967,295.
    pub fn constant(&mut self, value: impl TryInto<u32>) {
        self.record(CONSTANT, number(value));
    }

    /// An item: an [`Operation`], or its number.
    pub fn operation(&mut self, operation: impl TryInto<u8>) {
        self.record(OPERATION, byte(operation));
    }

    /// Writes the end record and gives the table, or the first error of all calls.
    pub fn end(&mut self) -> Result<Vec<u8>, BuildError> {
        self.record(END, Some(Vec::new()));
        self.error.map_or_else(|| Ok(self.bytes.clone()), Err)
    }

    /// The whole records that are written so far.
    pub fn bytes(&self) -> &[u8] {
        &self.bytes
    }

    /// The first error so far.
    pub fn error(&self) -> Option<BuildError> {
        self.error
    }

    /// A whole record or nothing of it. `body` is nothing where a number does not fit its field.
    fn record(&mut self, kind: usize, body: Option<Vec<u8>>) {
        if self.error.is_some() {
            return;
        }
        let fault = match body {
            None => BuildFault::Field,
            Some(_) if 1 + BODY_LENGTHS[kind] > BUILDER_BYTES - self.bytes.len() => BuildFault::Room,
            Some(body) => {
                self.bytes.push(kind as u8);
                self.bytes.extend(body);
                self.records += 1;
                return;
            }
        };
        self.error = Some(BuildError { record: self.records, fault });
    }
}

fn number(value: impl TryInto<u32>) -> Option<Vec<u8>> {
    value.try_into().ok().map(|value| value.to_le_bytes().to_vec())
}

fn byte(value: impl TryInto<u8>) -> Option<Vec<u8>> {
    value.try_into().ok().map(|value| vec![value])
}

/// An array's number and an offset.
fn reference(array: impl TryInto<u8>, offset: impl TryInto<i16>) -> Option<Vec<u8>> {
    let offset = offset.try_into().ok()?.to_le_bytes();
    byte(array).map(|array| [array, offset.to_vec()].concat())
}
