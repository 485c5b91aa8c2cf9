//! Refusals: one number, its word and ground, and where it was met.

use crate::foreign::Answer;
use std::error::Error;
use std::fmt;

#[derive(Clone, Copy, Debug, PartialEq, Eq, Hash)]
#[non_exhaustive]
pub enum Ground {
    Torn,
    Kind,
    Field,
    Crowd,
    Array,
    Body,
    Edge,
    Tail,
    Serial,
    Processors,
    Short,
    Memory,
    Buffer,
    Unlike,
    State,
    Line,
    Plan,
    Unmet,
    /// A number that this wrapper does not know: the library is of another version.
    Other(u64),
}

/// Each ground with its number, its word and its text. No call gives 16 or 18.
const GROUNDS: [(Ground, u64, &str, &str); 18] = [
    (Ground::Torn, 1, "torn", "the bytes end inside a record or before the end record"),
    (Ground::Kind, 2, "kind", "a kind is unknown or out of its order, or there is no array or loop before the end"),
    (Ground::Field, 3, "field", "a field is outside its range, or first is above last"),
    (Ground::Crowd, 4, "crowd", "one array, loop, statement, item or element too many"),
    (Ground::Array, 5, "array", "there is no array of that number"),
    (Ground::Body, 6, "body", "too few waiting numbers, a ninth, or not one left"),
    (Ground::Edge, 7, "edge", "some iteration reaches outside the array"),
    (Ground::Tail, 8, "tail", "bytes follow the end record"),
    (Ground::Serial, 9, "serial", "two different iterations of one loop meet at an element, one storing"),
    (Ground::Processors, 10, "processors", "P is outside 1 to 64, or a processor's number is not below P"),
    (Ground::Short, 11, "short", "fewer lines than processors, or a block below the threshold"),
    (Ground::Memory, 12, "memory", "the memory's length is not the table's element total"),
    (Ground::Buffer, 13, "buffer", "the output does not fit the lent bytes"),
    (Ground::Unlike, 14, "unlike", "the joined tables differ in arrays"),
    (Ground::State, 15, "state", "the counts are none that steps from 0 can leave"),
    (Ground::Line, 17, "line", "a line's length is outside 1 to 64"),
    (Ground::Plan, 19, "plan", "a plan by hand has not 8 bytes for each loop, or a number above 10,000"),
    (Ground::Unmet, 20, "unmet", "a plan by hand does not meet some dependence"),
];

impl Ground {
    pub fn of_number(number: u64) -> Ground {
        GROUNDS.iter().find(|row| row.1 == number).map_or(Ground::Other(number), |row| row.0)
    }

    pub fn number(self) -> u64 {
        match self {
            Ground::Other(number) => number,
            known => known.row().map_or(0, |row| row.1),
        }
    }

    pub fn word(self) -> &'static str {
        self.row().map_or("unknown", |row| row.2)
    }

    pub fn text(self) -> &'static str {
        self.row().map_or("a ground that this wrapper does not know", |row| row.3)
    }

    fn row(self) -> Option<&'static (Ground, u64, &'static str, &'static str)> {
        GROUNDS.iter().find(|row| row.0 == self)
    }

    /// Whether the place counts bytes of the table.
    pub fn has_byte(self) -> bool {
        (1..=8).contains(&self.number())
    }
}

/// Why a call was refused.
#[derive(Clone, Copy, Debug, PartialEq, Eq)]
#[non_exhaustive]
pub struct Refusal {
    pub ground: Ground,
    /// For torn to tail a byte of the table (for crowd 0 where joined tables have too many loops in all), for serial a loop, for unmet the
    /// earlier loop, else 0.
    pub place: u64,
    /// What the refusal names. For serial two references of that loop, the lower and the higher one; for unmet the later loop, and 0; else two
    /// zeros.
    pub named: [u64; 2],
}

impl Refusal {
    /// The answer of a call: nothing where it was accepted.
    pub(crate) fn of_answer(answer: &Answer) -> Result<(), Refusal> {
        match *answer {
            [0, _, _, _] => Ok(()),
            [number, place, first, second] => Err(Refusal { ground: Ground::of_number(number), place, named: [first, second] }),
        }
    }

    /// The pair of references that serial names, the lower and the higher one, and nothing for the other grounds: at least one of them is a
    /// destination, and two different iterations of the loop are at one element with them. A loop's references are its destinations and
    /// its reads, numbered from 0 in byte order, so that 0 is the destination of the loop's own record. Of all such pairs it is the one whose
    /// lower number is least, and with that whose higher number is least.
    ///
    /// ```
    /// use vempaldi::{check, Builder};
    ///
    /// let mut builder = Builder::new();
    /// let [h, q] = [12; 2].map(|length| builder.array(length));
    /// builder.open_loop(1, 10, h, 0); // reference 0: for i = 1 to 10: h[i] = q[i]
    /// builder.read(q, 0); // reference 1
    /// builder.statement(q, 1); // reference 2: and q[i+1] = 5
    /// builder.constant(5);
    /// let refusal = check(&builder.end()?).unwrap_err();
    /// assert_eq!(refusal.references(), Some((1, 2))); // iteration 2 reads q[2], which iteration 1 stores
    /// # Ok::<(), vempaldi::BuildError>(())
    /// ```
    pub fn references(&self) -> Option<(usize, usize)> {
        let number = |at: usize| usize::try_from(self.named[at]).ok();
        (self.ground == Ground::Serial).then_some((number(0)?, number(1)?))
    }

    /// The two loops of unmet, the earlier and the later one, and nothing for the other grounds: some dependence from the one to the other is
    /// not met. Of all such pairs it is the one with the lowest earlier loop, and with that the lowest later one.
    pub fn loops(&self) -> Option<(u64, u64)> {
        (self.ground == Ground::Unmet).then_some((self.place, self.named[0]))
    }

    /// Whether joined tables have too many loops in all. No table by itself meets crowd at its first byte.
    fn of_both(&self) -> bool {
        self.ground == Ground::Crowd && self.place == 0
    }
}

impl fmt::Display for Refusal {
    fn fmt(&self, out: &mut fmt::Formatter<'_>) -> fmt::Result {
        write!(out, "refused {} {}", self.ground.number(), self.ground.word())?;
        if let Some((lower, higher)) = self.references() {
            write!(out, " at loop {}, references {lower} and {higher}", self.place)?;
        } else if let Some((earlier, later)) = self.loops() {
            write!(out, " from loop {earlier} to loop {later}")?;
        } else if self.ground.has_byte() && !self.of_both() {
            write!(out, " at byte {}", self.place)?;
        }
        write!(out, ": {}", self.ground.text())
    }
}

impl Error for Refusal {}
