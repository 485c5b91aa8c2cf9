//! The decoded table: what the bytes say once they have been read.

pub const MOST_ARRAYS: usize = 16;
pub const MOST_LOOPS: usize = 16;
/// The most statements of a loop.
pub const MOST_STATEMENTS: usize = 4;
/// The most items of a loop, over all of its statements.
pub const MOST_ITEMS: usize = 32;
pub const MOST_WAITING: usize = 8;
pub const MOST_ELEMENTS: u64 = 262_144;
pub const MOST_LENGTH: u32 = 65_536;
pub const MOST_LAST: u32 = 131_071;
pub const MOST_OFFSET: i16 = 255;

#[derive(Clone, Debug, Default, PartialEq, Eq)]
pub struct Table {
    /// The length of each array.
    pub arrays: Vec<u32>,
    pub loops: Vec<Loop>,
}

#[derive(Clone, Debug, PartialEq, Eq)]
pub struct Loop {
    pub first: u32,
    pub last: u32,
    /// In byte order. The destination of the first stands in the loop's own
    /// record.
    pub statements: Vec<Statement>,
}

/// One assignment of a loop: the number that its items leave is stored.
#[derive(Clone, Debug, PartialEq, Eq)]
pub struct Statement {
    pub destination: Reference,
    pub items: Vec<Item>,
}

/// One reference to an array: the element at the loop index plus the offset.
#[derive(Clone, Copy, Debug, PartialEq, Eq)]
pub struct Reference {
    pub array: u8,
    pub offset: i16,
}

/// A reference of a loop, and whether it is a destination.
#[derive(Clone, Copy, Debug, PartialEq, Eq)]
pub struct Access {
    pub at: Reference,
    pub stores: bool,
}

#[derive(Clone, Copy, Debug, PartialEq, Eq)]
pub enum Item {
    Read(Reference),
    Constant(u32),
    Operation(Operation),
}

#[derive(Clone, Copy, Debug, PartialEq, Eq)]
pub enum Operation {
    Add,
    Subtract,
    Multiply,
    Divide,
    Negate,
}

impl Table {
    /// The number of elements of all arrays together.
    pub fn elements(&self) -> u64 {
        self.arrays.iter().map(|&length| u64::from(length)).sum()
    }
}

impl Loop {
    /// A loop of one statement.
    pub fn of_one(first: u32, last: u32, destination: Reference, items: Vec<Item>) -> Loop {
        Loop { first, last, statements: vec![Statement { destination, items }] }
    }

    /// All references in byte order; their position here is the number that a
    /// refusal with ground 9 names.
    pub fn accesses(&self) -> impl Iterator<Item = Access> + '_ {
        self.statements.iter().flat_map(Statement::accesses)
    }

    pub fn destinations(&self) -> impl Iterator<Item = Reference> + '_ {
        self.statements.iter().map(|one| one.destination)
    }

    pub fn reads(&self) -> impl Iterator<Item = Reference> + '_ {
        self.statements.iter().flat_map(Statement::reads)
    }

    /// How many items all statements have together.
    pub fn items(&self) -> usize {
        self.statements.iter().map(|one| one.items.len()).sum()
    }

    /// Two different iterations meet at an element: the references are to one
    /// array, at offsets that differ by no more than the loop is long, and one
    /// of the two stores.
    pub fn collide(&self, one: Access, other: Access) -> bool {
        let distance = u32::from(one.at.offset.abs_diff(other.at.offset));
        let apart = distance > 0 && distance <= self.last - self.first;
        one.at.array == other.at.array && (one.stores || other.stores) && apart
    }
}

impl Statement {
    /// The destination, then the reads.
    pub fn accesses(&self) -> impl Iterator<Item = Access> + '_ {
        let reads = self.reads().map(|at| Access { at, stores: false });
        std::iter::once(Access { at: self.destination, stores: true }).chain(reads)
    }

    pub fn reads(&self) -> impl Iterator<Item = Reference> + '_ {
        self.items.iter().filter_map(|item| match item {
            Item::Read(reference) => Some(*reference),
            _ => None,
        })
    }
}
