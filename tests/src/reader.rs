//! Reads a table from its bytes, or finds the ground on which it is refused.

use crate::outcome::Refusal;
use crate::table::*;

/// The number of a ground. Grounds 1 to 7 are met at the place of the kind byte
/// of the record at hand, so only their number is handed on.
type Ground = u64;

const TORN: Ground = 1;
const KIND: Ground = 2;
const FIELD: Ground = 3;
const CROWD: Ground = 4;
const ARRAY: Ground = 5;
const BODY: Ground = 6;
const EDGE: Ground = 7;
const TAIL: Ground = 8;

/// The table, or the first ground that it meets.
pub fn read(bytes: &[u8]) -> Result<Table, Refusal> {
    let mut reader = Reader {
        bytes,
        at: 0,
        table: Table::default(),
        elements: 0,
        items: 0,
        waiting: 0,
        body: Vec::new(),
    };
    while !reader.record().map_err(|ground| Refusal::new(ground, reader.at))? {}
    if reader.at < bytes.len() {
        return Err(Refusal::new(TAIL, reader.at));
    }
    match serial(&reader.table) {
        Some(refusal) => Err(refusal),
        None => Ok(reader.table),
    }
}

struct Reader<'a> {
    bytes: &'a [u8],
    /// The place of the kind byte of the record at hand.
    at: usize,
    table: Table,
    elements: u64,
    /// The count of items of the loop at hand, over all of its statements.
    items: usize,
    /// The items of the body at hand, and the count of numbers that wait in it.
    body: Vec<Item>,
    waiting: usize,
}

impl Reader<'_> {
    /// Reads one record. True once that was the end record.
    fn record(&mut self) -> Result<bool, Ground> {
        let Some(&kind) = self.bytes.get(self.at) else {
            return Err(TORN);
        };
        require(self.in_order(kind), KIND)?;
        require(self.body_finished(kind), BODY)?;
        require(self.has_room(kind), CROWD)?;
        let after = self.at + 1 + body_length(kind);
        let Some(body) = self.bytes.get(self.at + 1..after) else {
            return Err(TORN);
        };
        match kind {
            1 => self.array(body)?,
            2 => self.a_loop(body)?,
            3 => self.a_read(body)?,
            4 => self.constant(body)?,
            5 => self.operation(body)?,
            7 => self.statement(body)?,
            _ => self.close(),
        }
        self.at = after;
        Ok(kind == 6)
    }

    /// A loop before any array is in order here: its destination field is
    /// what refuses it.
    fn in_order(&self, kind: u8) -> bool {
        let in_loop = !self.table.loops.is_empty();
        match kind {
            1 => !in_loop,
            2 => true,
            3..=7 => in_loop,
            _ => false,
        }
    }

    /// A body ends where the next loop, a further statement or the end record
    /// begins.
    fn body_finished(&self, kind: u8) -> bool {
        let in_loop = !self.table.loops.is_empty();
        let ends_body = in_loop && matches!(kind, 2 | 6 | 7);
        !ends_body || self.waiting == 1
    }

    fn has_room(&self, kind: u8) -> bool {
        match kind {
            1 => self.table.arrays.len() < MOST_ARRAYS,
            2 => self.table.loops.len() < MOST_LOOPS,
            3..=5 => self.items < MOST_ITEMS,
            7 => self.statements() < MOST_STATEMENTS,
            _ => true,
        }
    }

    fn statements(&self) -> usize {
        self.table.loops.last().map_or(0, |open| open.statements.len())
    }

    fn array(&mut self, body: &[u8]) -> Result<(), Ground> {
        let length = number(body);
        require((1..=MOST_LENGTH).contains(&length), FIELD)?;
        self.elements += u64::from(length);
        require(self.elements <= MOST_ELEMENTS, CROWD)?;
        self.table.arrays.push(length);
        Ok(())
    }

    fn a_loop(&mut self, body: &[u8]) -> Result<(), Ground> {
        let first = number(&body[0..4]);
        let last = number(&body[4..8]);
        require(last <= MOST_LAST && first <= last, FIELD)?;
        let destination = self.reference(&body[8..11])?;
        require(self.inside(first, last, destination), EDGE)?;
        self.close();
        self.table.loops.push(Loop::of_one(first, last, destination, Vec::new()));
        self.items = 0;
        self.begin_body();
        Ok(())
    }

    /// The items go on to be counted over the whole loop; the waiting numbers
    /// begin anew.
    fn statement(&mut self, body: &[u8]) -> Result<(), Ground> {
        let destination = self.reference(body)?;
        let (first, last) = self.bounds();
        require(self.inside(first, last, destination), EDGE)?;
        self.close();
        if let Some(open) = self.table.loops.last_mut() {
            open.statements.push(Statement { destination, items: Vec::new() });
        }
        self.begin_body();
        Ok(())
    }

    fn begin_body(&mut self) {
        self.body = Vec::with_capacity(MOST_ITEMS);
        self.waiting = 0;
    }

    fn a_read(&mut self, body: &[u8]) -> Result<(), Ground> {
        let reference = self.reference(body)?;
        self.wait_one_more()?;
        let (first, last) = self.bounds();
        require(self.inside(first, last, reference), EDGE)?;
        self.item(Item::Read(reference));
        Ok(())
    }

    fn constant(&mut self, body: &[u8]) -> Result<(), Ground> {
        self.wait_one_more()?;
        self.item(Item::Constant(number(body)));
        Ok(())
    }

    fn operation(&mut self, body: &[u8]) -> Result<(), Ground> {
        let operation = match body[0] {
            1 => Operation::Add,
            2 => Operation::Subtract,
            3 => Operation::Multiply,
            4 => Operation::Divide,
            5 => Operation::Negate,
            _ => return Err(FIELD),
        };
        let taken = if operation == Operation::Negate { 1 } else { 2 };
        require(self.waiting >= taken, BODY)?;
        self.waiting = self.waiting - taken + 1;
        self.item(Item::Operation(operation));
        Ok(())
    }

    /// The array field stands before the offset, so its ground comes first.
    fn reference(&self, body: &[u8]) -> Result<Reference, Ground> {
        let array = body[0];
        let offset = i16::from_le_bytes([body[1], body[2]]);
        require(usize::from(array) < self.table.arrays.len(), ARRAY)?;
        require((-MOST_OFFSET..=MOST_OFFSET).contains(&offset), FIELD)?;
        Ok(Reference { array, offset })
    }

    fn wait_one_more(&mut self) -> Result<(), Ground> {
        require(self.waiting < MOST_WAITING, BODY)?;
        self.waiting += 1;
        Ok(())
    }

    fn item(&mut self, item: Item) {
        self.body.push(item);
        self.items += 1;
    }

    /// Gives the statement at hand its items, where its body ends.
    fn close(&mut self) {
        let open = self.table.loops.last_mut();
        if let Some(statement) = open.and_then(|open| open.statements.last_mut()) {
            statement.items = std::mem::take(&mut self.body);
        }
    }

    fn bounds(&self) -> (u32, u32) {
        self.table.loops.last().map_or((0, 0), |open| (open.first, open.last))
    }

    /// Whether every iteration from first to last stays inside the array.
    fn inside(&self, first: u32, last: u32, reference: Reference) -> bool {
        let length = i64::from(self.table.arrays[usize::from(reference.array)]);
        let lowest = i64::from(first) + i64::from(reference.offset);
        let highest = i64::from(last) + i64::from(reference.offset);
        lowest >= 0 && highest < length
    }
}

fn require(holds: bool, ground: Ground) -> Result<(), Ground> {
    if holds {
        Ok(())
    } else {
        Err(ground)
    }
}

/// How many bytes follow the kind byte.
pub fn body_length(kind: u8) -> usize {
    match kind {
        1 => 4,
        2 => 11,
        3 => 3,
        4 => 4,
        5 => 1,
        7 => 3,
        _ => 0,
    }
}

fn number(bytes: &[u8]) -> u32 {
    u32::from_le_bytes([bytes[0], bytes[1], bytes[2], bytes[3]])
}

/// Ground 9: the lowest loop in which two different iterations meet at an
/// element that one of them stores, and two of its references by which they
/// do. All references are numbered in byte order, destinations too.
fn serial(table: &Table) -> Option<Refusal> {
    let mut all = Vec::with_capacity(MOST_STATEMENTS + MOST_ITEMS);
    let mut loops = table.loops.iter().enumerate();
    loops.find_map(|(place, one)| {
        all.clear();
        one.statements.iter().for_each(|statement| all.extend(statement.accesses()));
        Some(Refusal::serial(place, least_pair(one, &all)?))
    })
}

/// The pair whose lower number is least, and then whose higher number is. One
/// of the two is a destination, so the lower is none behind the last of these.
fn least_pair(one: &Loop, all: &[Access]) -> Option<(usize, usize)> {
    let last = all.iter().rposition(|access| access.stores)?;
    (0..=last).find_map(|lower| {
        let mut behind = lower + 1..all.len();
        let higher = behind.find(|&higher| one.collide(all[lower], all[higher]))?;
        Some((lower, higher))
    })
}

#[cfg(test)]
mod tests {
    use super::*;
    use crate::collisions;
    use crate::encoder::encode;
    use crate::examples::{reads_own_array, EXAMPLE, TWO_STATEMENTS};
    use crate::limits;
    use crate::outcome::ACCEPTED;
    use crate::random::Random;

    fn at(array: u8, offset: i16) -> Reference {
        Reference { array, offset }
    }

    fn from_1_to_10(array: u8, items: Vec<Item>) -> Loop {
        Loop::of_one(1, 10, at(array, 0), items)
    }

    #[test]
    fn the_example_says_what_was_typed() {
        let add = Item::Operation(Operation::Add);
        let first = vec![Item::Read(at(1, 0)), Item::Constant(1), add];
        let second = vec![Item::Read(at(0, -1)), Item::Read(at(0, 1)), add];
        let table = Table {
            arrays: vec![12, 12, 12],
            loops: vec![from_1_to_10(0, first), from_1_to_10(2, second)],
        };
        assert_eq!(read(&EXAMPLE), Ok(table));
    }

    #[test]
    fn the_encoder_writes_the_example_back() {
        let table = read(&EXAMPLE).expect("accepted");
        assert_eq!(encode(&table), EXAMPLE);
    }

    #[test]
    fn empty_input_is_torn_at_0() {
        assert_eq!(read(&[]), Err(Refusal::new(1, 0)));
    }

    #[test]
    fn a_distance_of_9_in_ten_iterations_is_serial() {
        assert_eq!(read(&reads_own_array(9)), Err(Refusal::serial(0, (0, 1))));
    }

    #[test]
    fn a_distance_of_10_in_ten_iterations_is_accepted() {
        assert!(read(&reads_own_array(10)).is_ok());
    }

    #[test]
    fn every_limit_has_its_typed_answer() {
        for case in limits::cases() {
            let refusal = read(&case.bytes).err();
            let found = refusal.map_or(ACCEPTED, |refusal| refusal.answer());
            assert_eq!(found, case.answer, "{}", case.name);
        }
    }

    #[test]
    fn a_further_statement_says_what_was_typed() {
        let statement = |to, items| Statement { destination: to, items };
        let add = Item::Operation(Operation::Add);
        let first = statement(at(0, 0), vec![Item::Read(at(1, -1)), Item::Constant(9), add]);
        let second = statement(at(1, 0), vec![Item::Read(at(0, 0))]);
        let table = Table {
            arrays: vec![5, 5],
            loops: vec![Loop { first: 4, last: 4, statements: vec![first, second] }],
        };
        assert_eq!(read(&TWO_STATEMENTS), Ok(table.clone()));
        assert_eq!(encode(&table), TWO_STATEMENTS);
    }

    /// Every pair of references, from the least on, with the iterations gone
    /// through one by one: two different ones touch an element, and one of
    /// the references is a destination.
    fn meets(one: &Loop, lower: Access, higher: Access) -> bool {
        let indices = || i64::from(one.first)..=i64::from(one.last);
        let element = |index: i64, of: Reference| (of.array, index + i64::from(of.offset));
        let stores = lower.stores || higher.stores;
        let meet = |i: i64, j: i64| i != j && element(i, lower.at) == element(j, higher.at);
        stores && indices().any(|i| indices().any(|j| meet(i, j)))
    }

    fn pair_by_iterations(one: &Loop) -> Option<(usize, usize)> {
        let all: Vec<Access> = one.accesses().collect();
        let pairs =
            (0..all.len()).flat_map(|low| (low + 1..all.len()).map(move |high| (low, high)));
        pairs.filter(|&(low, high)| meets(one, all[low], all[high])).min()
    }

    #[test]
    fn serial_names_the_least_pair_that_meets_in_two_iterations() {
        let mut random = Random::new(1);
        let (mut refused, mut several, mut stores) = (0, 0, 0);
        for _ in 0..4_000 {
            let table = collisions::short_table(&mut random);
            let mut loops = table.loops.iter().enumerate();
            let wanted = loops.find_map(|(place, one)| Some((place, pair_by_iterations(one)?)));
            let refusal = wanted.map(|(place, pair)| Refusal::serial(place, pair));
            assert_eq!(read(&encode(&table)).err(), refusal, "{table:?}");
            refused += u64::from(wanted.is_some());
            if let Some((place, (lower, higher))) = wanted {
                let all: Vec<Access> = table.loops[place].accesses().collect();
                several += u64::from(table.loops[place].statements.len() > 1);
                stores += u64::from(all[lower].stores && all[higher].stores);
            }
        }
        assert!((1_300..3_600).contains(&refused), "{refused} of 4,000 are serial");
        assert!(several > 500, "{several} by a loop of several statements");
        assert!(stores > 100, "{stores} by two destinations");
    }
}
