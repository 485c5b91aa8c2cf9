//! Tables and inputs whose numbers need more than two bytes, or more than one.

use crate::table::{Item, Loop, Operation, Reference, Statement, Table};

/// The table with so many bytes behind it that the low two bytes of the whole
/// length are the table's own length. It is refused with 8 at its end.
pub fn followed(table: &[u8]) -> Vec<u8> {
    let mut bytes = table.to_vec();
    bytes.resize(table.len() + 65_536, 0);
    bytes
}

/// The highest index that a loop can have, and a list of 131,072 iterations:
/// loop 0 from 253 to 65,788 stores A0[i - 253] and reads A1[i - 253]; loop 1
/// from 255 to 65,790 stores A1[i - 255] and reads A0[i - 255]. So loop 1 has
/// shift 0 and peel 2. With more loops than two these go on in turn, and the
/// list has 65,536 iterations more for each.
pub fn last_indices(loops: usize) -> Table {
    let at = |array, offset| Reference { array, offset };
    let add = Item::Operation(Operation::Add);
    let items = vec![Item::Read(at(1, -253)), Item::Constant(3), add];
    let front = Loop::of_one(253, 65_788, at(0, -253), items);
    let items = vec![Item::Read(at(0, -255)), Item::Constant(5), add];
    let back = Loop::of_one(255, 65_790, at(1, -255), items);
    let both = [front, back].into_iter().cycle();
    Table { arrays: vec![65_536; 2], loops: both.take(loops).collect() }
}

/// Sixteen loops of which each touches all of sixteen arrays: 272 sweeps
/// before fusion, 32 after it.
pub fn touching() -> Table {
    let at = |array| Reference { array, offset: 0 };
    let a_loop = |own: u8| {
        let mut items = vec![Item::Constant(1)];
        for array in (0..16).filter(|&array| array != own) {
            items.extend([Item::Read(at(array)), Item::Operation(Operation::Add)]);
        }
        Loop::of_one(0, 9, at(own), items)
    };
    Table { arrays: vec![10; 16], loops: (0..16).map(a_loop).collect() }
}

/// Sixteen loops of four statements of which each touches all of sixteen
/// arrays and writes four: 320 sweeps before fusion, 32 after it.
pub fn touching_by_four() -> Table {
    let at = |array: u8| Reference { array: array % 16, offset: 0 };
    let statement = |own: u8, number: u8| {
        let mut items = vec![Item::Constant(1)];
        for other in 0..3 {
            let read = Item::Read(at(own + 4 + 3 * number + other));
            items.extend([read, Item::Operation(Operation::Add)]);
        }
        Statement { destination: at(own + number), items }
    };
    let a_loop = |own: u8| {
        let statements = (0..4).map(|number| statement(own, number)).collect();
        Loop { first: 0, last: 9, statements }
    };
    Table { arrays: vec![10; 16], loops: (0..16).map(a_loop).collect() }
}

/// The same highest index and list of 131,072 iterations by two loops of four
/// statements: loop 0 from 253 to 65,788 stores A0[i - 253], then A1 and A2,
/// each of which reads what the one before stored, and adds what A3 holds;
/// loop 1 from 255 to 65,790 stores A3[i - 255] and so on at offset -255. So
/// loop 1 has shift 0 and peel 2.
pub fn last_indices_by_four() -> Table {
    let at = |array, offset| Reference { array, offset };
    let a_loop = |first: u32, offset: i16, arrays: [u8; 4]| {
        let statement = |number: usize| Statement {
            destination: at(arrays[number], offset),
            items: vec![
                Item::Read(at(arrays[(number + 3) % 4], offset)),
                Item::Constant(3 + number as u32),
                Item::Operation(if number == 2 { Operation::Divide } else { Operation::Add }),
            ],
        };
        let statements = (0..4).map(statement).collect();
        Loop { first, last: first + 65_535, statements }
    };
    let loops = vec![a_loop(253, -253, [0, 1, 2, 3]), a_loop(255, -255, [3, 1, 0, 2])];
    Table { arrays: vec![65_536; 4], loops }
}

/// Loop k stores A_k[i] and reads A_(k-1)[i - 255] and A_(k-1)[i + 255], so it
/// has shift 255 k and peel 255 k.
pub fn chained() -> Table {
    let at = |array, offset| Reference { array, offset };
    let a_loop = |own: u8| {
        let (first, last) = (255, 16_128);
        let items = match own.checked_sub(1) {
            None => vec![Item::Constant(1)],
            Some(before) => vec![
                Item::Read(at(before, -255)),
                Item::Read(at(before, 255)),
                Item::Operation(Operation::Add),
            ],
        };
        Loop::of_one(first, last, at(own, 0), items)
    };
    Table { arrays: vec![16_384; 16], loops: (0..16).map(a_loop).collect() }
}
