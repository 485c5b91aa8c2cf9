//! Every short row over a fixed set of records, right and wrong ones, behind
//! a few beginnings. It shows the order of the grounds without chance.

use crate::encoder::Encoder;

/// The records that the rows are made of. The good ones fit an array of four
/// elements and a loop from 0 to 2.
pub fn forms() -> Vec<Vec<u8>> {
    let one = Encoder::new;
    [
        one().array(4),
        one().array(0),
        one().a_loop(0, 2, 0, 0),
        one().a_loop(0, 2, 0, -1),
        one().a_loop(1, 0, 9, 0),
        one().a_loop(0, 2, 9, 256),
        one().read(0, 0),
        one().read(0, 1),
        one().read(0, 2),
        one().read(9, 256),
        one().constant(7),
        one().operation(1),
        one().operation(5),
        one().operation(6),
        one().statement(0, 0),
        one().statement(0, 2),
        one().statement(9, 256),
        one().end(),
        one().raw(&[0]),
        one().raw(&[8]),
        one().raw(&[7]),
        one().raw(&[2, 0]),
        one().raw(&[3]),
    ]
    .into_iter()
    .map(|encoder| encoder.bytes)
    .collect()
}

/// What stands before the rows.
pub fn beginnings() -> Vec<Vec<u8>> {
    let filled = Encoder::new()
        .array(4)
        .a_loop(0, 2, 0, 0)
        .repeat(8, |encoder| encoder.constant(1))
        .repeat(6, |encoder| encoder.operation(1));
    let many = Encoder::new()
        .repeat(16, |encoder| encoder.array(4))
        .repeat(15, |encoder| encoder.a_loop(0, 2, 0, 0).constant(1))
        .a_loop(0, 2, 0, 0);
    let crowded = many
        .clone()
        .repeat(8, |encoder| encoder.constant(1))
        .repeat(7, |encoder| encoder.operation(2))
        .repeat(15, |encoder| encoder.operation(5));
    let three = Encoder::new()
        .array(4)
        .a_loop(0, 2, 0, 0)
        .constant(1)
        .repeat(2, |encoder| encoder.statement(0, 1).constant(1));
    [
        Encoder::new(),
        Encoder::new().array(4),
        Encoder::new().array(4).a_loop(0, 2, 0, 0).constant(1),
        Encoder::new().repeat(15, |encoder| encoder.array(4)),
        filled,
        many,
        crowded,
        three,
    ]
    .into_iter()
    .map(|encoder| encoder.bytes)
    .collect()
}

/// Calls `each` with every row of at most `depth` forms behind every
/// beginning.
pub fn every(depth: usize, each: &mut dyn FnMut(&[u8])) {
    let forms = forms();
    for beginning in beginnings() {
        extend(&mut beginning.clone(), &forms, depth, each);
    }
}

fn extend(row: &mut Vec<u8>, forms: &[Vec<u8>], depth: usize, each: &mut dyn FnMut(&[u8])) {
    each(row);
    if depth == 0 {
        return;
    }
    for form in forms {
        let length = row.len();
        row.extend(form);
        extend(row, forms, depth - 1, each);
        row.truncate(length);
    }
}
