//! Tables whose loops meet, only just meet, or do not. The shifts and peels of
//! each are typed here from the words on dependences, not computed.

use crate::encoder::Encoder;
use crate::examples::{two_ahead, two_behind};

pub struct Case {
    pub name: &'static str,
    pub bytes: Vec<u8>,
    /// Shift and peel of each loop.
    pub amounts: Vec<(u32, u32)>,
}

pub fn cases() -> Vec<Case> {
    let statements = [of_two(), of_four(), through_statements()];
    let others = [known(), single(), inside(), stores(), far(), high(), chains(), sixteen()];
    others.into_iter().chain(statements).flatten().collect()
}

fn case(name: &'static str, bytes: Vec<u8>, amounts: &[(u32, u32)]) -> Case {
    Case { name, bytes, amounts: amounts.to_vec() }
}

/// Two loops of these bounds: loop 0 stores A0[i], loop 1 stores A1[i] and
/// reads A0 at each of the offsets.
pub fn two_loops(j: (u32, u32), k: (u32, u32), offsets: &[i16]) -> Vec<u8> {
    let arrays = Encoder::new().array(2_000).array(2_000);
    let one = arrays.a_loop(j.0, j.1, 0, 0).constant(1).a_loop(k.0, k.1, 1, 0).constant(0);
    let sum = offsets.iter().fold(one, |sum, &offset| sum.read(0, offset).operation(1));
    sum.end().bytes
}

/// What the second of two loops has.
fn two(name: &'static str, j: (u32, u32), k: (u32, u32), offset: i16, amounts: (u32, u32)) -> Case {
    case(name, two_loops(j, k, &[offset]), &[(0, 0), amounts])
}

/// The known result, and what it is from the other sides.
fn known() -> Vec<Case> {
    vec![
        case("6 less 2 is below 5", two_ahead(6), &[(0, 0), (0, 0)]),
        case("7 less 2 is 5", two_ahead(7), &[(0, 0), (2, 0)]),
        two("5 less 2 is above 2", (5, 9), (1, 2), 2, (0, 0)),
        two("5 less 2 is 3", (5, 9), (1, 3), 2, (2, 0)),
        two("6 and 2 is below 9", (1, 6), (9, 12), -2, (0, 0)),
        two("6 and 2 is 8", (1, 6), (8, 12), -2, (0, 2)),
        case("5 and 2 is above 6", two_behind(6), &[(0, 0), (0, 0)]),
        case("5 and 2 is 7", two_behind(7), &[(0, 0), (0, 2)]),
        case("of two pairs one meets", two_loops((1, 6), (5, 9), &[2, 1]), &[(0, 0), (1, 0)]),
        case("the other of two", two_loops((1, 6), (5, 9), &[1, 2]), &[(0, 0), (1, 0)]),
        case("a pair each way", two_loops((11, 16), (15, 19), &[1, -8]), &[(0, 0), (1, 8)]),
        case("a pair each way, too far", two_loops((11, 16), (15, 19), &[2, -9]), &[(0, 0); 2]),
    ]
}

/// Boundary loops of one iteration.
fn single() -> Vec<Case> {
    vec![
        two("the last index reads the first", (1, 10), (10, 10), -9, (0, 9)),
        two("and one before it", (1, 10), (10, 10), -10, (0, 0)),
        two("the first index reads the last", (1, 10), (1, 1), 9, (9, 0)),
        two("and one behind it", (1, 10), (1, 1), 10, (0, 0)),
        two("what the last index stores is read", (10, 10), (1, 10), 9, (9, 0)),
        two("and would be one before", (10, 10), (1, 10), 10, (0, 0)),
        two("what the first index stores is read", (11, 11), (11, 20), -9, (0, 9)),
        two("and would be one behind", (11, 11), (11, 20), -10, (0, 0)),
        two("one of each, just so", (7, 7), (3, 3), 4, (4, 0)),
        two("one of each, too near", (7, 7), (3, 3), 3, (0, 0)),
        two("one of each, too far", (7, 7), (3, 3), 5, (0, 0)),
        two("one of each, ahead", (3, 3), (7, 7), -4, (0, 4)),
        two("one of each, ahead, too near", (3, 3), (7, 7), -3, (0, 0)),
        two("one of each, ahead, too far", (3, 3), (7, 7), -5, (0, 0)),
        two("index 0 reads what it stores one ahead", (0, 0), (0, 0), 1, (0, 0)),
        two("index 0 reads what 1 stores", (0, 1), (0, 0), 1, (1, 0)),
    ]
}

/// Neither end of the one loop meets the other.
fn inside() -> Vec<Case> {
    vec![
        two("inside, backward", (1, 100), (50, 50), 2, (2, 0)),
        two("inside, forward", (1, 100), (50, 50), -2, (0, 2)),
        two("around, backward", (50, 50), (1, 100), 2, (2, 0)),
        two("around, forward", (50, 50), (2, 100), -2, (0, 2)),
        two("all but the ends, backward", (1, 100), (1, 98), 1, (1, 0)),
        two("all but the ends, forward", (1, 100), (3, 100), -1, (0, 1)),
    ]
}

/// Stores that follow reads and stores that follow stores.
fn stores() -> Vec<Case> {
    let arrays = || Encoder::new().array(50).array(50).array(50);
    let after_read = |k: (u32, u32), offset| {
        let earlier = arrays().a_loop(10, 19, 0, 0).read(1, 0);
        earlier.a_loop(k.0, k.1, 1, offset).constant(1).end().bytes
    };
    let after_store = |k: (u32, u32), offset| {
        let earlier = arrays().a_loop(10, 19, 1, 0).constant(2);
        earlier.a_loop(k.0, k.1, 1, offset).constant(1).end().bytes
    };
    let two_reads = || {
        let earlier = arrays().a_loop(10, 19, 0, 0).read(1, 0);
        earlier.a_loop(10, 19, 2, 0).read(1, 3).end().bytes
    };
    vec![
        case("a store after a read", after_read((16, 19), 3), &[(0, 0), (3, 0)]),
        case("a store after a read, at the last", after_read((16, 30), 3), &[(0, 0), (3, 0)]),
        case("a store behind the last read", after_read((17, 30), 3), &[(0, 0), (0, 0)]),
        case("a store at the first read", after_read((4, 7), 3), &[(0, 0), (3, 0)]),
        case("a store before the first read", after_read((4, 6), 3), &[(0, 0), (0, 0)]),
        case("a store after a store", after_store((22, 30), -3), &[(0, 0), (0, 3)]),
        case("a store behind the last store", after_store((23, 30), -3), &[(0, 0), (0, 0)]),
        case("a store at the first store", after_store((4, 13), -3), &[(0, 0), (0, 3)]),
        case("a store before the first store", after_store((4, 12), -3), &[(0, 0), (0, 0)]),
        case("two reads", two_reads(), &[(0, 0), (0, 0)]),
    ]
}

/// Loops over 10 to 19 and five arrays of 50. Each row is a loop of which each
/// statement stores an array at an offset and reads others, summed.
type Statements<'a> = &'a [((u8, i16), &'a [(u8, i16)])];

fn stated(name: &'static str, loops: &[Statements], amounts: &[(u32, u32)]) -> Case {
    let mut encoder = Encoder::new().repeat(5, |e| e.array(50));
    for one in loops {
        for (number, &((array, offset), reads)) in one.iter().enumerate() {
            encoder = match number {
                0 => encoder.a_loop(10, 19, array, offset).constant(1),
                _ => encoder.statement(array, offset).constant(1),
            };
            encoder = reads.iter().fold(encoder, |e, &(q, c)| e.read(q, c).operation(1));
        }
    }
    case(name, encoder.end().bytes, amounts)
}

/// Stores A0[i] and A1[i].
const TWO: Statements = &[((0, 0), &[]), ((1, 0), &[])];
/// Stores A0[i], A1[i], A2[i] and A3[i].
const FOUR: Statements = &[((0, 0), &[]), ((1, 0), &[]), ((2, 0), &[]), ((3, 0), &[])];

/// Any destination of one loop and any reference of another to its array.
fn of_two() -> Vec<Case> {
    vec![
        stated("a read of the second", &[TWO, &[((2, 0), &[(1, 3)])]], &[(0, 0), (3, 0)]),
        stated("a read of each", &[TWO, &[((2, 0), &[(0, -2), (1, 3)])]], &[(0, 0), (3, 2)]),
        stated(
            "the second reads the second",
            &[TWO, &[((2, 0), &[]), ((3, 0), &[(1, -4)])]],
            &[(0, 0), (0, 4)],
        ),
        stated(
            "the second stores the second",
            &[TWO, &[((2, 0), &[]), ((1, 5), &[])]],
            &[(0, 0), (5, 0)],
        ),
        stated(
            "the first stores the second",
            &[TWO, &[((1, -5), &[]), ((2, 0), &[])]],
            &[(0, 0), (0, 5)],
        ),
        stated(
            "the second stores the first",
            &[TWO, &[((2, 0), &[]), ((0, 6), &[])]],
            &[(0, 0), (6, 0)],
        ),
        stated(
            "the second stores what the first's second reads",
            &[&[((0, 0), &[]), ((1, 0), &[(4, 7)])], &[((2, 0), &[]), ((4, 0), &[])]],
            &[(0, 0), (0, 7)],
        ),
    ]
}

/// The same of loops of four statements.
fn of_four() -> Vec<Case> {
    vec![
        stated(
            "the fourth reads the fourth",
            &[FOUR, &[((4, 0), &[]), ((4, 0), &[]), ((4, 0), &[]), ((4, 0), &[(3, 8)])]],
            &[(0, 0), (8, 0)],
        ),
        stated(
            "the fourth stores the third, nine back",
            &[FOUR, &[((4, 0), &[]), ((4, 0), &[]), ((4, 0), &[]), ((2, -9), &[])]],
            &[(0, 0), (0, 9)],
        ),
        stated(
            "ten back, where no iterations meet",
            &[FOUR, &[((4, 0), &[]), ((4, 0), &[]), ((4, 0), &[]), ((2, -10), &[])]],
            &[(0, 0), (0, 0)],
        ),
    ]
}

/// Which statement of a loop a chain comes to and goes on from does not matter.
fn through_statements() -> Vec<Case> {
    vec![
        stated(
            "two reads alone",
            &[&[((0, 0), &[(4, 0)]), ((1, 0), &[(4, 1)])], &[((2, 0), &[(4, 5)]), ((3, 0), &[])]],
            &[(0, 0), (0, 0)],
        ),
        stated(
            "a chain through second statements",
            {
                let third: Statements = &[((4, 0), &[]), ((4, 0), &[(3, 1)])];
                &[TWO, &[((2, 0), &[]), ((3, 0), &[(1, 2)])], third]
            },
            &[(0, 0), (2, 0), (3, 0)],
        ),
        stated(
            "a chain that goes on from another statement",
            {
                let middle: Statements = &[((2, 0), &[(0, 2)]), ((3, 0), &[])];
                &[TWO, middle, &[((4, 0), &[(3, 1)])]]
            },
            &[(0, 0), (2, 0), (3, 0)],
        ),
        stated(
            "one place stored twice by one loop",
            &[&[((0, 0), &[]), ((0, 0), &[])], &[((1, 0), &[(0, 1)]), ((1, 0), &[(0, -1)])]],
            &[(0, 0), (1, 1)],
        ),
    ]
}

/// Loop 0 stores A0 at `store`, loop 1 reads it at `read`.
fn apart(length: u32, j: (u32, u32), store: i16, k: (u32, u32), read: i16) -> Vec<u8> {
    let arrays = Encoder::new().array(length).array(length);
    let one = arrays.a_loop(j.0, j.1, 0, store).constant(1);
    // Its own store stays inside the array wherever its read does.
    one.a_loop(k.0, k.1, 1, read).read(0, read).end().bytes
}

/// The largest offsets and distances.
fn far() -> Vec<Case> {
    let with = |j, store, k, read| apart(2_000, j, store, k, read);
    vec![
        case("-255, at the last", with((0, 255), 0, (0, 9), 255), &[(0, 0), (255, 0)]),
        case("-255, behind the last", with((0, 254), 0, (0, 9), 255), &[(0, 0), (0, 0)]),
        case("255, at the first", with((0, 9), 0, (255, 300), -255), &[(0, 0), (0, 255)]),
        case("255, at the last", with((0, 9), 0, (264, 300), -255), &[(0, 0), (0, 255)]),
        case("255, behind the last", with((0, 9), 0, (265, 300), -255), &[(0, 0), (0, 0)]),
        case("-510, at the last", with((255, 510), -255, (0, 9), 255), &[(0, 0), (510, 0)]),
        case("-510, behind the last", with((255, 509), -255, (0, 9), 255), &[(0, 0), (0, 0)]),
        case("-510, at the first", with((600, 700), -255, (0, 90), 255), &[(0, 0), (510, 0)]),
        case("-510, before the first", with((600, 700), -255, (0, 89), 255), &[(0, 0), (0, 0)]),
        case("510, at the first", with((0, 9), 255, (255, 510), -255), &[(0, 0), (0, 510)]),
        case("510, before the first", with((0, 9), 255, (255, 509), -255), &[(0, 0), (0, 0)]),
        case("510, at the last", with((0, 9), 255, (519, 700), -255), &[(0, 0), (0, 510)]),
        case("510, behind the last", with((0, 9), 255, (520, 700), -255), &[(0, 0), (0, 0)]),
        case("510 of one each", with((0, 0), 255, (510, 510), -255), &[(0, 0), (0, 510)]),
        case("-510 of one each", with((510, 510), -255, (0, 0), 255), &[(0, 0), (510, 0)]),
    ]
}

/// Indices around 65,535 and up to the highest, 65,790.
fn high() -> Vec<Case> {
    let with = |j, store, k, read| apart(65_536, j, store, k, read);
    let (over, below, above) = ((65_530, 65_540), (65_530, 65_535), (65_536, 65_540));
    let (last, top) = ((65_780, 65_789), (65_790, 65_790));
    vec![
        case("across 65,536, backward", with(over, -10, over, -9), &[(0, 0), (1, 0)]),
        case("across 65,536, forward", with(over, -10, over, -11), &[(0, 0), (0, 1)]),
        case("65,535 and 1 is 65,536", with(below, -10, above, -11), &[(0, 0), (0, 1)]),
        case("65,535 less 1 is below it", with(below, -10, above, -9), &[(0, 0), (0, 0)]),
        case("65,536 less 1 is 65,535", with(above, -10, below, -9), &[(0, 0), (1, 0)]),
        case("65,536 and 1 is above it", with(above, -10, below, -11), &[(0, 0), (0, 0)]),
        case("the highest index, met", with(last, -254, top, -255), &[(0, 0), (0, 1)]),
        case("the highest index, missed", with((65_780, 65_788), -254, top, -255), &[(0, 0); 2]),
        case("behind the highest", with(top, -255, last, -254), &[(0, 0), (1, 0)]),
        case("missed behind it", with(top, -255, (65_780, 65_788), -254), &[(0, 0); 2]),
        case("all of an array, forward", with((0, 65_535), 0, top, -255), &[(0, 0), (0, 255)]),
        case("all but one of it", with((0, 65_534), 0, top, -255), &[(0, 0), (0, 0)]),
    ]
}

/// Each loop stores the array of its own number, over its bounds, and reads
/// the one before it at its offset.
fn chain(loops: &[((u32, u32), i16)]) -> Vec<u8> {
    let mut encoder = Encoder::new().repeat(loops.len(), |e| e.array(8_000));
    for (k, &((first, last), offset)) in loops.iter().enumerate() {
        encoder = encoder.a_loop(first, last, k as u8, 0);
        encoder = match k.checked_sub(1) {
            None => encoder.constant(1),
            Some(before) => encoder.read(before as u8, offset),
        };
    }
    encoder.end().bytes
}

/// Each dependence of a chain counts by itself.
fn chains() -> Vec<Case> {
    let elsewhere = [((3, 3), 0), ((1, 9), 2), ((7, 7), 2)];
    let ahead = [((3, 3), 0), ((2, 20), -2), ((9, 9), -2)];
    let cut = [((1, 9), 0), ((1, 4), 2), ((5, 9), 0)];
    let uncut = [((1, 9), 0), ((1, 5), 2), ((5, 9), 0)];
    let late = [((1, 4), 0), ((5, 9), 2), ((5, 9), 1)];
    let middle = [((1, 9), 0), ((1, 9), 2), ((8, 9), 2), ((1, 9), 2)];
    vec![
        case("met at 3 and then at 9", chain(&elsewhere), &[(0, 0), (2, 0), (4, 0)]),
        case("met at 3 and then at 7", chain(&ahead), &[(0, 0), (0, 2), (0, 4)]),
        case("cut by distance 0", chain(&cut), &[(0, 0), (2, 0), (0, 0)]),
        case("not cut by distance 0", chain(&uncut), &[(0, 0), (2, 0), (2, 0)]),
        case("cut at its beginning", chain(&late), &[(0, 0), (0, 0), (1, 0)]),
        case("cut in its middle", chain(&middle), &[(0, 0), (2, 0), (0, 0), (2, 0)]),
    ]
}

/// Sixteen loops, loop k over bounds that `bounds` gives, reading what the one
/// before stores at `offset`.
fn row(bounds: impl Fn(u32) -> (u32, u32), offset: i16) -> Vec<u8> {
    chain(&(0..16).map(|k| (bounds(k), offset)).collect::<Vec<_>>())
}

fn sixteen() -> Vec<Case> {
    let none = [(0, 0); 16];
    let shifts = |amount: u32| (0..16).map(|k| (amount * k, 0)).collect::<Vec<_>>();
    let peels = |amount: u32| (0..16).map(|k| (0, amount * k)).collect::<Vec<_>>();
    let tens = |k| (10 * k, 10 * k + 9);
    let falling = |k| (10 * (15 - k), 10 * (15 - k) + 9);
    vec![
        case("ten each, rising, backward", row(tens, 1), &none),
        case("ten each, rising, forward", row(tens, -1), &peels(1)),
        case("ten each, rising, 19 ahead", row(|k| (10 * k + 20, 10 * k + 29), -19), &peels(19)),
        case("ten each, rising, 20 ahead", row(|k| (10 * k + 20, 10 * k + 29), -20), &none),
        case("ten each, falling, backward", row(falling, 1), &shifts(1)),
        case(
            "ten each, falling, forward",
            row(|k| (falling(k).0 + 1, falling(k).1 + 1), -1),
            &none,
        ),
        case("one each, alike, backward", row(|_| (5, 5), 1), &none),
        case("one each, alike, forward", row(|_| (5, 5), -1), &none),
        case("two each, alike, backward", row(|_| (5, 6), 1), &shifts(1)),
        case("two each, alike, forward", row(|_| (5, 6), -1), &peels(1)),
        case(
            "one each, 255 apart, forward",
            row(|k| (255 * k + 255, 255 * k + 255), -255),
            &peels(255),
        ),
        case("one each, 254 apart, forward", row(|k| (254 * k + 255, 254 * k + 255), -255), &none),
        case(
            "one each, 255 apart, backward",
            row(|k| (255 * (15 - k), 255 * (15 - k)), 255),
            &shifts(255),
        ),
        case(
            "one each, 254 apart, backward",
            row(|k| (254 * (15 - k), 254 * (15 - k)), 255),
            &none,
        ),
    ]
}

#[cfg(test)]
mod tests {
    use super::*;
    use crate::planner::amounts;
    use crate::reader::read;

    #[test]
    fn the_second_planner_finds_what_is_typed() {
        for case in cases() {
            let table = read(&case.bytes).expect(case.name);
            let found: Vec<(u32, u32)> =
                amounts(&table).iter().map(|one| (one.shift as u32, one.peel as u32)).collect();
            assert_eq!(found, case.amounts, "{}", case.name);
        }
    }
}
