//! Every limit of a table from both sides. The answer that each table gets is
//! typed here from the grounds' words, not computed.

use crate::encoder::Encoder;
use crate::examples::{reads_own_array, EXAMPLE};
use crate::further;
use crate::outcome::Answer;

pub struct Case {
    pub name: &'static str,
    pub bytes: Vec<u8>,
    pub answer: Answer,
}

pub fn cases() -> Vec<Case> {
    [
        counts(),
        array_fields(),
        loop_fields(),
        read_fields(),
        bodies(),
        edges(),
        endings(),
        serial(),
        named_reads(),
        reads_between(),
        several_loops(),
        orders(),
        further::cases(),
    ]
    .into_iter()
    .flatten()
    .collect()
}

/// Accepted (number 0), or a ground that names nothing.
pub fn case(name: &'static str, encoder: Encoder, number: u64, place: u64) -> Case {
    Case { name, bytes: encoder.bytes, answer: [number, place, 0, 0] }
}

/// Ground 9 of a loop of one statement: the pair of its destination and of a
/// read, counted from 0 among the reads.
fn names(name: &'static str, encoder: Encoder, place: u64, read: u64) -> Case {
    pair(name, encoder, place, (0, read + 1))
}

/// Ground 9 with its loop and the pair of references of that loop.
pub fn pair(name: &'static str, encoder: Encoder, place: u64, pair: (u64, u64)) -> Case {
    Case { name, bytes: encoder.bytes, answer: [9, place, pair.0, pair.1] }
}

pub fn new() -> Encoder {
    Encoder::new()
}

/// One array, one loop from `first` to `last` that stores at `offset`, and a
/// constant as its body: 23 bytes, the loop at place 5, the end at 22.
fn one_loop(length: u32, first: u32, last: u32, offset: i16) -> Encoder {
    new().array(length).a_loop(first, last, 0, offset).constant(1).end()
}

/// A loop over 256 to 300 that stores array 0 and reads array 1 at `offset`;
/// the read stands at place 22.
fn one_read(length: u32, offset: i16) -> Encoder {
    new().array(1_000).array(length).a_loop(256, 300, 0, 0).read(1, offset).end()
}

/// One array of 5 and a loop from 0 to 4, its body open: the items begin at
/// place 17.
fn open_body() -> Encoder {
    new().array(5).a_loop(0, 4, 0, 0)
}

fn counts() -> Vec<Case> {
    let arrays = |count| new().repeat(count, |e| e.array(3));
    let loops = |count| new().array(3).repeat(count, |e| e.a_loop(0, 2, 0, 0).constant(1)).end();
    let items = |count: usize| open_body().constant(1).repeat(count - 1, |e| e.operation(5));
    vec![
        case("one array", one_loop(3, 0, 2, 0), 0, 0),
        case("16 arrays", arrays(16).a_loop(0, 2, 15, 0).constant(1).end(), 0, 0),
        case("17 arrays", arrays(17).a_loop(0, 2, 16, 0).constant(1).end(), 4, 80),
        case("17th array cut short", arrays(16).raw(&[1, 3]), 4, 80),
        case("16th array cut short", arrays(15).raw(&[1, 3]), 1, 75),
        case("16 loops", loops(16), 0, 0),
        case("17 loops", loops(17), 4, 277),
        case(
            "17th loop cut short",
            new().array(3).repeat(16, |e| e.a_loop(0, 2, 0, 0).constant(1)).raw(&[2]),
            4,
            277,
        ),
        case("32 items", items(32).end(), 0, 0),
        case("33 items", items(33).end(), 4, 84),
        case("33rd item cut short", items(32).raw(&[4, 0]), 4, 84),
        case(
            "32 items and a second body of 32",
            items(32).a_loop(0, 4, 0, 0).constant(1).repeat(31, |e| e.operation(5)).end(),
            0,
            0,
        ),
    ]
}

fn array_fields() -> Vec<Case> {
    let fill = |count| new().repeat(count, |e| e.array(65_536));
    vec![
        case("array of 0", one_loop(0, 0, 0, 0), 3, 0),
        case("array of 1", one_loop(1, 0, 0, 0), 0, 0),
        case("array of 65,536", one_loop(65_536, 0, 65_535, 0), 0, 0),
        case("array of 65,537", one_loop(65_537, 0, 65_535, 0), 3, 0),
        case("array of 2^32 - 1", one_loop(u32::MAX, 0, 0, 0), 3, 0),
        case("262,144 elements", fill(4).a_loop(0, 9, 3, 0).constant(1).end(), 0, 0),
        case("262,145 elements", fill(4).array(1).a_loop(0, 9, 3, 0).constant(1).end(), 4, 20),
        case("a wrong length above the total", fill(4).array(65_537), 3, 20),
        case("length 0 at the full total", fill(4).array(0), 3, 20),
        case("length cut short at the full total", fill(4).raw(&[1, 1, 0, 0]), 1, 20),
    ]
}

fn loop_fields() -> Vec<Case> {
    vec![
        // No array reaches index 131,071, so the last allowed value of last
        // meets ground 7 and the next one ground 3.
        case("last 131,071", one_loop(65_536, 0, 131_071, -255), 7, 5),
        case("last 131,072", one_loop(65_536, 0, 131_072, -255), 3, 5),
        case("first 2^32 - 1", one_loop(65_536, u32::MAX, 5, 0), 3, 5),
        case("last 2^32 - 1", one_loop(65_536, 0, u32::MAX, 0), 3, 5),
        case("last 65,790 at offset -255", one_loop(65_536, 255, 65_790, -255), 0, 0),
        case("last 65,791 at offset -255", one_loop(65_536, 255, 65_791, -255), 7, 5),
        case("first = last", one_loop(9, 4, 4, 0), 0, 0),
        case("first = last + 1", one_loop(9, 5, 4, 0), 3, 5),
        case("first = last = 131,072", one_loop(9, 131_072, 131_072, 0), 3, 5),
        case("loop offset 255", one_loop(1_000, 0, 9, 255), 0, 0),
        case("loop offset 256", one_loop(1_000, 0, 9, 256), 3, 5),
        case("loop offset -255", one_loop(1_000, 255, 300, -255), 0, 0),
        case("loop offset -256", one_loop(1_000, 256, 300, -256), 3, 5),
        case("loop offset -32,768", one_loop(1_000, 256, 300, i16::MIN), 3, 5),
        case("destination one above the last array", new().array(9).a_loop(0, 2, 1, 0), 5, 5),
        case("destination 255", new().array(9).a_loop(0, 2, 255, 0), 5, 5),
        case("loop before any array", new().a_loop(0, 2, 0, 0), 5, 0),
        case("loop before any array, first above last", new().a_loop(3, 2, 0, 0), 3, 0),
    ]
}

fn read_fields() -> Vec<Case> {
    vec![
        case("read offset 255", one_read(600, 255), 0, 0),
        case("read offset 256", one_read(600, 256), 3, 22),
        case("read offset -255", one_read(600, -255), 0, 0),
        case("read offset -256", one_read(600, -256), 3, 22),
        case("read offset 32,767", one_read(600, i16::MAX), 3, 22),
        case("read of the last array", open_body().read(0, 0).end(), 0, 0),
        case("read one above the last array", open_body().read(1, 0).end(), 5, 17),
        case("operation 0", open_body().constant(1).operation(0), 3, 22),
        case("operation 6", open_body().constant(1).operation(6), 3, 22),
        case("constant 2^32 - 1", open_body().constant(u32::MAX).end(), 0, 0),
    ]
}

fn bodies() -> Vec<Case> {
    let waiting = |count| open_body().repeat(count, |e| e.constant(1));
    vec![
        case("8 waiting", waiting(8).repeat(7, |e| e.operation(1)).end(), 0, 0),
        case("9 waiting, by a constant", waiting(9), 6, 57),
        case("9 waiting, by a read", waiting(8).read(0, 0), 6, 57),
        case(
            "8 waiting twice",
            waiting(8).operation(4).constant(1).repeat(7, |e| e.operation(3)).end(),
            0,
            0,
        ),
        case("9 waiting later on", waiting(8).operation(4).constant(1).constant(1), 6, 64),
        case("negate with none waiting", open_body().operation(5), 6, 17),
        case("negate with one waiting", open_body().constant(1).operation(5).end(), 0, 0),
        case("add with one waiting", open_body().constant(1).operation(1), 6, 22),
        case("add with two waiting", waiting(2).operation(1).end(), 0, 0),
        case("end with none waiting", open_body().end(), 6, 17),
        case("end with two waiting", waiting(2).end(), 6, 27),
        case("loop with none waiting", open_body().a_loop(0, 4, 0, 0), 6, 17),
        case("loop with two waiting", waiting(2).a_loop(0, 4, 0, 0), 6, 27),
        case(
            "32 items and 2 waiting at the end",
            waiting(2).repeat(30, |e| e.operation(5)).end(),
            6,
            87,
        ),
    ]
}

fn edges() -> Vec<Case> {
    vec![
        case("store at element 0", one_loop(9, 3, 5, -3), 0, 0),
        case("store at element -1", one_loop(9, 3, 5, -4), 7, 5),
        case("store at the last element", one_loop(9, 3, 5, 3), 0, 0),
        case("store one past the last element", one_loop(9, 3, 5, 4), 7, 5),
        case("read at the last element", one_read(311, 10), 0, 0),
        case("read one past the last element", one_read(310, 10), 7, 22),
        case("read at element -1", new().array(9).a_loop(3, 5, 0, 0).read(0, -4), 7, 17),
        case("read at element 0", new().array(9).a_loop(3, 5, 0, -3).read(0, -3).end(), 0, 0),
    ]
}

fn endings() -> Vec<Case> {
    let good = || one_loop(3, 0, 2, 0);
    vec![
        case("empty", new(), 1, 0),
        case("the example", new().raw(&EXAMPLE), 0, 0),
        case("the example, its end missing", new().raw(&EXAMPLE[..60]), 1, 60),
        case("the example, cut inside a record", new().raw(&EXAMPLE[..59]), 1, 58),
        case("the example, one byte more", new().raw(&EXAMPLE).raw(&[0]), 8, 61),
        case("the example, a second end", new().raw(&EXAMPLE).end(), 8, 61),
        case("the example twice", new().raw(&EXAMPLE).raw(&EXAMPLE), 8, 61),
        case("end missing", new().array(3).a_loop(0, 2, 0, 0).constant(1), 1, 22),
        case("tail of one byte", good().raw(&[255]), 8, 23),
        case("end alone", new().end(), 2, 0),
        case("end after an array", new().array(3).end(), 2, 5),
        case("kind 0", new().raw(&[0]), 2, 0),
        case("kind 8", new().array(3).raw(&[8]), 2, 5),
        case("kind 8 in a body", open_body().constant(1).raw(&[8]), 2, 22),
        case("kind 255", open_body().raw(&[255]), 2, 17),
        case("item before any loop", new().array(3).constant(1), 2, 5),
        case("read before any array", new().read(0, 0), 2, 0),
        case("operation before any array, cut short", new().raw(&[5]), 2, 0),
    ]
}

fn serial() -> Vec<Case> {
    let own = |offset| new().raw(&reads_own_array(offset));
    let twice = |offset| {
        new()
            .array(22)
            .a_loop(1, 10, 0, 0)
            .constant(0)
            .a_loop(1, 10, 0, 1)
            .read(0, 1)
            .read(0, offset)
            .operation(1)
            .end()
    };
    let farthest = |last| new().array(1_021).a_loop(255, last, 0, -255).read(0, 255).end();
    vec![
        names("distance 9 in ten iterations", own(9), 0, 0),
        case("distance 10 in ten iterations", own(10), 0, 0),
        case("distance 0", own(0), 0, 0),
        names("distance 1", own(1), 0, 0),
        names("distance -1", own(-1), 0, 0),
        names("second loop, distance 9", twice(10), 1, 1),
        case("second loop, distance 10", twice(11), 0, 0),
        case("second loop, distance 0", twice(1), 0, 0),
        case("one iteration", new().array(9).a_loop(4, 4, 0, 0).read(0, 1).end(), 0, 0),
        names("two iterations", new().array(9).a_loop(4, 5, 0, 0).read(0, 1).end(), 0, 0),
        names("distance 510 in 511 iterations", farthest(765), 0, 0),
        case("distance 510 in 510 iterations", farthest(764), 0, 0),
        case("serial and a tail", own(9).raw(&[0]), 8, 22),
        case("serial, its end missing", new().raw(&reads_own_array(9)[..21]), 1, 21),
    ]
}

/// A loop from 20 to 29 that stores array 0 at offset 0, over two arrays of
/// 60; the reads are summed.
fn summed(encoder: Encoder, reads: &[(u8, i16)]) -> Encoder {
    let body = encoder.a_loop(20, 29, 0, 0).constant(0);
    reads.iter().fold(body, |body, &(array, offset)| body.read(array, offset).operation(1))
}

fn two_arrays() -> Encoder {
    new().array(60).array(60)
}

/// Ten iterations: a read of array 0 collides at the distances 1 to 9.
fn named_reads() -> Vec<Case> {
    let one = |reads: &[(u8, i16)]| summed(two_arrays(), reads).end();
    vec![
        names("all of three reads collide", one(&[(0, 1), (0, 2), (0, 3)]), 0, 0),
        names("the farther read stands first", one(&[(0, 9), (0, 1)]), 0, 0),
        names("the nearer read stands first", one(&[(0, 1), (0, 9)]), 0, 0),
        names("the same read twice", one(&[(1, 1), (0, 1), (0, 1)]), 0, 1),
        names("own offset, then distance 1", one(&[(0, 0), (0, 1)]), 0, 1),
        names("distance 10, then 9", one(&[(0, 10), (0, 9)]), 0, 1),
        names("distance -10, then -9", one(&[(0, -10), (0, -9)]), 0, 1),
        names(
            "distances 10, -10, 0, then -1 and 1",
            one(&[(0, 10), (0, -10), (0, 0), (0, -1), (0, 1)]),
            0,
            3,
        ),
        names("another array's reads, then distance 1", one(&[(1, 1), (1, -1), (0, 1)]), 0, 2),
        names(
            "distance 1, then all that do not collide",
            one(&[(0, 1), (0, 0), (0, 10), (1, 1)]),
            0,
            0,
        ),
        names(
            "a colliding read between others",
            one(&[(1, 3), (0, 0), (0, -9), (0, 11), (1, 0)]),
            0,
            2,
        ),
        case("none collides", one(&[(0, 0), (0, 10), (0, -10), (1, 1), (1, 9)]), 0, 0),
    ]
}

/// Constants and operations have no number among the reads. A body of 32
/// items has at most 16 reads.
fn reads_between() -> Vec<Case> {
    let open = || two_arrays().a_loop(20, 29, 0, 0);
    let last = |count, offset| {
        let body = open().read(1, 1).repeat(count, |e| e.read(1, 1).operation(1));
        body.read(0, offset).operation(1).end()
    };
    vec![
        names(
            "behind constants",
            open().constant(3).constant(4).operation(3).read(0, 1).operation(2).end(),
            0,
            0,
        ),
        names(
            "behind operations",
            open().read(1, 1).operation(5).operation(5).read(0, 1).operation(4).end(),
            0,
            1,
        ),
        names("negated", open().read(0, 1).operation(5).operation(5).end(), 0, 0),
        names("the sixteenth read", last(14, 1), 0, 15),
        case("the sixteenth read at its own offset", last(14, 0), 0, 0),
    ]
}

/// The lowest serial loop decides, and reads are counted in that loop alone.
fn several_loops() -> Vec<Case> {
    let both =
        |one: &[(u8, i16)], other: &[(u8, i16)]| summed(summed(two_arrays(), one), other).end();
    let (none, late, early) = ([(1, 1), (0, 0)], [(1, 2), (0, 10), (0, 1)], [(0, 1)]);
    vec![
        names("the first loop alone is serial", both(&late, &none), 0, 2),
        names("the second loop alone is serial", both(&none, &late), 1, 2),
        names("both are, the second by a lower read", both(&late, &early), 0, 2),
        names("both are, the second by a higher read", both(&early, &late), 0, 0),
        names(
            "a read in the first loop, then read 1 of the second",
            both(&[(1, 1)], &[(0, 0), (0, 1)]),
            1,
            1,
        ),
        case("the second loop reads what the first stores", both(&none, &[(1, 0), (0, 0)]), 0, 0),
        names(
            "the sixteenth loop alone is serial",
            summed((0..15).fold(two_arrays(), |table, _| summed(table, &none)), &late).end(),
            15,
            2,
        ),
    ]
}

/// Tables that meet several grounds at once.
fn orders() -> Vec<Case> {
    let full_loops =
        || new().array(3).repeat(15, |e| e.a_loop(0, 2, 0, 0).constant(1)).a_loop(0, 2, 0, 0);
    let waiting = |count| open_body().repeat(count, |e| e.constant(1));
    vec![
        case("array after an open body", open_body().array(3), 2, 17),
        case(
            "17th array after a loop",
            new().repeat(16, |e| e.array(3)).a_loop(0, 2, 0, 0).array(3),
            2,
            92,
        ),
        case("17th loop after an open body", full_loops().a_loop(0, 2, 0, 0), 6, 272),
        case("wrong loop after an open body", open_body().a_loop(9, 0, 9, 999), 6, 17),
        case("cut loop after an open body", open_body().raw(&[2]), 6, 17),
        case("first above last and no such array", new().array(3).a_loop(2, 1, 9, 999), 3, 5),
        case("no such array and a wrong offset", new().array(3).a_loop(0, 2, 9, 999), 5, 5),
        case("a wrong offset that leaves the array", new().array(3).a_loop(0, 2, 0, 999), 3, 5),
        case("read of no such array with a wrong offset", open_body().read(9, 999), 5, 17),
        case("ninth read of no such array", waiting(8).read(9, 0), 5, 57),
        case("ninth read with a wrong offset", waiting(8).read(0, 999), 3, 57),
        case("ninth read that leaves the array", waiting(8).read(0, 5), 6, 57),
        case("eighth read that leaves the array", waiting(7).read(0, 5), 7, 52),
        case("operation 6 with none waiting", open_body().operation(6), 3, 17),
        case("ninth constant cut short", waiting(8).raw(&[4, 1]), 1, 57),
        case(
            "33rd item with a wrong field",
            waiting(1).repeat(31, |e| e.operation(5)).operation(9),
            4,
            84,
        ),
        case(
            "33rd item, none of its kind's order",
            waiting(1).repeat(31, |e| e.operation(5)).array(1),
            2,
            84,
        ),
    ]
}
