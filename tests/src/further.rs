//! Every limit of a further statement from both sides, the order of its tests,
//! and the pairs of references that ground 9 names. The answer that each table
//! gets is typed here from the grounds' words, not computed.

use crate::encoder::Encoder;
use crate::examples::TWO_STATEMENTS;
use crate::limits::{case, new, pair, Case};

pub fn cases() -> Vec<Case> {
    [
        counts(),
        items(),
        waiting(),
        fields(),
        orders(),
        ends(),
        pairs(),
        least(),
        stores(),
        far_stores(),
        between(),
        loops(),
    ]
    .into_iter()
    .flatten()
    .collect()
}

/// One array of 5 and a loop from 0 to 4 with a finished body: what follows
/// stands at place 22.
fn finished() -> Encoder {
    new().array(5).a_loop(0, 4, 0, 0).constant(1)
}

/// The same with so many further statements, each of 9 bytes.
fn further(count: usize) -> Encoder {
    finished().repeat(count, |e| e.statement(0, 0).constant(1))
}

fn counts() -> Vec<Case> {
    let next = || further(3).a_loop(0, 4, 0, 0).constant(2);
    vec![
        case("two statements, typed", new().raw(&TWO_STATEMENTS), 0, 0),
        case("two statements", further(1).end(), 0, 0),
        case("four statements", further(3).end(), 0, 0),
        case("a fifth statement", further(4).end(), 4, 49),
        case("a fifth statement cut short", further(3).raw(&[7]), 4, 49),
        case("a fifth statement of no such array", further(3).statement(9, 999), 4, 49),
        case("a fourth statement cut short", further(2).raw(&[7, 0, 0]), 1, 40),
        case(
            "four statements and four of the next loop",
            next().repeat(3, |e| e.statement(0, 0).constant(1)).end(),
            0,
            0,
        ),
        case(
            "a fifth statement of the next loop",
            next().repeat(4, |e| e.statement(0, 0).constant(1)).end(),
            4,
            93,
        ),
    ]
}

/// So many items over three statements: one, one, and the rest.
fn items_of(count: usize) -> Encoder {
    further(2).repeat(count - 3, |e| e.operation(5))
}

fn items() -> Vec<Case> {
    vec![
        case("32 items over three statements", items_of(32).end(), 0, 0),
        case("33 items over three statements", items_of(33).end(), 4, 98),
        case("33rd item cut short in a third statement", items_of(32).raw(&[4]), 4, 98),
        case("a statement behind 32 items", items_of(32).statement(0, 0), 1, 102),
        case("its first item", items_of(32).statement(0, 0).constant(1).end(), 4, 102),
        case("its body left empty", items_of(32).statement(0, 0).end(), 6, 102),
        case(
            "31 items and a statement of one",
            items_of(31).statement(0, 0).constant(1).end(),
            0,
            0,
        ),
        case(
            "31 items and a statement of two",
            items_of(31).statement(0, 0).constant(1).operation(5).end(),
            4,
            105,
        ),
        case(
            "32 items, then a loop with 32",
            {
                let next = items_of(32).a_loop(0, 4, 0, 0).constant(1);
                next.repeat(31, |e| e.operation(5)).end()
            },
            0,
            0,
        ),
    ]
}

/// Waiting numbers begin anew with each statement.
fn waiting() -> Vec<Case> {
    let waiting = |count| finished().statement(0, 0).repeat(count, |e| e.constant(1));
    vec![
        case(
            "8 waiting in a second statement",
            waiting(8).repeat(7, |e| e.operation(1)).end(),
            0,
            0,
        ),
        case("9 waiting in a second statement", waiting(9), 6, 66),
        case(
            "the number of the first statement is not waiting",
            finished().statement(0, 0).constant(1).operation(1),
            6,
            31,
        ),
        case("nor to be negated", finished().statement(0, 0).operation(5), 6, 26),
    ]
}

/// A loop from 3 to 5 over two arrays of 9 with a finished body; what follows
/// stands at place 27.
fn inner() -> Encoder {
    new().array(9).array(9).a_loop(3, 5, 0, 0).constant(1)
}

fn fields() -> Vec<Case> {
    let wide = || new().array(1_000).array(1_000).a_loop(256, 300, 0, 0).constant(1);
    let at = |offset| wide().statement(1, offset).constant(1).end();
    let stores = |offset| inner().statement(1, offset).constant(1).end();
    vec![
        case("a statement of the last array", stores(0), 0, 0),
        case("a statement one above the last array", inner().statement(2, 0), 5, 27),
        case("a statement of array 255", inner().statement(255, 0), 5, 27),
        case("statement offset 255", at(255), 0, 0),
        case("statement offset 256", at(256), 3, 27),
        case("statement offset -255", at(-255), 0, 0),
        case("statement offset -256", at(-256), 3, 27),
        case("statement offset -32,768", at(i16::MIN), 3, 27),
        case("statement offset 32,767", at(i16::MAX), 3, 27),
        case("a statement at element 0", stores(-3), 0, 0),
        case("a statement at element -1", stores(-4), 7, 27),
        case("a statement at the last element", stores(3), 0, 0),
        case("a statement one past the last element", stores(4), 7, 27),
    ]
}

/// 2, 6, 4, 1, 5, 3, 7.
fn orders() -> Vec<Case> {
    let open = || new().array(5).a_loop(0, 4, 0, 0);
    let full = || further(3);
    vec![
        case("a statement alone", new().statement(0, 0), 2, 0),
        case("a statement before any array, cut short", new().raw(&[7]), 2, 0),
        case("a statement before any loop", new().array(5).statement(0, 0), 2, 5),
        case("a cut statement before any loop", new().array(5).raw(&[7, 0]), 2, 5),
        case("a statement before any loop, of no array", new().array(5).statement(9, 999), 2, 5),
        case("a statement with none waiting", open().statement(0, 0), 6, 17),
        case("a statement with two waiting", open().constant(1).constant(1).statement(0, 0), 6, 27),
        case(
            "a statement with eight waiting",
            open().repeat(8, |e| e.constant(1)).statement(0, 0),
            6,
            57,
        ),
        case("a cut statement with none waiting", open().raw(&[7]), 6, 17),
        case("a wrong statement with none waiting", open().statement(9, 999), 6, 17),
        case("a statement behind an empty one", finished().statement(0, 0).statement(0, 0), 6, 26),
        case("an end behind an empty one", finished().statement(0, 0).end(), 6, 26),
        case("a loop behind an empty one", finished().statement(0, 0).a_loop(0, 4, 0, 0), 6, 26),
        case("a fifth with none waiting", further(2).statement(0, 0).statement(0, 0), 6, 44),
        case("a fifth with two waiting", full().constant(1).statement(0, 0), 6, 54),
        case("a fifth with two waiting, cut", full().constant(1).raw(&[7]), 6, 54),
        case("a cut statement", finished().raw(&[7]), 1, 22),
        case("a statement cut behind its array", finished().raw(&[7, 9]), 1, 22),
        case("a statement cut in its offset", finished().raw(&[7, 9, 255]), 1, 22),
        case("no such array and a wrong offset", finished().statement(9, 999), 5, 22),
        case("a wrong offset that leaves the array", finished().statement(0, 999), 3, 22),
        case("an offset that leaves the array", finished().statement(0, 1), 7, 22),
        case("an array after a statement", finished().statement(0, 0).array(3), 2, 26),
        case("a tail behind statements", further(3).end().raw(&[7]), 8, 50),
    ]
}

/// The longest table, and the longest bytes that meet no ground before their
/// end: 16 arrays and loops of four statements. Bodies of 5, 5, 4 and 4
/// constants have 32 items; the last loop has 5, 5, 4 and 7 instead.
fn ends() -> Vec<Case> {
    let body = |e: Encoder, count: usize| {
        e.repeat(count, |e| e.constant(1)).repeat(count - 1, |e| e.operation(1))
    };
    let three = |e: Encoder| {
        let e = body(body(e.a_loop(0, 2, 0, 0), 5).statement(1, 0), 5);
        body(e.statement(2, 0), 4).statement(3, 0)
    };
    let arrays = || new().repeat(16, |e| e.array(3));
    let longest = || arrays().repeat(16, |e| body(three(e), 4));
    let unfinished = || {
        let before = arrays().repeat(15, |e| body(three(e), 4));
        three(before).repeat(7, |e| e.constant(1))
    };
    vec![
        case("the longest table", longest().end(), 0, 0),
        case("the longest table and a tail", longest().end().raw(&[0]), 8, 2_353),
        case("the longest table, its end missing", longest(), 1, 2_352),
        case("the longest row, its end missing", unfinished(), 1, 2_361),
        case("the longest row, its body not finished", unfinished().end(), 6, 2_361),
        case("the longest row and a 33rd item", unfinished().operation(1), 4, 2_361),
        case("the longest row and a statement", unfinished().statement(0, 0), 6, 2_361),
        case("the longest row and no record", unfinished().raw(&[8, 0, 0]), 2, 2_361),
    ]
}

/// A loop from 20 to 29 over three arrays of 60. Each row is a statement: where
/// it stores, and what it reads. Offsets of one array collide where they are 1
/// to 9 apart.
type Rows<'a> = &'a [((u8, i16), &'a [(u8, i16)])];

fn a_loop(encoder: Encoder, rows: Rows) -> Encoder {
    let open = |e: Encoder, number: usize, (array, offset): (u8, i16)| match number {
        0 => e.a_loop(20, 29, array, offset).constant(0),
        _ => e.statement(array, offset).constant(0),
    };
    rows.iter().enumerate().fold(encoder, |e, (number, &(to, reads))| {
        reads.iter().fold(open(e, number, to), |e, &(q, c)| e.read(q, c).operation(1))
    })
}

fn three_arrays() -> Encoder {
    new().array(60).array(60).array(60)
}

fn one(rows: Rows) -> Encoder {
    a_loop(three_arrays(), rows).end()
}

/// Destinations and reads of one loop. The references are numbered 0 (the
/// first destination), then its reads, then the second destination, and so on.
fn pairs() -> Vec<Case> {
    vec![
        pair(
            "a read of a later destination",
            one(&[((0, 0), &[(1, 1)]), ((1, 0), &[])]),
            0,
            (1, 2),
        ),
        pair("a later read of the first", one(&[((0, 0), &[]), ((1, 0), &[(0, 1)])]), 0, (0, 2)),
        pair("a read of its own", one(&[((0, 0), &[(2, 0)]), ((1, 0), &[(1, -9)])]), 0, (2, 3)),
        case("a read ten ahead", one(&[((0, 0), &[]), ((1, 0), &[(0, 10)])]), 0, 0),
        case("a later destination ten ahead", one(&[((0, 0), &[(1, 0)]), ((1, 10), &[])]), 0, 0),
        case("what is stored before, read", one(&[((0, 0), &[]), ((1, 0), &[(0, 0)])]), 0, 0),
        case("what is stored behind, read", one(&[((0, 0), &[(1, 0)]), ((1, 0), &[])]), 0, 0),
        case("two reads", one(&[((0, 0), &[(2, 0)]), ((1, 0), &[(2, 1), (2, -1)])]), 0, 0),
    ]
}

/// The least by the lower number, and then by the higher one.
fn least() -> Vec<Case> {
    vec![
        // 1 and 4 collide, and 2 and 3 do: the lower number is what counts.
        pair(
            "least by the lower, not by the higher",
            one(&[((0, 0), &[(2, 1), (1, 1)]), ((1, 0), &[]), ((2, 0), &[])]),
            0,
            (1, 4),
        ),
        pair(
            "a lower number with a far higher one",
            one(&[((0, 0), &[(1, 1)]), ((1, 0), &[]), ((1, 0), &[(0, 1)])]),
            0,
            (0, 4),
        ),
        pair(
            "of two with the same lower that of the least higher",
            one(&[((0, 0), &[(2, 5)]), ((2, 0), &[]), ((2, 0), &[])]),
            0,
            (1, 2),
        ),
        pair(
            "one apart behind ten apart and the same",
            one(&[((0, 0), &[(2, 5)]), ((2, -5), &[]), ((2, 5), &[]), ((2, 4), &[])]),
            0,
            (1, 4),
        ),
    ]
}

/// Two destinations of one array.
fn stores() -> Vec<Case> {
    vec![
        case("one place stored twice", one(&[((0, 3), &[]), ((0, 3), &[])]), 0, 0),
        pair("two places, one apart", one(&[((0, 3), &[]), ((0, 4), &[])]), 0, (0, 1)),
        pair("two places, one back", one(&[((0, 3), &[]), ((0, 2), &[])]), 0, (0, 1)),
        pair("two places, nine apart", one(&[((0, 0), &[]), ((0, 9), &[])]), 0, (0, 1)),
        case("two places, ten apart", one(&[((0, 0), &[]), ((0, 10), &[])]), 0, 0),
        pair(
            "the second and the fourth",
            one(&[((0, 0), &[(0, 0)]), ((1, 0), &[]), ((2, 0), &[(0, 0)]), ((1, 1), &[])]),
            0,
            (2, 5),
        ),
        pair(
            "the third and the fourth",
            one(&[((0, 0), &[]), ((1, 0), &[]), ((2, -1), &[]), ((2, 1), &[])]),
            0,
            (2, 3),
        ),
        pair(
            "destinations before a lower read's pair",
            one(&[((0, 0), &[(1, 9)]), ((0, 1), &[]), ((1, 0), &[])]),
            0,
            (0, 2),
        ),
    ]
}

/// Two destinations that only just meet, or do not.
fn far_stores() -> Vec<Case> {
    vec![
        case(
            "one iteration stores two places",
            {
                let open = new().array(9).a_loop(4, 4, 0, 0).constant(1);
                open.statement(0, 1).read(0, 0).statement(0, -1).read(0, 1).end()
            },
            0,
            0,
        ),
        pair(
            "two iterations store two places",
            {
                let open = new().array(9).a_loop(4, 5, 0, 0).constant(1);
                open.statement(0, 1).constant(1).end()
            },
            0,
            (0, 1),
        ),
        pair("510 apart in 511 iterations", far(765), 0, (0, 1)),
        case("510 apart in 510 iterations", far(764), 0, 0),
    ]
}

fn far(last: u32) -> Encoder {
    let open = new().array(1_021).a_loop(255, last, 0, -255).constant(1);
    open.statement(0, 255).constant(1).end()
}

/// A loop of 22 references, of which the last reads array 0 at `offset` and the
/// others but the first destination are of other arrays.
fn most_references(offset: i16) -> Encoder {
    let reads = |e: Encoder, count: usize| {
        e.repeat(count, |e| e.read(2, 0)).repeat(count - 1, |e| e.operation(1))
    };
    let open = three_arrays().a_loop(20, 29, 0, 0);
    let three = reads(reads(open, 5).statement(1, 0), 5).statement(1, 0);
    let last = reads(three, 4).statement(1, 0).repeat(3, |e| e.read(2, 0));
    last.read(0, offset).repeat(3, |e| e.operation(1)).end()
}

/// Constants, operations and the loop's own record have no number. A loop of
/// four statements has at most 22 references.
fn between() -> Vec<Case> {
    let open = || three_arrays().a_loop(20, 29, 0, 0);
    vec![
        pair(
            "behind constants and operations",
            {
                let first = open().constant(3).operation(5).constant(4).operation(3);
                first.statement(1, 0).constant(2).read(0, 1).operation(2).end()
            },
            0,
            (0, 2),
        ),
        pair(
            "two destinations without a read",
            open()
                .constant(3)
                .statement(1, 0)
                .constant(4)
                .operation(5)
                .statement(0, 1)
                .constant(1)
                .end(),
            0,
            (0, 2),
        ),
        pair("the twenty-second reference", most_references(1), 0, (0, 21)),
        case("the twenty-second at its own offset", most_references(0), 0, 0),
    ]
}

/// The lowest serial loop decides, and references are counted in it alone.
fn loops() -> Vec<Case> {
    let good: Rows = &[((0, 0), &[(2, 1)]), ((1, 0), &[(0, 0)])];
    let late: Rows = &[((0, 0), &[(2, 1)]), ((1, 0), &[(0, 0), (1, 3)])];
    let early: Rows = &[((0, 0), &[]), ((0, 1), &[])];
    let both = |one: Rows, other: Rows| a_loop(a_loop(three_arrays(), one), other).end();
    vec![
        pair("the second loop alone is serial", both(good, late), 1, (2, 4)),
        pair("both are, the second by a lower pair", both(late, early), 0, (2, 4)),
        pair("both are, the second by a higher pair", both(early, late), 0, (0, 1)),
        case("the second loop stores what the first does", both(good, good), 0, 0),
        case(
            "a further statement of one loop, a read of another",
            both(&[((0, 0), &[]), ((1, 0), &[])], &[((0, 0), &[(1, 1)])]),
            0,
            0,
        ),
        case("statements that are serial, and a tail", one(early).raw(&[0]), 8, 42),
        case("statements that are serial, their end missing", a_loop(three_arrays(), early), 1, 41),
    ]
}
