//! Compares the library's joining of tables with the second implementation's.

use vempaldi_checks::collisions;
use vempaldi_checks::damage;
use vempaldi_checks::encoder::encode;
use vempaldi_checks::examples::EXAMPLE;
use vempaldi_checks::join::{join, together};
use vempaldi_checks::large;
use vempaldi_checks::lent;
use vempaldi_checks::library;
use vempaldi_checks::limits;
use vempaldi_checks::misnamed::Misnamed;
use vempaldi_checks::outcome::hex;
use vempaldi_checks::random::Random;
use vempaldi_checks::reader::read;
use vempaldi_checks::statements::Statements;
use vempaldi_checks::table::Table;
use vempaldi_checks::tables::{self, Shape, LARGE, MIDDLE, SMALL};
use vempaldi_checks::tally::Tally;

const LEAST_PAIRS: u64 = 40_000;
const LEAST_OF_EACH: u64 = 100;

fn main() {
    let mut joined = Joined::default();
    followed(&mut joined);
    for (seed, shape, count) in [(1, SMALL, 4_000), (2, MIDDLE, 1_000), (3, LARGE, 500)] {
        random_pairs(&mut joined, seed, &shape, count);
    }
    limit_cases(&mut joined);
    many_loops(&mut joined);
    colliding(&mut joined);
    joined.grounds.print("joining");
    joined.grounds.require(&[0, 1, 2, 3, 4, 5, 6, 7, 8, 9, 13, 14], LEAST_OF_EACH);
    joined.tables.print("joining, left and right tables");
    joined.tables.require(LEAST_OF_EACH);
    joined.whole.print_counts("joining, joined tables");
    joined.whole.require_counts(4, LEAST_OF_EACH);
    assert!(joined.grounds.total() >= LEAST_PAIRS, "too few pairs");
}

/// What was joined: the tables on both sides, and those that came of them.
#[derive(Default)]
struct Joined {
    grounds: Tally,
    tables: Statements,
    whole: Statements,
}

/// One pair with every room that matters: none, one byte too short, exact,
/// longer, and the longest that a joined table can need.
fn every_room(joined: &mut Joined, left: &[u8], right: &[u8]) {
    for table in [left, right] {
        joined.tables.add(table, read(table).err().as_ref());
    }
    let whole = join(left, right, usize::MAX);
    whole.iter().for_each(|bytes| joined.whole.add(bytes, None));
    let needed = whole.map_or(0, |bytes| bytes.len());
    compare(joined, left, right, needed);
    compare(joined, left, right, needed + 17);
    if needed > 0 {
        compare(joined, left, right, needed - 1);
        compare(joined, left, right, 0);
        joined_table(left, right, needed);
    }
}

/// The bytes written, the count, the answer, and that nothing else changed.
fn compare(joined: &mut Joined, left: &[u8], right: &[u8], room: usize) {
    let expected = join(left, right, room);
    let result = lent::compare(room, &expected, |out| library::join(left, right, out));
    match result {
        Ok(answer) => joined.grounds.add(answer[0]),
        Err(report) => {
            eprintln!("joining: the library and the second implementation disagree");
            eprintln!("  left     {}", hex(left));
            eprintln!("  right    {}", hex(right));
            eprintln!("{report}");
            std::process::exit(1);
        }
    }
}

/// The library's output, read again, has left's arrays and both tables'
/// loops in order.
fn joined_table(left: &[u8], right: &[u8], needed: usize) {
    let mut out = vec![0; needed];
    library::join(left, right, &mut out);
    let parts =
        together(read(left).expect("left was accepted"), read(right).expect("right was accepted"));
    assert_eq!(read(&out), Ok(parts), "the joined table reads differently");
}

fn random_pairs(joined: &mut Joined, seed: u64, shape: &Shape, count: usize) {
    let mut random = Random::new(seed);
    for _ in 0..count {
        let left = tables::any(&mut random, shape);
        let right = tables::over(&mut random, shape, &left.arrays);
        let unlike = other_arrays(&mut random, shape, &left);
        let serial = Shape { serial: true, ..*shape };
        let meeting = encode(&tables::over(&mut random, &serial, &left.arrays));
        let five = Shape { statements: 5, ..*shape };
        let crowded = encode(&tables::over(&mut random, &five, &left.arrays));
        let left = encode(&left);
        let right = encode(&right);
        let broken = broken(&mut random, &left);
        every_room(joined, &left, &right);
        every_room(joined, &left, &encode(&unlike));
        every_room(joined, &broken, &right);
        every_room(joined, &right, &broken);
        every_room(joined, &left, &crowded);
        every_room(joined, &meeting, &right);
        every_room(joined, &right, &meeting);
        every_room(joined, &broken, &meeting);
    }
}

/// 8 of the one table or of the other, with so many bytes behind it that two
/// bytes cannot tell its length.
fn followed(joined: &mut Joined) {
    let long = large::followed(&EXAMPLE);
    for (left, right) in [(&long[..], &EXAMPLE[..]), (&EXAMPLE, &long), (&long, &long)] {
        every_room(joined, left, right);
    }
}

/// A table that differs in arrays: in one length, or in their count.
fn other_arrays(random: &mut Random, shape: &Shape, like: &Table) -> Table {
    let mut arrays = like.arrays.clone();
    let place = random.below(arrays.len());
    match random.below(4) {
        0 if arrays.len() > 1 => {
            arrays.remove(place);
        }
        1 if arrays.len() < 16 && like.elements() < 262_144 => arrays.push(1),
        2 if arrays[place] > 1 => arrays[place] -= 1,
        _ if arrays[place] < 65_536 && like.elements() < 262_144 => arrays[place] += 1,
        _ => arrays.reverse(),
    }
    tables::over(random, shape, &arrays)
}

fn broken(random: &mut Random, bytes: &[u8]) -> Vec<u8> {
    match random.below(9) {
        0 => bytes[..random.below(bytes.len())].to_vec(),
        1 => damage::change_byte(random, bytes),
        2 => damage::rearrange(random, bytes),
        3 => damage::insert_byte(random, bytes),
        4 => damage::mostly_kinds(random, 60),
        5 => damage::crowd(random, bytes),
        6 | 7 => damage::statement(random, bytes),
        _ => damage::field(random, bytes),
    }
}

/// Every limit on the left and on the right of a good table.
fn limit_cases(joined: &mut Joined) {
    let mut random = Random::new(4);
    for case in limits::cases() {
        let good = match read(&case.bytes) {
            Ok(table) => tables::over(&mut random, &SMALL, &table.arrays),
            Err(_) => tables::any(&mut random, &SMALL),
        };
        every_room(joined, &case.bytes, &encode(&good));
        every_room(joined, &encode(&good), &case.bytes);
        every_room(joined, &case.bytes, &case.bytes);
    }
}

/// Every pair of loop counts, so that 16 in all is met from both sides.
fn many_loops(joined: &mut Joined) {
    let mut random = Random::new(5);
    for left in 1..=16 {
        for right in 1..=16 {
            let arrays = vec![9, 30, 12];
            let left = tables::loops_over(&mut random, &SMALL, &arrays, left);
            let right = tables::loops_over(&mut random, &SMALL, &arrays, right);
            every_room(joined, &encode(&left), &encode(&right));
        }
    }
    for (statements, reads) in (1..=4).flat_map(|count| (0..=4).map(move |reads| (count, reads))) {
        let full = encode(&tables::full(&mut random, statements, reads, 4));
        every_room(joined, &full, &full);
        let half = tables::full(&mut random, statements, reads, 4);
        let (mut front, mut back) = (half.clone(), half);
        back.loops = front.loops.split_off(8);
        every_room(joined, &encode(&front), &encode(&back));
    }
}

/// Tables in which iterations meet: on the left of another such table, whose
/// own pair must not be named, and on the right of a good one.
fn colliding(joined: &mut Joined) {
    let mut random = Random::new(6);
    let mut misnamed = Misnamed::new();
    let mut apart = 0;
    for _ in 0..6_000 {
        let (left, right) = (collisions::table(&mut random), collisions::table(&mut random));
        let good = encode(&tables::over(&mut random, &SMALL, &left.arrays));
        let (one, other) = (encode(&left), encode(&right));
        every_room(joined, &one, &other);
        every_room(joined, &good, &one);
        let (first, second) = (read(&one).err(), read(&other).err());
        misnamed.add(&left, first.as_ref());
        apart += u64::from(first.is_some() && second.is_some() && first != second);
    }
    misnamed.print("the pair of 9, on the left and on the right");
    println!("  {apart:6} the right table's, where both are refused");
    misnamed.require(LEAST_OF_EACH);
    assert!(apart >= LEAST_OF_EACH, "too few pairs that are refused with two answers");
}
