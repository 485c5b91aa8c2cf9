//! Compares the library's reading of tables with the second reader's.

use vempaldi_checks::collisions;
use vempaldi_checks::damage;
use vempaldi_checks::encoder::encode;
use vempaldi_checks::examples::EXAMPLE;
use vempaldi_checks::large;
use vempaldi_checks::library;
use vempaldi_checks::limits;
use vempaldi_checks::misnamed::Misnamed;
use vempaldi_checks::outcome::{agrees, hex, Refusal};
use vempaldi_checks::random::Random;
use vempaldi_checks::reader::read;
use vempaldi_checks::rows;
use vempaldi_checks::statements::Statements;
use vempaldi_checks::tables::{self, Shape, LARGE, MIDDLE, SMALL};
use vempaldi_checks::tally::Tally;

const LEAST_TABLES: u64 = 300_000;
const LEAST_OF_EACH: u64 = 500;
const LEAST_IN_ROWS: u64 = 200;

fn main() {
    let mut compared = Compared::default();
    followed(&mut compared);
    limit_cases(&mut compared);
    let mut in_rows = Compared::default();
    rows::every(4, &mut |bytes| {
        compare(&mut in_rows, bytes);
    });
    in_rows.made.print("reading, rows of a fixed set of records");
    in_rows.made.require(LEAST_IN_ROWS);
    compared.grounds.add_all(&in_rows.grounds);
    for (seed, shape, count) in [(1, SMALL, 40_000), (2, MIDDLE, 10_000), (3, LARGE, 4_000)] {
        valid(&mut compared, seed, &shape, count);
        damaged(&mut compared, seed + 10, &shape, count / 4);
    }
    cuts(&mut compared);
    without_form(&mut compared);
    colliding(&mut compared);
    compared.grounds.print("reading");
    compared.grounds.require(&[1, 2, 3, 4, 5, 6, 7, 8, 9], LEAST_OF_EACH);
    compared.made.print("reading, made and damaged tables");
    compared.made.require(LEAST_OF_EACH);
    assert!(compared.grounds.total() >= LEAST_TABLES, "too few tables");
}

/// What was compared.
#[derive(Default)]
struct Compared {
    grounds: Tally,
    /// Of all but the rows of a fixed set of records, which meet every ground
    /// by themselves.
    made: Statements,
}

/// One table: number, place and what is named are the same.
fn compare(compared: &mut Compared, bytes: &[u8]) -> Option<Refusal> {
    let expected = read(bytes).err();
    let answer = library::check(bytes);
    if !agrees(&answer, expected.as_ref()) {
        eprintln!("reading: the library and the second reader disagree");
        eprintln!("  table    {}", hex(bytes));
        eprintln!("  library  {answer:?}");
        eprintln!("  expected {expected:?}");
        std::process::exit(1);
    }
    compared.grounds.add(answer[0]);
    compared.made.add(bytes, expected.as_ref());
    expected
}

/// Tables with so many bytes behind them that two bytes cannot tell their
/// length.
fn followed(compared: &mut Compared) {
    let tail = library::check(&large::followed(&EXAMPLE));
    assert_eq!(tail, [8, EXAMPLE.len() as u64, 0, 0], "65,536 bytes behind the example");
    for case in limits::cases() {
        compare(compared, &large::followed(&case.bytes));
    }
}

/// Every limit from both sides, whole and cut at every byte.
fn limit_cases(compared: &mut Compared) {
    for case in limits::cases() {
        let answer = library::check(&case.bytes);
        if answer != case.answer {
            eprintln!("reading: wrong answer at the limit: {}", case.name);
            eprintln!("  table    {}", hex(&case.bytes));
            eprintln!("  library  {answer:?}");
            eprintln!("  expected {:?}", case.answer);
            std::process::exit(1);
        }
        cut_everywhere(compared, &case.bytes);
    }
}

fn cut_everywhere(compared: &mut Compared, bytes: &[u8]) {
    for length in 0..=bytes.len() {
        compare(compared, &bytes[..length]);
    }
}

/// Whole tables with bounds of their own and with common bounds, with and
/// without iterations that meet.
fn valid(compared: &mut Compared, seed: u64, shape: &Shape, count: usize) {
    let mut random = Random::new(seed);
    let serial = Shape { serial: true, ..*shape };
    let five = Shape { statements: 5, ..serial };
    for _ in 0..count {
        compare(compared, &encode(&tables::any(&mut random, shape)));
        compare(compared, &encode(&tables::aligned(&mut random, shape)));
        compare(compared, &encode(&tables::any(&mut random, &serial)));
        compare(compared, &encode(&tables::any(&mut random, &five)));
    }
}

/// Each table is damaged in every way, once and then a second time on top.
fn damaged(compared: &mut Compared, seed: u64, shape: &Shape, count: usize) {
    let mut random = Random::new(seed);
    let mut other = encode(&tables::any(&mut random, shape));
    for _ in 0..count {
        let bytes = encode(&tables::any(&mut random, shape));
        for way in 0..9 {
            let once = damage_one_way(&mut random, way, &bytes, &other);
            compare(compared, &once);
            if !once.is_empty() {
                let again = random.below(9);
                let twice = damage_one_way(&mut random, again, &once, &other);
                compare(compared, &twice);
            }
        }
        other = bytes;
    }
}

fn damage_one_way(random: &mut Random, way: usize, bytes: &[u8], other: &[u8]) -> Vec<u8> {
    match way {
        0 => damage::change_byte(random, bytes),
        1 => damage::insert_byte(random, bytes),
        2 => damage::remove_byte(random, bytes),
        3 => damage::splice(random, bytes, other),
        4 => damage::splice_records(random, bytes, other),
        5 => damage::rearrange(random, bytes),
        6 => damage::crowd(random, bytes),
        7 => damage::statement(random, bytes),
        _ => damage::field(random, bytes),
    }
}

/// Random tables of every size, full ones among them, cut at every byte.
fn cuts(compared: &mut Compared) {
    let mut random = Random::new(20);
    for shape in [SMALL, MIDDLE, LARGE] {
        for _ in 0..200 {
            cut_everywhere(compared, &encode(&tables::any(&mut random, &shape)));
        }
    }
    for (statements, reads) in (1..=4).flat_map(|count| (0..=4).map(move |reads| (count, reads))) {
        let full = encode(&tables::full(&mut random, statements, reads, 4));
        cut_everywhere(compared, &full);
        for _ in 0..1_000 {
            compare(compared, &damage::change_byte(&mut random, &full));
            compare(compared, &damage::field(&mut random, &full));
        }
    }
}

/// Bytes that were never a table.
fn without_form(compared: &mut Compared) {
    let mut random = Random::new(30);
    for _ in 0..40_000 {
        compare(compared, &damage::random_bytes(&mut random, 40));
        compare(compared, &damage::mostly_kinds(&mut random, 60));
    }
    for _ in 0..500 {
        compare(compared, &damage::random_bytes(&mut random, 5_000));
        compare(compared, &damage::mostly_kinds(&mut random, 5_000));
    }
}

/// Tables in which iterations meet, and by how many of them each wrong way to
/// name the pair would be seen.
fn colliding(compared: &mut Compared) {
    let mut random = Random::new(40);
    let mut misnamed = Misnamed::new();
    for _ in 0..40_000 {
        let table = collisions::table(&mut random);
        let refusal = compare(compared, &encode(&table));
        misnamed.add(&table, refusal.as_ref());
    }
    misnamed.print("the pair of 9");
    misnamed.require(LEAST_OF_EACH);
}
