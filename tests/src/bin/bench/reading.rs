//! Reading full tables: 16 arrays, 16 loops, 32 items each.

use std::hint::black_box;
use vempaldi_checks::encoder::encode;
use vempaldi_checks::library;
use vempaldi_checks::measure;
use vempaldi_checks::random::Random;
use vempaldi_checks::reader::read;
use vempaldi_checks::tables;

const TABLES: usize = 16;
const REPEATS: usize = 50;
const ROUNDS: usize = 40;

pub fn measure() {
    for (name, reads) in [
        ("constants alone (the longest tables of one statement a loop)", 0),
        ("reads and constants", 2),
        ("reads alone", 4),
    ] {
        kind(name, reads);
    }
}

/// Both sides decode the table and test ground 9; neither keeps the result.
fn kind(name: &str, reads: usize) {
    let mut random = Random::new(1);
    let made: Vec<Vec<u8>> =
        (0..TABLES).map(|_| encode(&tables::full(&mut random, 1, reads, 4))).collect();
    let bytes = made[0].len();
    let pair = measure::beside(
        ROUNDS,
        TABLES * REPEATS,
        || each(&made, library::check),
        || each(&made, read),
    );
    let name = format!("reading full tables, {name}, {bytes} bytes");
    measure::print(&name, "table", &pair);
}

fn each<T>(tables: &[Vec<u8>], work: impl Fn(&[u8]) -> T) {
    for _ in 0..REPEATS {
        for table in tables {
            black_box(work(black_box(table)));
        }
    }
}
