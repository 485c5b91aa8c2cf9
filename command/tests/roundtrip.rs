//! A table made into text and back is the same bytes, for tables of every shape; the text of a damaged table ends nothing.

use vempaldi_checks::damage;
use vempaldi_checks::encoder::encode;
use vempaldi_checks::limits;
use vempaldi_checks::random::Random;
use vempaldi_checks::tables::{self, LARGE, MIDDLE, SMALL};
use vempaldi_command::{make, Names};

/// The text of a table that has no names.
fn dump(table: &[u8]) -> String {
    vempaldi_command::dump(table, &Names::default())
}

fn same(table: &[u8]) {
    let text = dump(table);
    match make(&text) {
        Ok(made) => assert_eq!(made.bytes, table, "{text}"),
        Err(error) => panic!("line {error}\n{text}"),
    }
}

#[test]
fn accepted_tables_come_back_as_the_same_bytes() {
    let mut random = Random::new(31);
    for shape in [SMALL, MIDDLE, LARGE] {
        for _ in 0..2_000 {
            same(&encode(&tables::any(&mut random, &shape)));
            same(&encode(&tables::aligned(&mut random, &shape)));
        }
    }
    for (statements, reads) in (1..=4).flat_map(|statements| (0..=4).map(move |reads| (statements, reads))) {
        same(&encode(&tables::full(&mut random, statements, reads, 4)));
    }
    for name in ["boundary", "coast", "example", "jacobi", "ll18", "reach", "river"] {
        same(&std::fs::read(format!("{}/../examples/{name}.table", env!("CARGO_MANIFEST_DIR"))).expect("the table"));
    }
}

#[test]
fn the_limits_that_are_accepted_come_back_too() {
    for case in limits::cases().iter().filter(|case| case.answer[0] == 0) {
        same(&case.bytes);
    }
}

#[test]
fn damaged_tables_have_a_text() {
    let mut random = Random::new(32);
    for _ in 0..2_000 {
        let good = encode(&tables::any(&mut random, &SMALL));
        dump(&damage::change_byte(&mut random, &good));
        dump(&damage::remove_byte(&mut random, &good));
        dump(&damage::statement(&mut random, &good));
        dump(&damage::random_bytes(&mut random, 80));
        dump(&good[..random.below(good.len())]);
    }
}
