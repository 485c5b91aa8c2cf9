//! Facts of tables, beside the texts that the tables were made from.

use std::fs;
use vempaldi::*;

const TABLES: &str = concat!(env!("CARGO_MANIFEST_DIR"), "/../../examples");

fn arrays(facts: &Facts) -> Vec<(u32, u32)> {
    facts.arrays.iter().map(|one| (one.first, one.length)).collect()
}

fn loops(facts: &Facts) -> Vec<(u32, u32)> {
    facts.loops.iter().map(|one| (one.first, one.last)).collect()
}

/// The numbers behind the words of each line that begins with `word`: a length behind an array's name, the bounds behind `loop`.
fn said(text: &str, word: &str, places: std::ops::Range<usize>) -> Vec<Vec<u32>> {
    let lines = text.lines().map(|line| line.split_whitespace().collect::<Vec<_>>());
    let own = lines.filter(|words| words.first() == Some(&word));
    own.map(|words| words[places.clone()].iter().map(|number| number.parse().expect("a number")).collect()).collect()
}

#[test]
fn the_example_has_three_arrays_of_12_and_two_loops_from_1_to_10() {
    let table = fs::read(format!("{TABLES}/example.table")).expect("the table");
    let facts = facts(&table).expect("accepted");
    assert_eq!(arrays(&facts), [(0, 12), (12, 12), (24, 12)]);
    assert_eq!(loops(&facts), [(1, 10), (1, 10)]);
    assert_eq!(facts.elements, 36);
}

#[test]
fn the_tables_have_the_arrays_and_loops_of_their_texts() {
    for name in ["boundary", "coast", "example", "jacobi", "ll18", "reach", "river"] {
        let table = fs::read(format!("{TABLES}/{name}.table")).expect("the table");
        let text = fs::read_to_string(format!("{TABLES}/{name}.txt")).expect("the text");
        let facts = facts(&table).expect("accepted");
        let lengths = said(&text, "array", 2..3).concat();
        let firsts = (0..lengths.len()).map(|at| lengths[..at].iter().sum());
        assert_eq!(arrays(&facts), firsts.zip(lengths.clone()).collect::<Vec<_>>(), "{name}");
        let bounds = said(&text, "loop", 1..3);
        assert_eq!(loops(&facts), bounds.iter().map(|two| (two[0], two[1])).collect::<Vec<_>>(), "{name}");
        assert_eq!(facts.elements, lengths.iter().sum::<u32>(), "{name}");
        assert_eq!(plain_run(&table, &mut vec![0.0; facts.elements as usize]), Ok(()), "{name}");
    }
}

/// Sixteen arrays of 1 to 16 elements, sixteen loops, loop k from k to k + 1 and stores A15[i] = 7.
#[test]
fn sixteen_arrays_and_sixteen_loops_fit() {
    let mut table = Vec::new();
    for length in 1..=16 {
        table.extend([1, length, 0, 0, 0]);
    }
    for k in 0..15 {
        table.extend([2, k, 0, 0, 0, k + 1, 0, 0, 0, 15, 0, 0, 4, 7, 0, 0, 0]);
    }
    table.extend([2, 3, 0, 0, 0, 3, 0, 0, 0, 15, 0, 0, 4, 7, 0, 0, 0, 6]);
    let facts = facts(&table).expect("accepted");
    assert_eq!(arrays(&facts), (0..16).map(|at| (at * (at + 1) / 2, at + 1)).collect::<Vec<_>>());
    assert_eq!(loops(&facts), (0..15).map(|k| (k, k + 1)).chain([(3, 3)]).collect::<Vec<_>>());
    assert_eq!(facts.elements, 136);
}

#[test]
fn a_refused_table_has_no_facts() {
    let table = fs::read(format!("{TABLES}/example.table")).expect("the table");
    for length in 0..table.len() {
        assert_eq!(facts(&table[..length]).err(), check(&table[..length]).err());
    }
    let refusal = facts(&table[..60]).expect_err("refused");
    assert_eq!((refusal.ground, refusal.place), (Ground::Torn, 60));
}

#[test]
fn the_library_is_of_this_version() {
    assert_eq!(version(), VERSION);
    let text = format!("{VERSION_MAJOR}.{VERSION_MINOR}.{VERSION_PATCH}");
    assert_eq!(text, env!("CARGO_PKG_VERSION"));
}
