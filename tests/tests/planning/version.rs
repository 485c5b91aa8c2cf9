//! The version that the library tells is the header's.

use vempaldi_checks::library;

const HEADER: &str = include_str!("../../../include/vempaldi.h");

pub fn compare() {
    let parts = ["MAJOR", "MINOR", "PATCH"].map(|part| macro_of(&format!("VERSION_{part}")));
    let whole = macro_of("VERSION");
    let told = library::version();
    assert_eq!(parts[0] * 10_000 + parts[1] * 100 + parts[2], whole, "the header's macros");
    assert_eq!(told, whole, "the library's version and the header's");
    println!("version: {told}, as in the header");
}

/// The number that the header defines for a macro.
fn macro_of(name: &str) -> u32 {
    let start = format!("#define VEMPALDI_{name} ");
    let line = HEADER.lines().find(|line| line.starts_with(&start)).expect("the header has it");
    let word = line[start.len()..].split_whitespace().next().expect("a number");
    word.parse().expect("a number")
}
