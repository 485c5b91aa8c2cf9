//! Ends the program at the first disagreement, with what is needed to see it
//! again.

use vempaldi_checks::memories::bits;
use vempaldi_checks::outcome::hex;

pub fn stop(what: &str, table: &[u8], details: &str) -> ! {
    eprintln!("{what}: the library and the second interpreter disagree");
    eprintln!("  table    {}", hex(table));
    eprintln!("{details}");
    std::process::exit(1);
}

/// The first element at which two memories differ, as text.
pub fn first_difference(found: &[f64], wanted: &[f64]) -> String {
    let both = bits(found).into_iter().zip(bits(wanted)).enumerate();
    let mut differing = both.filter(|(_, (found, wanted))| found != wanted);
    differing.next().map_or("  memory   the same".to_string(), |(at, (found, wanted))| {
        format!("  element {at}: library {found:016x}, expected {wanted:016x}")
    })
}

pub fn same_bits(found: &[f64], wanted: &[f64]) -> bool {
    found.len() == wanted.len()
        && found.iter().zip(wanted).all(|(one, other)| one.to_bits() == other.to_bits())
}
