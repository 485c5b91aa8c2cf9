//! Plans the loop table of a file for a number of processors, then steps it in an odd order on a memory in which every element is its own
//! index within its array, beside the plain run. W, where it is given, is how many iterations a line has. The numbers behind it are a plan by
//! hand, shift and peel of each loop in table order.
//!
//!     cargo run --example example -- FILE P [W [SHIFT PEEL]..]
//!
//! The exit status is 0 where the memories have the same bits, 1 where a call is refused, 2 where the arguments or the file are no good.

use std::env;
use std::ffi::{OsStr, OsString};
use std::fs::File;
use std::io::Read;
use std::ops::Range;
use std::process::ExitCode;
use vempaldi::{Facts, Refusal, Report, Settings, State};

/// What a caller of this program did wrong, or what the library refused.
enum Failure {
    Caller(String),
    Refused(Refusal),
}

impl From<Refusal> for Failure {
    fn from(refusal: Refusal) -> Failure {
        Failure::Refused(refusal)
    }
}

/// The library takes any number and refuses those that are no P or W; what is no number, or none of 32 bits, is for the caller to find.
fn read_number(name: &str, word: &OsStr) -> Result<u32, Failure> {
    let digits = word.to_str().filter(|word| word.bytes().all(|one| one.is_ascii_digit()));
    let wrong =
        || Failure::Caller(format!("example: {name} is a number from 0 to {}, not '{}'", u32::MAX, word.to_string_lossy()));
    digits.and_then(|digits| digits.parse().ok()).ok_or_else(wrong)
}

/// The file's name, and the settings that the words behind it say.
fn read_words(words: &[OsString]) -> Result<(&OsString, Settings), Failure> {
    let [file, processors, more @ ..] = words else {
        return Err(Failure::Caller("usage: example FILE P [W [SHIFT PEEL]..]".to_string()));
    };
    let mut settings = Settings::new(read_number("P", processors)?);
    if let [line, plan @ ..] = more {
        settings = settings.line(read_number("W", line)?);
        if !plan.is_empty() {
            settings = settings.plan(&read_plan(plan)?);
        }
    }
    Ok((file, settings))
}

/// The numbers of a plan, four bytes each. `Settings::amounts` takes pairs of numbers; bytes may also be too few or too many, which the library
/// refuses.
fn read_plan(words: &[OsString]) -> Result<Vec<u8>, Failure> {
    let names = ["a shift", "a peel"].into_iter().cycle();
    let numbers: Result<Vec<u32>, Failure> = names.zip(words).map(|(name, word)| read_number(name, word)).collect();
    Ok(numbers?.into_iter().flat_map(u32::to_le_bytes).collect())
}

/// No byte past those that decide changes an answer, so the file may be of any length.
fn read_table(name: &OsStr) -> Result<Vec<u8>, Failure> {
    let mut table = Vec::new();
    let read = File::open(name).and_then(|file| file.take(vempaldi::DECIDING_BYTES as u64).read_to_end(&mut table));
    read.map(|_| table).map_err(|_| Failure::Caller(format!("example: cannot read '{}'", name.to_string_lossy())))
}

fn own_index(facts: &Facts) -> Vec<f64> {
    facts.arrays.iter().flat_map(|array| (0..array.length).map(f64::from)).collect()
}

/// The lines `fused` or `peeled` of a listing.
fn print_ranges(word: &str, processor: u32, ranges: &[Range<u32>]) {
    for (k, range) in ranges.iter().enumerate().filter(|(_, range)| !range.is_empty()) {
        println!("{word} {processor} {k} {} {}", range.start, range.end - 1);
    }
}

/// The plan by its numbers. `vempaldi::listing` gives the same lines as text.
fn print_plan(table: &[u8], settings: Settings) -> Result<(), Refusal> {
    let blocks = vempaldi::blocks(table, settings)?;
    let amounts = settings.by_hand().map_or_else(|| vempaldi::shifts_and_peels(table), Ok)?;
    for (k, one) in amounts.iter().enumerate() {
        println!("loop {k} {} {}", one.shift, one.peel);
    }
    for (b, block) in blocks.iter().enumerate() {
        println!("block {b} {} {}", block.first, block.last);
    }
    for b in 0..settings.processors {
        print_ranges("fused", b, &vempaldi::fused_ranges(table, settings, b)?);
    }
    for b in 0..settings.processors {
        print_ranges("peeled", b, &vempaldi::peeled_ranges(table, settings, b)?);
    }
    let sweeps = vempaldi::sweeps(table)?;
    println!("sweeps {} {}", sweeps.before, sweeps.after);
    println!("threshold {}", vempaldi::check_plan(table, settings)?);
    Ok(())
}

/// The highest processor goes as far as it can, then the next one, until nobody performs an iteration.
fn step_all(table: &[u8], settings: Settings, memory: &mut [f64]) -> Result<usize, Refusal> {
    let mut state = State::new();
    let mut performed = 0;
    loop {
        let before = performed;
        for processor in (0..settings.processors).rev() {
            while let Report::Iteration { .. } = vempaldi::step(table, settings, processor, &mut state, memory)? {
                performed += 1;
            }
        }
        if performed == before {
            return Ok(performed);
        }
    }
}

/// Whether the memories have the same bits.
fn plan_and_run(words: &[OsString]) -> Result<bool, Failure> {
    let (file, settings) = read_words(words)?;
    let table = read_table(file)?;
    let facts = vempaldi::facts(&table)?;
    print_plan(&table, settings)?;

    let (mut plain, mut stepped) = (own_index(&facts), own_index(&facts));
    vempaldi::plain_run(&table, &mut plain)?;
    let performed = step_all(&table, settings, &mut stepped)?;
    let same = plain.iter().zip(&stepped).all(|(one, other)| one.to_bits() == other.to_bits());
    let says = if same { "same bits as the plain run" } else { "NOT the bits of the plain run" };
    println!("{performed} iterations on {} elements, {says}", facts.elements);
    if let Some(last) = facts.arrays.last() {
        let numbers = stepped[last.first as usize..].iter().take(12).map(|number| format!(" {number:.3}"));
        println!("last array:{}", numbers.collect::<String>());
    }
    Ok(same)
}

/// A refusal prints its ground, and where it was met.
fn main() -> ExitCode {
    // An argument may be any bytes, as a file's name may.
    let words: Vec<OsString> = env::args_os().skip(1).collect();
    match plan_and_run(&words) {
        Ok(true) => ExitCode::SUCCESS,
        Ok(false) => ExitCode::from(1),
        Err(Failure::Refused(refusal)) => {
            eprintln!("{refusal}");
            ExitCode::from(1)
        }
        Err(Failure::Caller(message)) => {
            eprintln!("{message}");
            ExitCode::from(2)
        }
    }
}
