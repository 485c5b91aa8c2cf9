//! Loops that meet, only just meet, or never do: what is typed of hand-made
//! tables, and many made ones, with a count of those by which each wrong way
//! to tell a dependence would be seen.

use crate::entries::every_entry;
use vempaldi_checks::boundaries;
use vempaldi_checks::encoder::encode;
use vempaldi_checks::library_planning as library;
use vempaldi_checks::line_lengths;
use vempaldi_checks::meeting;
use vempaldi_checks::misjudged::Misjudged;
use vempaldi_checks::outcome::hex;
use vempaldi_checks::outputs;
use vempaldi_checks::processors;
use vempaldi_checks::random::Random;
use vempaldi_checks::settings::Settings;
use vempaldi_checks::tally::Tally;

const TABLES: u64 = 60_000;
const LEAST_OF_EACH: u64 = 300;
/// Of so many tables one goes to every entry, the others to that of shifts
/// and peels alone.
const EVERY: u64 = 6;
const ROOM: usize = 128;

pub fn compare_all() {
    let mut tally = Tally::new();
    typed(&mut tally);
    made(&mut tally);
    tally.print("entries of loops that meet or do not");
    tally.require(&[0, 10, 11, 13], LEAST_OF_EACH);
}

fn typed(tally: &mut Tally) {
    for case in boundaries::cases() {
        let wanted: Vec<u32> = case.amounts.iter().flat_map(|&(s, p)| [s, p]).collect();
        let bytes: Vec<u8> = wanted.iter().flat_map(|number| number.to_le_bytes()).collect();
        let mut out = [0xA5; ROOM];
        let (answer, count) = library::shifts_and_peels(&case.bytes, &mut out);
        if answer != [0; 4] || count as usize != bytes.len() || out[..bytes.len()] != bytes {
            eprintln!("meetings: wrong answer to the typed table: {}", case.name);
            stop(&case.bytes);
        }
        for processors in 1..=3 {
            every_entry(tally, &case.bytes, Settings::of(processors), processors - 1);
        }
    }
}

fn made(tally: &mut Tally) {
    let mut random = Random::new(50);
    let mut misjudged = Misjudged::new();
    for number in 0..TABLES {
        let table = meeting::table(&mut random);
        let bytes = encode(&table);
        amounts(&bytes);
        misjudged.add(&table);
        if number % EVERY == 0 {
            let line = line_lengths::good(&mut random);
            let most = processors::most(&table, line);
            let fewer = random.between(1, most.into()) as u32;
            let count = random.pick(&[most, most + 1, fewer]);
            let processor = random.below(count as usize + 1) as u32;
            every_entry(tally, &bytes, Settings::new(count, line), processor);
        }
    }
    misjudged.print("which loops meet");
    misjudged.require(LEAST_OF_EACH);
}

/// Shifts and peels with enough room.
fn amounts(table: &[u8]) {
    let mut out = [0; ROOM];
    let (answer, count) = library::shifts_and_peels(table, &mut out);
    let expected = outputs::shifts_and_peels(table, ROOM).expect("accepted");
    if answer != [0; 4] || out[..expected.len()] != expected || count as usize != expected.len() {
        eprintln!("meetings: the library and the second planner disagree");
        stop(table);
    }
}

/// Ends the program with what both say.
fn stop(table: &[u8]) -> ! {
    let mut out = [0; ROOM];
    let (answer, count) = library::shifts_and_peels(table, &mut out);
    let numbers = |bytes: &[u8]| -> Vec<u32> {
        let four = |one: &[u8]| u32::from_le_bytes([one[0], one[1], one[2], one[3]]);
        bytes.chunks_exact(4).map(four).collect()
    };
    eprintln!("  table    {}", hex(table));
    eprintln!("  library  {answer:?}, shifts and peels {:?}", numbers(&out[..count as usize]));
    let expected = outputs::shifts_and_peels(table, ROOM).expect("accepted");
    eprintln!("  expected {:?}", numbers(&expected));
    std::process::exit(1);
}
