//! Blocks on whole lines: what is typed, every small case, many calls in which
//! one line or one index decides, with a count of those by which each wrong
//! way would be seen, and lines of one iteration by the rule of before.

use crate::entries::{every_entry, needed, ranges, with_room};
use vempaldi_checks::blocks::{indices, Range};
use vempaldi_checks::dealt;
use vempaldi_checks::encoder::encode;
use vempaldi_checks::examples::{ten_indices, Aligned, EXAMPLE, EXAMPLE_ALIGNED, TEN_ALIGNED};
use vempaldi_checks::library_planning as library;
use vempaldi_checks::lined::{self, Lined};
use vempaldi_checks::misaligned::{Asked, Misaligned};
use vempaldi_checks::outcome::{hex, Answer};
use vempaldi_checks::planner::{amounts, threshold};
use vempaldi_checks::processors;
use vempaldi_checks::random::Random;
use vempaldi_checks::settings::Settings;
use vempaldi_checks::table::Table;
use vempaldi_checks::tables::{self, LARGE, MIDDLE, SMALL};
use vempaldi_checks::tally::Tally;

const MADE: u64 = 30_000;
const OLD: u64 = 10_000;
const LEAST_OF_EACH: u64 = 300;
/// Of so many made tables one goes to every entry, the others to blocks and
/// to one entry that names a processor.
const EVERY: u64 = 60;
/// First and last index of 64 blocks.
const ROOM: usize = 512;

pub fn compare_all() {
    let (example, mut tally) = (EXAMPLE.to_vec(), Tally::new());
    typed(&mut tally, &example, &EXAMPLE_ALIGNED);
    typed(&mut tally, &ten_indices(), &TEN_ALIGNED);
    small();
    made(&mut tally);
    tally.print("entries of blocks on whole lines");
    tally.require(&[0, 10, 11, 13, 17], LEAST_OF_EACH);
    old_rule();
}

fn typed(tally: &mut Tally, table: &[u8], typed: &[Aligned]) {
    for &(processors, line, wanted) in typed {
        let settings = Settings::new(processors, line);
        let ends = |&(a, e): &(u32, u32)| Range { a: a.into(), e: e.into() };
        let wanted = wanted.map(|blocks| blocks.iter().map(ends).collect());
        compare(table, settings, &wanted, "what is typed");
        every_entry(tally, table, settings, processors / 2);
    }
}

/// Every number of up to twenty indices, of processors up to one more than
/// indices, and every length of a line up to one out of range; the thresholds
/// 0 and 3.
fn small() {
    let mut calls = 0;
    for (count, threshold) in (1..=20).flat_map(|count| [(count, 0), (count, 3)]) {
        let table = lined::over(7, count, threshold);
        let bytes = encode(&table);
        for (processors, line) in (0..=count + 1).flat_map(|p| (0..=65).map(move |w| (p, w))) {
            let settings = Settings::new(processors as u32, line);
            let wanted = dealt_out(&table, settings);
            compare(&bytes, settings, &wanted, "lines dealt out one by one");
            calls += 1;
        }
    }
    println!("every small case: {calls} calls, blocks as they are dealt out line by line");
}

fn made(tally: &mut Tally) {
    let mut random = Random::new(60);
    let mut misaligned = Misaligned::new();
    for number in 0..MADE {
        let lined = lined::any(&mut random, 64);
        let Lined { ref table, settings } = lined;
        let bytes = encode(table);
        compare(&bytes, settings, &dealt_out(table, settings), "lines dealt out one by one");
        misaligned.add(&Asked::new(table, settings, None));
        let processor = random.below(settings.processors.min(64) as usize + 1) as u32;
        misaligned.add(&Asked::new(table, settings, Some(processor)));
        if number % EVERY == 0 {
            every_entry(tally, &bytes, settings, processor);
        } else {
            let entry = &ranges(&bytes, settings, processor)[random.below(2)];
            with_room(tally, &bytes, entry, needed(entry));
        }
    }
    misaligned.print("which blocks");
    misaligned.require(LEAST_OF_EACH);
}

/// The blocks, or the ground.
type Outcome = Result<Vec<Range>, u64>;

fn dealt_out(table: &Table, settings: Settings) -> Outcome {
    match (settings.processors, settings.line) {
        (0 | 65.., _) => Err(10),
        (_, 0 | 65..) => Err(17),
        (count, _) => {
            let blocks = dealt::ranges(indices(table), settings).ok_or(11u64)?;
            long_enough(table, count, blocks)
        }
    }
}

/// The blocks, or 11 where one is below the threshold and that counts.
fn long_enough(table: &Table, processors: u32, blocks: Vec<Range>) -> Outcome {
    let least = threshold(&amounts(table));
    if processors >= 2 && blocks.iter().any(|block| block.count() < least) {
        return Err(11);
    }
    Ok(blocks)
}

/// Lines of one iteration: tables of all sizes, with numbers of processors
/// around the largest that has a plan.
fn old_rule() {
    let mut random = Random::new(61);
    let mut accepted = 0;
    for _ in 0..OLD {
        let shape = random.pick(&[SMALL, SMALL, MIDDLE, LARGE]);
        let table = tables::aligned(&mut random, &shape);
        let most = processors::most(&table, 1);
        let fewer = random.between(1, most.into()) as u32;
        let processors = random.pick(&[most, most + 1, fewer, fewer]).min(64);
        let indices = indices(&table);
        let wanted = if indices.count() < processors.into() {
            Err(11)
        } else {
            long_enough(&table, processors, dealt::by_iterations(indices, processors))
        };
        compare(&encode(&table), Settings::of(processors), &wanted, "the rule before lines");
        accepted += u64::from(wanted.is_ok());
    }
    println!(
        "lines of one iteration: {OLD} calls, {accepted} accepted, as by the rule before lines"
    );
    assert!((OLD / 2..OLD).contains(&accepted), "too few of one kind");
}

/// The library's blocks beside those that another way finds.
fn compare(table: &[u8], settings: Settings, wanted: &Outcome, way: &str) {
    let mut out = [0; ROOM];
    let (answer, written) = library::blocks(table, settings, &mut out);
    let found = told(answer, &out[..written as usize]);
    if found != *wanted || (answer[0] > 0 && answer[1..] != [0; 3]) {
        eprintln!("blocks: the library and {way} disagree");
        eprintln!("  table    {}, {settings:?}", hex(table));
        eprintln!("  library  {answer:?}, {found:?}");
        eprintln!("  expected {wanted:?}");
        std::process::exit(1);
    }
}

fn told(answer: Answer, bytes: &[u8]) -> Outcome {
    if answer[0] > 0 {
        return Err(answer[0]);
    }
    let number = |at: &[u8]| u32::from_le_bytes([at[0], at[1], at[2], at[3]]).into();
    Ok(bytes.chunks_exact(8).map(|b| Range { a: number(b), e: number(&b[4..]) }).collect())
}
