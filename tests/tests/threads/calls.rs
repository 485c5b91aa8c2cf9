//! The calls: every entry with what a round gives it, and what it came to.

use vempaldi_checks::library;
use vempaldi_checks::library_planning as planning;
use vempaldi_checks::library_running as running;
use vempaldi_checks::outcome::{Answer, ACCEPTED};
use vempaldi_checks::settings::Settings;
use vempaldi_checks::stepping::Counts;

/// What the calls of a round are given.
pub struct Given<'a> {
    pub table: &'a [u8],
    pub settings: Settings,
    pub processor: u32,
    /// The bytes of each output.
    pub room: usize,
    pub memory: Vec<f64>,
    pub order: Vec<u8>,
    pub counts: Counts,
    /// The processors that step, one after the other.
    pub named: Vec<u32>,
}

/// What a call came to: the answer, and a sum over everything else that it
/// wrote or could have written. Of a row of steps it is the last answer, and
/// the sum is over all of them.
#[derive(Debug, PartialEq, Eq)]
pub struct Came {
    pub answer: Answer,
    sum: u64,
}

pub struct Entry {
    pub name: &'static str,
    pub call: fn(&Given) -> Came,
}

const fn entry(name: &'static str, call: fn(&Given) -> Came) -> Entry {
    Entry { name, call }
}

pub const ENTRIES: [Entry; 16] = [
    entry("check", |g| Came { answer: library::check(g.table), sum: 0 }),
    entry("join", |g| output(g, |out| library::join(g.table, g.table, out))),
    entry("facts", |g| output(g, |out| planning::facts(g.table, out))),
    entry("shifts and peels", |g| output(g, |out| planning::shifts_and_peels(g.table, out))),
    entry("threshold", |g| output(g, |out| planning::threshold(g.table, out))),
    entry("check plan", |g| {
        let (answer, threshold) = planning::check_plan(g.table, g.settings);
        Came { answer, sum: threshold }
    }),
    entry("sweeps", |g| output(g, |out| planning::sweeps(g.table, out))),
    entry("blocks", |g| output(g, |out| planning::blocks(g.table, g.settings, out))),
    entry("listing", |g| output(g, |out| planning::listing(g.table, g.settings, out))),
    entry("fused list", |g| {
        output(g, |out| planning::fused_list(g.table, g.settings, g.processor, out))
    }),
    entry("peeled list", |g| {
        output(g, |out| planning::peeled_list(g.table, g.settings, g.processor, out))
    }),
    entry("fused ranges", |g| {
        output(g, |out| planning::fused_ranges(g.table, g.settings, g.processor, out))
    }),
    entry("peeled ranges", |g| {
        output(g, |out| planning::peeled_ranges(g.table, g.settings, g.processor, out))
    }),
    entry("plain run", plain_run),
    entry("run", run),
    entry("step", steps),
];

/// A sum that no change of a single number leaves as it was. It is a short
/// one, so that threads are in the library most of the time.
fn sum(numbers: impl Iterator<Item = u64>) -> u64 {
    numbers.fold(1, |sum, number| (sum ^ number).wrapping_mul(0x9E37_79B9_7F4A_7C15))
}

fn bits(memory: &[f64]) -> u64 {
    sum(memory.iter().map(|number| number.to_bits()))
}

fn output(g: &Given, call: impl Fn(&mut [u8]) -> (Answer, u64)) -> Came {
    const FOUND: u8 = 0xA5;
    let mut out = vec![FOUND; g.room];
    let (answer, written) = call(&mut out);
    let (text, rest) = out.split_at(written as usize);
    let left = rest.iter().all(|&byte| byte == FOUND);
    let bytes = text.iter().map(|&byte| u64::from(byte));
    Came { answer, sum: sum([written, u64::from(left)].into_iter().chain(bytes)) }
}

fn plain_run(g: &Given) -> Came {
    let mut memory = g.memory.clone();
    let answer = running::plain_run(g.table, &mut memory);
    Came { answer, sum: bits(&memory) }
}

fn run(g: &Given) -> Came {
    let mut memory = g.memory.clone();
    let (answer, idle) = running::run(g.table, g.settings, &g.order, &mut memory);
    Came { answer, sum: sum([idle, bits(&memory)].into_iter()) }
}

/// Each step gets the counts and the memory as the one before left them.
fn steps(g: &Given) -> Came {
    let mut memory = g.memory.clone();
    let mut counts = g.counts;
    let mut came = Came { answer: ACCEPTED, sum: 0 };
    for &named in &g.named {
        let mut report = [9; 3];
        let lent = (&mut counts, &mut memory, &mut report);
        came.answer = running::step(g.table, g.settings, named, lent.0, lent.1, lent.2);
        let numbers = report.iter().chain(&counts).map(|&number| u64::from(number));
        came.sum = sum([came.sum].into_iter().chain(came.answer).chain(numbers));
    }
    Came { sum: sum([came.sum, bits(&memory)].into_iter()), ..came }
}
