//! `run`: a run in a given order beside the plain run, compared bit by bit.

use crate::answers;
use crate::batch::{self, Words};
use crate::input::Input;
use crate::memories::{self, Memory};
use crate::names::Names;
use crate::options::Options;
use crate::orders::Order;
use crate::outcome::{Failure, Outcome};
use crate::refusals::Asked;
use crate::wording::counted;
use vempaldi::{facts, Facts, Refusal, Settings};

const WORDS: Words = Words { good: "agree", bad: "refused or different" };

struct Both {
    run: Vec<f64>,
    plain: Vec<f64>,
    idle: u64,
}

pub fn run(options: &Options) -> Result<Outcome, Failure> {
    answers::memory_apart(options)?;
    let settings = options.settings()?;
    let order = Order::read(options.value("--order").unwrap_or("turns"))?;
    let memory = Memory::read(options.value("--memory").unwrap_or("index"))?;
    options.some_files()?;
    if options.has("-o") {
        options.one_file()?;
    }
    batch::each(options, &WORDS, |input| {
        let mut asked = Asked::plan(settings);
        let facts = match facts(&input.table) {
            Ok(facts) => facts,
            Err(refusal) => return answers::refused(options, input, &refusal, &asked),
        };
        let start = memory.numbers(&facts);
        asked.numbers = Some(start.len());
        match both(&input.table, settings, &order.bytes(settings.processors, iterations(&facts)), start) {
            Ok(both) => tell(options, input, &facts, settings, &both),
            Err(refusal) => answers::refused(options, input, &refusal, &asked),
        }
    })
}

fn iterations(facts: &Facts) -> usize {
    facts.loops.iter().map(|one| (one.last - one.first + 1) as usize).sum()
}

fn both(table: &[u8], settings: Settings, order: &[u8], start: Vec<f64>) -> Result<Both, Refusal> {
    let mut run = start.clone();
    let idle = vempaldi::run(table, settings, order, &mut run)?;
    let mut plain = start;
    vempaldi::plain_run(table, &mut plain)?;
    Ok(Both { run, plain, idle })
}

fn tell(options: &Options, input: &Input, facts: &Facts, settings: Settings, both: &Both) -> Result<Outcome, Failure> {
    let (name, names) = (&input.name, &input.names);
    let different: Vec<usize> = (0..both.run.len()).filter(|&at| both.run[at].to_bits() != both.plain[at].to_bits()).collect();
    let verdict = match different.first() {
        None => format!("agrees with the plain run, all {} numbers bit for bit", both.run.len()),
        Some(&at) => format!("DIFFERS from the plain run in {} numbers, first {}", different.len(), pair(facts, names, both, at)),
    };
    let raw = || {
        write_memory(options, both)?;
        // The library did not answer this, so it is none of the lines that a script reads.
        if !different.is_empty() {
            batch::say(&format!("{name}: {verdict}"));
        }
        batch::print(format!("idle {}\n", both.idle).as_bytes())
    };
    let words = || {
        let done = format!("{} on {}", counted(iterations(facts), "iteration"), on(settings));
        batch::print(format!("{name}: {done}, idle {}: {verdict}\n", both.idle).as_bytes())?;
        if options.has("--values") {
            batch::print(values(facts, names, &both.run).as_bytes())?;
        }
        write_memory(options, both)
    };
    answers::either(options, raw, words)?;
    Ok(if different.is_empty() { Outcome::Good } else { Outcome::Bad })
}

/// `2 processors`, `2 processors in lines of 8`, `2 processors with a plan by hand`.
fn on(settings: Settings) -> String {
    let processors = counted(settings.processors as usize, "processor");
    let lines = if settings.line == 1 { String::new() } else { format!(" in lines of {}", settings.line) };
    let plan = if settings.by_hand().is_some() { " with a plan by hand" } else { "" };
    processors + &lines + plan
}

fn write_memory(options: &Options, both: &Both) -> Result<(), Failure> {
    match options.value("-o") {
        Some(out) => batch::write(Some(out), &memories::bytes(&both.run)),
        None => Ok(()),
    }
}

/// Both numbers of an element, with their bits.
fn pair(facts: &Facts, names: &Names, both: &Both, at: usize) -> String {
    let element = elements(facts, names).nth(at).unwrap_or_default();
    let (plain, run) = (both.plain[at], both.run[at]);
    format!("{element}: plain {plain} ({:016x}), run {run} ({:016x})", plain.to_bits(), run.to_bits())
}

/// A line for each element: array, element, number.
fn values(facts: &Facts, names: &Names, memory: &[f64]) -> String {
    elements(facts, names).zip(memory).map(|(element, number)| format!("{element} {number}\n")).collect()
}

/// `H[0]`, `H[1]`, .. in the order of the memory.
fn elements<'a>(facts: &'a Facts, names: &'a Names) -> impl Iterator<Item = String> + 'a {
    let arrays = facts.arrays.iter().enumerate();
    arrays.flat_map(move |(number, array)| (0..array.length).map(move |element| format!("{}[{element}]", names.of(number))))
}
