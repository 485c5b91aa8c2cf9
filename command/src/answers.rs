//! The two forms in which a command tells what the library answered: words for a person, or with `--raw` the answer alone for a script,
//! whose standard output then has nothing else.

use crate::batch;
use crate::input::Input;
use crate::options::Options;
use crate::outcome::{Failure, Outcome};
use crate::outputs;
use crate::parse::TextError;
use crate::refusals::{describe, Asked};
use vempaldi::Refusal;

type Told = Result<(), Failure>;

/// Which of the two forms is told.
pub fn either(options: &Options, raw: impl FnOnce() -> Told, words: impl FnOnce() -> Told) -> Told {
    if options.raw() {
        raw()
    } else {
        words()
    }
}

/// An accepted call: these lines for a script, else what a person is told.
pub fn accepted(options: &Options, lines: &str, words: impl FnOnce() -> Told) -> Result<Outcome, Failure> {
    either(options, || batch::print(lines.as_bytes()), words)?;
    Ok(Outcome::Good)
}

/// A refused call: its line for a script, else what a person is told.
pub fn refused_with(options: &Options, refusal: &Refusal, words: impl FnOnce() -> Told) -> Result<Outcome, Failure> {
    either(options, || batch::print(line(refusal).as_bytes()), words)?;
    Ok(Outcome::Bad)
}

/// The same, a person being told on the standard error.
pub fn refused(options: &Options, input: &Input, refusal: &Refusal, asked: &Asked) -> Result<Outcome, Failure> {
    refused_with(options, refusal, || {
        batch::say(&describe(input, refusal, asked));
        Ok(())
    })
}

/// What is wrong with a text. The library has answered nothing then, so a script has no line for it either.
pub fn wrong_text(name: &str, error: &TextError) -> Result<Outcome, Failure> {
    batch::say(&format!("{name}:{error}"));
    Ok(Outcome::Bad)
}

/// An accepted call that makes something. A script that finds the answer finds the file too, so the file is written first; a person
/// has what was made and needs no words.
pub fn made(options: &Options, product: &[u8], lines: &str) -> Result<Outcome, Failure> {
    batch::write(options.value("-o"), product)?;
    accepted(options, lines, || Ok(()))
}

/// `refused`, the number, the place, and what the refusal names, which is something for 9 and 20 alone.
fn line(refusal: &Refusal) -> String {
    let named = match (refusal.references(), refusal.loops()) {
        (Some((lower, higher)), _) => format!(" {lower} {higher}"),
        (_, Some((_, later))) => format!(" {later}"),
        _ => String::new(),
    };
    format!("refused {} {}{named}\n", refusal.ground.number(), refusal.place)
}

const ALONE: &str = "with --raw the standard output has the answer alone";

/// What a command makes needs a file beside a raw answer, and one that the command does not read.
pub fn needs_file(options: &Options) -> Told {
    match options.value("-o") {
        None | Some("-") if options.raw() => Err(Failure::Usage(format!("{ALONE}: -o OUT must name a file"))),
        out => outputs::apart_from_inputs(options, out),
    }
}

/// A run may do without a file, but its memory does not go beside a raw answer either.
pub fn memory_apart(options: &Options) -> Told {
    if options.raw() && options.has("--values") {
        return Err(Failure::Usage(format!("{ALONE}: --values is not for it")));
    }
    if options.has("-o") {
        needs_file(options)?;
    }
    Ok(())
}
