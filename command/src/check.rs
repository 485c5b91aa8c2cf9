//! `check`: a line for each table, and for a text or for 9 the line with a mark below it.

use crate::answers;
use crate::batch::{self, Words};
use crate::options::Options;
use crate::outcome::{Failure, Outcome};
use crate::refusals::{describe, Asked};

pub const WORDS: Words = Words { good: "accepted", bad: "refused" };

pub fn check(options: &Options) -> Result<Outcome, Failure> {
    let quiet = options.has("-q");
    batch::each(options, &WORDS, |input| match vempaldi::check(&input.table) {
        Ok(()) if quiet => Ok(Outcome::Good),
        Ok(()) => answers::accepted(options, "accepted\n", || batch::print(format!("{}: accepted\n", input.name).as_bytes())),
        Err(refusal) => answers::refused_with(options, &refusal, || {
            let words = describe(input, &refusal, &Asked::default()) + "\n";
            batch::print(words.as_bytes())
        }),
    })
}
