//! The command `vempaldi`. What it says of a table is the proved library's answer; this crate reads files, words refusals, and turns
//! tables into text and pictures.

mod answers;
mod batch;
mod before;
mod by_hand;
mod check;
mod commands;
mod draw;
mod explain;
mod help;
mod infix;
mod input;
mod join;
mod json;
mod limits;
mod make;
mod memories;
mod names;
mod nearest;
mod numbers;
mod objects;
mod options;
mod orders;
mod outcome;
mod outputs;
mod parse;
mod pieces;
mod plan;
mod records;
mod refusals;
mod run;
mod scale;
mod serial;
mod short;
mod spans;
mod svg;
mod text;
mod unmet;
mod wording;

pub use explain::{explain, Explanation};
pub use infix::{assignments, Infix};
pub use names::Names;
pub use parse::{make, Made, TextError};
pub use records::{decode, Item, Loop, Reference, Statement, Table};
pub use serial::explain_serial;
pub use text::dump;

use outcome::Failure;
use std::ffi::OsString;

/// Runs the command with the words behind its name. The result is the exit status.
pub fn main(words: impl Iterator<Item = OsString>) -> i32 {
    let words: Result<Vec<String>, OsString> = words.map(OsString::into_string).collect();
    let told = match words {
        Ok(words) => commands::begin(&words),
        Err(word) => Err(Failure::Usage(format!("{word:?} is not UTF-8")).with_help("")),
    };
    match told {
        Ok(outcome) => outcome.status(),
        Err(failure) => {
            batch::say(&format!("vempaldi: {failure}"));
            outcome::TROUBLE
        }
    }
}
