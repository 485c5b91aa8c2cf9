//! `dump`: a table as text that `make` turns into the same bytes.

use crate::answers;
use crate::batch::{self, Words};
use crate::infix::{assignments, reference};
use crate::names::Names;
use crate::options::Options;
use crate::outcome::{Failure, Outcome};
use crate::records::{decode, Item, Loop, Statement, OPERATIONS};
use crate::refusals::{describe, Asked};
use crate::wording::in_one_line;

const WORDS: Words = Words { good: "accepted", bad: "refused" };

pub fn dump_files(options: &Options) -> Result<Outcome, Failure> {
    let several = options.some_files()?.len() > 1;
    batch::each(options, &WORDS, |input| {
        let text = || {
            let head = if several { format!("# {}\n", in_one_line(&input.name)) } else { String::new() };
            batch::print((head + &dump(&input.table, &input.names)).as_bytes())
        };
        match vempaldi::check(&input.table) {
            Ok(()) => answers::accepted(options, "accepted\n", text),
            Err(refusal) => answers::refused_with(options, &refusal, || {
                text()?;
                batch::say(&describe(input, &refusal, &Asked::default()));
                Ok(())
            }),
        }
    })
}

/// The lines of a table; of a damaged one those before the damage.
pub fn dump(table: &[u8], names: &Names) -> String {
    let (decoded, ended) = decode(table);
    let mut text = String::new();
    for (number, length) in decoded.arrays.iter().enumerate() {
        text += &format!("array {} {length}\n", names.of(number));
    }
    for (number, one) in decoded.loops.iter().enumerate() {
        text += &a_loop(number, one, names);
    }
    if !ended {
        text += "# the table is damaged from here on\n";
    }
    text
}

/// The loop's own line, and a line for each further statement.
fn a_loop(number: usize, one: &Loop, names: &Names) -> String {
    let said = assignments(one, names).map_or(String::new(), |infix| format!(": {}", infix.text));
    let lines: Vec<String> = one.statements.iter().map(|one| statement(one, names)).collect();
    format!("# loop {number}{said}\nloop {} {} {}\n", one.first, one.last, lines.join("\n  "))
}

fn statement(one: &Statement, names: &Names) -> String {
    let items: Vec<String> = one.items.iter().map(|one| item(one, names)).collect();
    format!("-> {}: {}", reference(names, one.array, one.offset), items.join(" "))
}

fn item(item: &Item, names: &Names) -> String {
    match *item {
        Item::Read(array, offset) => reference(names, array, offset),
        Item::Constant(value) => value.to_string(),
        Item::Operation(code) => OPERATIONS[usize::from(code) - 1].to_string(),
    }
}
