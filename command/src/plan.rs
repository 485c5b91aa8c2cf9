//! `plan`: the library's listing, or the refusal; as lines, as an object of JSON, or in files.

use crate::answers;
use crate::batch;
use crate::by_hand;
use crate::check::WORDS;
use crate::input::Input;
use crate::objects::object;
use crate::options::Options;
use crate::outcome::{Failure, Outcome};
use crate::outputs::Outputs;
use crate::parse::TextError;
use crate::refusals::Asked;
use vempaldi::Settings;

pub fn plan(options: &Options) -> Result<Outcome, Failure> {
    let settings = options.settings()?;
    options.some_files()?;
    by_hand::may_write(options)?;
    let json = options.has("--json");
    if options.raw() && (json || options.has("-o")) {
        let other = if json { "--json" } else { "-o DIR" };
        return Err(Failure::Usage(format!("with --raw the standard output has the answers alone: {other} is not for it")));
    }
    let extension = if json { "json" } else { "plan" };
    let outputs = options.value("-o").map(|directory| Outputs::prepare(directory, options, extension)).transpose()?;
    batch::each_given(options, &WORDS, |name, given| match given {
        given if json => tell_object(options, outputs.as_ref(), name, &given, settings),
        Ok(input) => tell_listing(options, outputs.as_ref(), &input, settings),
        Err(error) => answers::wrong_text(name, &error),
    })
}

fn tell_listing(options: &Options, outputs: Option<&Outputs>, input: &Input, settings: Settings) -> Result<Outcome, Failure> {
    let several = options.files.len() > 1;
    match (vempaldi::listing(&input.table, settings), outputs) {
        (Ok(text), Some(outputs)) => outputs.write(&input.name, text.as_bytes()).map(|()| Outcome::Good),
        (Ok(text), None) => {
            by_hand::write(options, input, settings)?;
            answers::accepted(options, &text, || {
                let head = if several { format!("{}:\n", input.name) } else { String::new() };
                batch::print((head + &text).as_bytes())
            })
        }
        (Err(refusal), _) => answers::refused(options, input, &refusal, &Asked::plan(settings)),
    }
}

/// A refused table has an object too, which says so.
fn tell_object(
    options: &Options,
    outputs: Option<&Outputs>,
    name: &str,
    given: &Result<Input, TextError>,
    settings: Settings,
) -> Result<Outcome, Failure> {
    let (value, accepted) = object(name, given, settings);
    if let (Ok(input), true) = (given, accepted) {
        by_hand::write(options, input, settings)?;
    }
    let line = format!("{value}\n");
    match outputs {
        Some(outputs) => outputs.write(name, line.as_bytes())?,
        None => batch::print(line.as_bytes())?,
    }
    Ok(if accepted { Outcome::Good } else { Outcome::Bad })
}
