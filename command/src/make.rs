//! `make`: the table of a text, written where the library accepts it.

use crate::answers;
use crate::batch;
use crate::input::Input;
use crate::options::Options;
use crate::outcome::{Failure, Outcome};
use crate::refusals::Asked;

pub fn make_file(options: &Options) -> Result<Outcome, Failure> {
    let name = options.one_file()?;
    answers::needs_file(options)?;
    let bytes = batch::read_whole(name)?;
    if vempaldi::check(&bytes).is_ok() {
        batch::say(&format!("{name}: this is a table, not a text (vempaldi dump gives the text of a table)"));
        return Ok(Outcome::Bad);
    }
    let input = match Input::of_text(name, &bytes) {
        Ok(input) => input,
        Err(error) => return answers::wrong_text(name, &error),
    };
    match vempaldi::check(&input.table) {
        Ok(()) => answers::made(options, &input.table, "accepted\n"),
        Err(refusal) => answers::refused(options, &input, &refusal, &Asked::default()),
    }
}
