//! `join`: two tables into one.

use crate::answers;
use crate::batch;
use crate::input::Input;
use crate::limits::MOST_LOOPS;
use crate::options::Options;
use crate::outcome::{Failure, Outcome};
use crate::refusals::{line, Asked};
use crate::wording::counted;
use vempaldi::{facts, Ground, Refusal};

pub fn join(options: &Options) -> Result<Outcome, Failure> {
    let [left, right] = &options.files[..] else {
        return Err(Failure::Usage("join takes two files".to_string()));
    };
    answers::needs_file(options)?;
    // Both are read before anything is said, so that a file that cannot be read is the one thing said.
    let (first, second) = (Input::read(left)?, Input::read(right)?);
    let (first, second) = match (first, second) {
        (Ok(first), Ok(second)) => (first, second),
        (Err(error), _) => return answers::wrong_text(left, &error),
        (_, Err(error)) => return answers::wrong_text(right, &error),
    };
    let joined = match vempaldi::join(&first.table, &second.table) {
        Ok(joined) => joined,
        Err(refusal) => return refused(options, &first, &second, &refusal),
    };
    // The library joins by place and knows no names. It has refused nothing, so a script has no line for this.
    if let Some((array, ours, theirs)) = differing_names(&first, &second) {
        let names = format!("array {array} is {ours} in the first text, {theirs} in the second");
        batch::say(&format!("{left} and {right}: {names}; joining goes by an array's place, not by its name"));
        return Ok(Outcome::Bad);
    }
    answers::made(options, &joined, &format!("{}\n", joined.len()))
}

/// The first place at which two texts have arrays of different names. A table has no names that could differ.
fn differing_names<'a>(left: &'a Input, right: &'a Input) -> Option<(usize, &'a str, &'a str)> {
    let pairs = left.names.0.iter().zip(&right.names.0).enumerate();
    pairs.map(|(array, (ours, theirs))| (array, ours.as_str(), theirs.as_str())).find(|(_, ours, theirs)| ours != theirs)
}

/// The refusal of joining does not say which table met a ground, so each is asked by itself.
fn refused(options: &Options, left: &Input, right: &Input, refusal: &Refusal) -> Result<Outcome, Failure> {
    for input in [left, right] {
        if let Err(own) = vempaldi::check(&input.table) {
            return answers::refused(options, input, &own, &Asked::default());
        }
    }
    answers::refused_with(options, refusal, || {
        let words = words(left, right, refusal).unwrap_or_else(|| refusal.ground.text().to_string());
        batch::say(&format!("{} and {}: {}", left.name, right.name, line(refusal, &words)));
        Ok(())
    })
}

/// What of two accepted tables stands against their joining.
fn words(left: &Input, right: &Input, refusal: &Refusal) -> Option<String> {
    let (first, second) = (facts(&left.table).ok()?, facts(&right.table).ok()?);
    match refusal.ground {
        Ground::Crowd => {
            let (ours, theirs) = (first.loops.len(), second.loops.len());
            Some(format!("{ours} and {theirs} loops are {}, at most {MOST_LOOPS} are allowed", ours + theirs))
        }
        Ground::Unlike => {
            let mut pairs = first.arrays.iter().zip(&second.arrays).enumerate();
            let different = pairs.find(|(_, (ours, theirs))| ours.length != theirs.length);
            Some(match different {
                Some((array, (ours, theirs))) => lengths(left, right, array, [ours.length, theirs.length]),
                None => counts(left, right, [first.arrays.len(), second.arrays.len()]),
            })
        }
        _ => None,
    }
}

/// An array that is longer in one of the two, by the names that texts give it.
fn lengths(left: &Input, right: &Input, array: usize, [ours, theirs]: [u32; 2]) -> String {
    let elements = counted(ours as usize, "element");
    match (left.names.0.get(array), right.names.0.get(array)) {
        (Some(one), Some(other)) if one != other => {
            format!("array {array} is {one} with {elements}, in the second table {other} with {theirs}")
        }
        (Some(name), _) | (None, Some(name)) => format!("array {array} ({name}) has {elements}, in the second table {theirs}"),
        (None, None) => format!("array {array} has {elements}, in the second table {theirs}"),
    }
}

/// One of the two has more arrays: which these are, where names say it.
fn counts(left: &Input, right: &Input, [ours, theirs]: [usize; 2]) -> String {
    let said = format!("the first table has {}, the second one {theirs}", counted(ours, "array"));
    if let Some((array, one, other)) = differing_names(left, right) {
        return format!("{said}; array {array} is {one} in the first, {other} in the second");
    }
    let (longer, side) = if ours > theirs { (left, "first") } else { (right, "second") };
    let array = ours.min(theirs);
    match longer.names.0.get(array) {
        Some(name) => format!("{said}; array {array} ({name}) is in the {side} alone"),
        None => said,
    }
}
