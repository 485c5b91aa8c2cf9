//! `plan --json`: a table's plan or its refusal as one object. docs/plan.schema.json has its form.

use crate::by_hand::in_force;
use crate::infix::assignments;
use crate::input::Input;
use crate::json::Value;
use crate::parse::TextError;
use crate::records::decode;
use crate::refusals::{message, text_place, Asked};
use std::ops::Range;
use vempaldi::{facts, fused_ranges, peeled_ranges, Amounts, Facts, Refusal, Settings};

/// The object, and whether the table has a plan.
pub fn object(name: &str, given: &Result<Input, TextError>, settings: Settings) -> (Value, bool) {
    let planned = match given {
        Ok(input) => plan(input, settings).map_err(|refusal| ("refusal", refused(input, &refusal, settings))),
        Err(error) => Err(("error", wrong(error))),
    };
    let accepted = planned.is_ok();
    let mut keys = vec![
        ("file", name.to_string().into()),
        ("processors", settings.processors.into()),
        ("line", settings.line.into()),
        ("by_hand", Value::Truth(settings.by_hand().is_some())),
        ("accepted", Value::Truth(accepted)),
    ];
    match planned {
        Ok(more) => keys.extend(more),
        Err(why) => keys.push(why),
    }
    (Value::Object(keys), accepted)
}

fn plan(input: &Input, settings: Settings) -> Result<Vec<(&'static str, Value)>, Refusal> {
    let table = &input.table;
    let blocks = vempaldi::blocks(table, settings)?;
    let (facts, sweeps) = (facts(table)?, vempaldi::sweeps(table)?);
    let (amounts, threshold) = in_force(table, settings)?;
    let sweeps = vec![("before", sweeps.before.into()), ("after", sweeps.after.into())];
    Ok(vec![
        ("elements", facts.elements.into()),
        ("arrays", arrays(input, &facts)),
        ("loops", loops(input, &facts, &amounts)),
        ("threshold", threshold.into()),
        ("blocks", Value::list(blocks, |block| bounds(block.first, block.last))),
        ("fused", parts(settings, |processor| fused_ranges(table, settings, processor))?),
        ("peeled", parts(settings, |processor| peeled_ranges(table, settings, processor))?),
        ("sweeps", Value::Object(sweeps)),
    ])
}

fn bounds(first: u32, last: u32) -> Value {
    Value::Object(vec![("first", first.into()), ("last", last.into())])
}

/// A table has no names; a text has.
fn arrays(input: &Input, facts: &Facts) -> Value {
    Value::list(facts.arrays.iter().enumerate(), |(number, array)| {
        let name = input.names.0.get(number).map(|name| ("name", name.clone().into()));
        Value::Object(name.into_iter().chain([("first", array.first.into()), ("length", array.length.into())]).collect())
    })
}

fn loops(input: &Input, facts: &Facts, amounts: &[Amounts]) -> Value {
    let decoded = decode(&input.table).0.loops;
    Value::list(facts.loops.iter().zip(amounts).zip(&decoded), |((one, amounts), said)| {
        Value::Object(vec![
            ("first", one.first.into()),
            ("last", one.last.into()),
            ("shift", amounts.shift.into()),
            ("peel", amounts.peel.into()),
            ("statement", assignments(said, &input.names).map_or(String::new(), |infix| infix.text).into()),
        ])
    })
}

/// The ranges that are not empty, by processor and within it by loop, as the listing has them.
fn parts(settings: Settings, ranges: impl Fn(u32) -> Result<Vec<Range<u32>>, Refusal>) -> Result<Value, Refusal> {
    let mut rows = Vec::new();
    for processor in 0..settings.processors {
        for (number, range) in ranges(processor)?.into_iter().enumerate().filter(|(_, range)| !range.is_empty()) {
            rows.push(Value::Object(vec![
                ("processor", processor.into()),
                ("loop", number.into()),
                ("from", range.start.into()),
                ("to", (range.end - 1).into()),
            ]));
        }
    }
    Ok(Value::List(rows))
}

fn refused(input: &Input, refusal: &Refusal, settings: Settings) -> Value {
    let asked = Asked::plan(settings);
    let mut keys = vec![
        ("number", Value::Number(refusal.ground.number())),
        ("word", refusal.ground.word().to_string().into()),
        ("place", Value::Number(refusal.place)),
        ("named", Value::list(refusal.named, Value::Number)),
        ("message", message(input, refusal, &asked).into()),
    ];
    if let Some(told) = text_place(input, refusal) {
        keys.extend(position(told.line, told.column, told.token));
    }
    Value::Object(keys)
}

fn wrong(error: &TextError) -> Value {
    let place = position(error.line, error.column, error.token.clone());
    Value::Object(place.into_iter().chain([("message", error.what.clone().into())]).collect())
}

fn position(line: usize, column: usize, token: String) -> [(&'static str, Value); 3] {
    [("line", line.into()), ("column", column.into()), ("token", token.into())]
}
