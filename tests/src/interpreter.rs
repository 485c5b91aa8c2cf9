//! Performs iterations on a memory: one iteration, and the plain run.

use crate::outcome::Refusal;
use crate::reader::read;
use crate::table::*;

const MEMORY: u64 = 12;

/// What is stored for every result that is not a number.
pub const STORED_NAN: u64 = 0x7FF8_0000_0000_0000;

/// Where each array begins in the memory.
pub fn beginnings(table: &Table) -> Vec<usize> {
    let mut next = 0;
    table
        .arrays
        .iter()
        .map(|&length| {
            let begin = next;
            next += length as usize;
            begin
        })
        .collect()
}

/// Ground 12: the memory has as many numbers as the arrays have elements.
pub fn fits(table: &Table, memory: &[f64]) -> Result<(), Refusal> {
    if memory.len() as u64 == table.elements() {
        Ok(())
    } else {
        Err(Refusal::whole(MEMORY))
    }
}

/// Iteration `index` of one loop: its statements in order, each stored before
/// the next begins.
pub fn iteration(one: &Loop, beginnings: &[usize], memory: &mut [f64], index: u32) {
    for statement in &one.statements {
        let stored = evaluate(statement, beginnings, memory, index);
        memory[element(statement.destination, beginnings, index)] = stored;
    }
}

pub fn element(reference: Reference, beginnings: &[usize], index: u32) -> usize {
    let begin = beginnings[usize::from(reference.array)];
    (begin as i64 + i64::from(index) + i64::from(reference.offset)) as usize
}

/// The one number that remains when the items are worked in byte order, as it
/// is stored. The reader has made sure that no operation lacks an operand and
/// that at most eight numbers wait.
pub fn evaluate(one: &Statement, beginnings: &[usize], memory: &[f64], index: u32) -> f64 {
    let mut waiting = [0.0; MOST_WAITING];
    let mut count = 0;
    for item in &one.items {
        match *item {
            Item::Read(read) => {
                waiting[count] = memory[element(read, beginnings, index)];
                count += 1;
            }
            Item::Constant(value) => {
                waiting[count] = f64::from(value);
                count += 1;
            }
            Item::Operation(Operation::Negate) => waiting[count - 1] = -waiting[count - 1],
            Item::Operation(operation) => {
                count -= 1;
                waiting[count - 1] = apply(operation, waiting[count - 1], waiting[count]);
            }
        }
    }
    let result = waiting[0];
    if result.is_nan() {
        f64::from_bits(STORED_NAN)
    } else {
        result
    }
}

fn apply(operation: Operation, left: f64, right: f64) -> f64 {
    match operation {
        Operation::Add => left + right,
        Operation::Subtract => left - right,
        Operation::Multiply => left * right,
        Operation::Divide => left / right,
        Operation::Negate => -right,
    }
}

/// The loops in table order, each from first to last.
pub fn plain_run(bytes: &[u8], memory: &mut [f64]) -> Result<(), Refusal> {
    let table = read(bytes)?;
    fits(&table, memory)?;
    let beginnings = beginnings(&table);
    for one in &table.loops {
        for index in one.first..=one.last {
            iteration(one, &beginnings, memory, index);
        }
    }
    Ok(())
}
