//! Bodies and references as a person writes them.

use crate::names::Names;
use crate::records::{Item, Loop, Statement, OPERATIONS};
use std::ops::Range;

/// `H[i-1]`, or `A0[i-1]` where the array has no name.
pub fn reference(names: &Names, array: u8, offset: i16) -> String {
    let name = names.of(usize::from(array));
    match offset {
        0 => format!("{name}[i]"),
        _ => format!("{name}[i{offset:+}]"),
    }
}

/// A text and where each reference stands in it, in the order of the table's bytes: a destination stands before its body and an operation's
/// left operand before its right one in both.
#[derive(Default)]
pub struct Infix {
    pub text: String,
    pub references: Vec<Range<usize>>,
}

/// All statements of a loop, as `Q[i] = H[i-1] - H[i+1]; S[i] = Q[i] / 2`, or nothing where some body does not leave one number.
pub fn assignments(one: &Loop, names: &Names) -> Option<Infix> {
    one.statements.iter().try_fold(Infix::default(), |before, statement| {
        let next = assignment(statement, names)?;
        Some(if before.text.is_empty() { next } else { before.followed("; ", next) })
    })
}

/// `S[i] = H[i-1] + H[i+1]`
fn assignment(one: &Statement, names: &Names) -> Option<Infix> {
    let mut waiting: Vec<Part> = Vec::new();
    for item in &one.items {
        let part = match *item {
            Item::Read(array, offset) => Part::atom(Infix::of_reference(names, array, offset)),
            Item::Constant(value) => Part::atom(Infix { text: value.to_string(), references: Vec::new() }),
            Item::Operation(5) => waiting.pop()?.negated(),
            Item::Operation(code) => {
                let right = waiting.pop()?;
                waiting.pop()?.with(code, right)
            }
        };
        waiting.push(part);
    }
    let whole = waiting.pop().filter(|_| waiting.is_empty())?;
    Some(Infix::of_reference(names, one.array, one.offset).followed(" = ", whole.infix))
}

impl Infix {
    fn of_reference(names: &Names, array: u8, offset: i16) -> Infix {
        let text = reference(names, array, offset);
        let whole = 0..text.len();
        Infix { text, references: vec![whole] }
    }

    /// The same behind other text: every reference stands that much further on.
    fn behind(self, head: &str) -> Infix {
        let moved = |one: Range<usize>| one.start + head.len()..one.end + head.len();
        Infix { text: format!("{head}{}", self.text), references: self.references.into_iter().map(moved).collect() }
    }

    /// This, a sign, and the other behind it.
    fn followed(self, sign: &str, other: Infix) -> Infix {
        let mut both = other.behind(&format!("{}{sign}", self.text));
        both.references = [self.references, both.references].concat();
        both
    }

    fn bracketed(self) -> Infix {
        let mut inner = self.behind("(");
        inner.text.push(')');
        inner
    }
}

/// A piece of an expression and how tightly it holds: 1 sums, 2 products, 3 signs and atoms.
struct Part {
    infix: Infix,
    holds: u8,
}

impl Part {
    fn atom(infix: Infix) -> Part {
        Part { infix, holds: 3 }
    }

    fn negated(self) -> Part {
        Part { infix: self.within(3).behind("-"), holds: 2 }
    }

    /// The right operand is bracketed where it holds no tighter: each operation is rounded, so a + (b + c) is not a + b + c.
    fn with(self, code: u8, right: Part) -> Part {
        let holds = if code <= 2 { 1 } else { 2 };
        let sign = OPERATIONS[usize::from(code) - 1];
        Part { infix: self.within(holds).followed(&format!(" {sign} "), right.within(holds + 1)), holds }
    }

    fn within(self, least: u8) -> Infix {
        if self.holds >= least {
            self.infix
        } else {
            self.infix.bracketed()
        }
    }
}
