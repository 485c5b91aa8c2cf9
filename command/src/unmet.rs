//! Refusal 20 in words: which number of the later loop is too low, for which dependence, and from where on it would do. Below them stand both
//! loops, with the references of that dependence marked.

use crate::infix::{assignments, reference};
use crate::names::Names;
use crate::records::{decode, Loop, Reference};
use vempaldi::{Amounts, Settings};

/// Iteration i of the earlier loop and i + distance of the later one meet at an element.
#[derive(Clone, Copy)]
struct Dependence {
    from: Reference,
    to: Reference,
    distance: i64,
}

/// The pair of loops that the refusal has, and the plan.
pub struct Unmet<'a> {
    names: &'a Names,
    numbers: (usize, usize),
    loops: (Loop, Loop),
    amounts: (Amounts, Amounts),
}

/// A number that is too low: its name, what both loops have of it, and the dependence that asks for most.
struct Low {
    word: &'static str,
    has: (u32, u32),
    more: u32,
    dependence: Dependence,
}

impl<'a> Unmet<'a> {
    pub fn new(table: &[u8], names: &'a Names, settings: &Settings, pair: (u64, u64)) -> Option<Unmet<'a>> {
        let numbers = (usize::try_from(pair.0).ok()?, usize::try_from(pair.1).ok()?);
        let (decoded, plan) = (decode(table).0.loops, settings.by_hand()?);
        let loops = (decoded.get(numbers.0)?.clone(), decoded.get(numbers.1)?.clone());
        let amounts = (*plan.get(numbers.0)?, *plan.get(numbers.1)?);
        Some(Unmet { names, numbers, loops, amounts })
    }

    /// What is too low, the shift before the peel.
    fn low(&self) -> Vec<Low> {
        let (one, other) = &self.amounts;
        let backward = |distance: i64| (-distance).max(0) as u32;
        let forward = |distance: i64| distance.max(0) as u32;
        let low = |word, has: (u32, u32), amount: fn(i64) -> u32| {
            let most = dependences(&self.loops.0, &self.loops.1).into_iter().rev().max_by_key(|one| amount(one.distance))?;
            let more = amount(most.distance);
            (has.1 < has.0 + more).then_some(Low { word, has, more, dependence: most })
        };
        let both = [low("shift", (one.shift, other.shift), backward), low("peel", (one.peel, other.peel), forward)];
        both.into_iter().flatten().collect()
    }

    pub fn words(&self) -> Option<String> {
        let (earlier, later) = self.numbers;
        let said = |one: &Reference| reference(self.names, one.array, one.offset);
        let low = self.low().into_iter().map(|Low { word, has, more, dependence: Dependence { from, to, distance } }| {
            let least = format!("loop {later}'s {word} is {} and must be at least {}", has.1, has.0 + more);
            format!("{least}: loop {earlier}'s {} plus {more} for {} -> {}, distance {distance}", has.0, said(&from), said(&to))
        });
        let all: Vec<String> = low.collect();
        (!all.is_empty()).then(|| all.join("; "))
    }

    /// Each loop's statements, with the references of the dependences marked below it.
    pub fn marked(&self) -> Option<String> {
        let low = Some(self.low()).filter(|low| !low.is_empty())?;
        let from = low.iter().map(|one| one.dependence.from).collect();
        let to = low.iter().map(|one| one.dependence.to).collect();
        let earlier = self.marked_loop(self.numbers.0, &self.loops.0, from)?;
        Some(format!("{earlier}\n{}", self.marked_loop(self.numbers.1, &self.loops.1, to)?))
    }

    fn marked_loop(&self, number: usize, one: &Loop, marked: Vec<Reference>) -> Option<String> {
        let numbers: Vec<usize> = marked.iter().map(|reference| reference.number).collect();
        marked_loop(number, one, self.names, &numbers)
    }
}

/// A loop's bounds and statements, and in a second line marks below these of its references.
pub fn marked_loop(number: usize, one: &Loop, names: &Names, references: &[usize]) -> Option<String> {
    let said = assignments(one, names)?;
    let head = format!("  loop {number}, i = {} to {}: ", one.first, one.last);
    let mut marks = vec![' '; head.len() + said.text.len()];
    for &reference in references {
        let span = said.references.get(reference)?;
        marks[head.len() + span.start..head.len() + span.end].fill('^');
    }
    Some(format!("{head}{}\n{}", said.text, marks.iter().collect::<String>().trim_end()))
}

/// Two references to one array, one of them storing, where some iterations of the two loops meet there.
fn dependences(earlier: &Loop, later: &Loop) -> Vec<Dependence> {
    let mut found = Vec::new();
    for from in earlier.references() {
        for to in later.references() {
            let distance = i64::from(from.offset) - i64::from(to.offset);
            let first = i64::from(earlier.first).max(i64::from(later.first) - distance);
            let last = i64::from(earlier.last).min(i64::from(later.last) - distance);
            if from.array == to.array && (from.stores || to.stores) && first <= last {
                found.push(Dependence { from, to, distance });
            }
        }
    }
    found
}
