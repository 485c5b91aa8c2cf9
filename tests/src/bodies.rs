//! Makes random loops of several statements, and their bodies: postfix rows of
//! items that leave exactly one number.

use crate::random::Random;
use crate::table::*;

/// Where a loop stands, and what it may hold.
pub struct Setting<'a> {
    pub arrays: &'a [u32],
    pub first: u32,
    pub last: u32,
    /// Where its statements store, as far as that is drawn.
    pub destinations: Vec<Reference>,
    /// The largest offset of a reference, on either side of 0.
    pub offset: i64,
    /// Whether different iterations may meet at an element that one of them
    /// stores (ground 9).
    pub serial: bool,
}

/// One statement in half of all cases, else from 1 to `most`.
pub fn statements(random: &mut Random, most: i64) -> usize {
    if random.chance(1, 2) {
        1
    } else {
        random.between(1, most) as usize
    }
}

/// A loop of at most so many statements, and of so many items over all of them.
/// It stores where the setting says and, for each further statement, where it
/// may.
pub fn a_loop(random: &mut Random, setting: Setting, statements: usize, count: usize) -> Loop {
    let setting = with_further(random, setting, statements.min(count));
    let counts = split(random, count, setting.destinations.len());
    let one = |(&destination, count)| {
        let items = body(random, &setting, count);
        Statement { destination, items }
    };
    let statements = setting.destinations.iter().zip(counts).map(one).collect();
    Loop { first: setting.first, last: setting.last, statements }
}

/// The setting with destinations for so many statements, or for fewer where
/// none was found.
pub fn with_further<'a>(random: &mut Random, setting: Setting<'a>, count: usize) -> Setting<'a> {
    let mut setting = setting;
    for _ in setting.destinations.len()..count {
        let found = (0..4).find_map(|_| further(random, &setting));
        setting.destinations.extend(found);
    }
    setting
}

/// A destination of a further statement: at times that of an earlier one.
fn further(random: &mut Random, setting: &Setting) -> Option<Reference> {
    if random.chance(1, 8) {
        return Some(random.pick(&setting.destinations));
    }
    let (array, low, high) = reach(random, setting)?;
    let offset = random.between(low, high) as i16;
    let store = Access { at: Reference { array, offset }, stores: true };
    (setting.serial || !setting.collides(store)).then_some(store.at)
}

/// So many parts, each of 1 at least.
fn split(random: &mut Random, count: usize, parts: usize) -> Vec<usize> {
    let mut counts = vec![1; parts];
    for _ in parts..count {
        counts[random.below(parts)] += 1;
    }
    counts
}

/// A body of `count` items, each step drawn among those after which the rest
/// can still end with one waiting number.
pub fn body(random: &mut Random, setting: &Setting, count: usize) -> Vec<Item> {
    let mut waiting = 0;
    (0..count)
        .map(|done| {
            let left = count - done - 1;
            let may_push = waiting < MOST_WAITING && waiting <= left;
            let may_negate = waiting > 0 && waiting - 1 <= left;
            let push = may_push && (waiting == 0 || random.chance(3, 5));
            if push {
                waiting += 1;
                operand(random, setting)
            } else if may_negate && (waiting == 1 || random.chance(1, 5)) {
                Item::Operation(Operation::Negate)
            } else {
                waiting -= 1;
                Item::Operation(two_operand(random))
            }
        })
        .collect()
}

/// Bodies of so many statements with 32 items in all and as many operands as
/// fit: n statements have half of 32 + n operands, and a negation where that is
/// an odd number.
pub fn full(
    random: &mut Random,
    statements: usize,
    operand: impl Fn(&mut Random) -> Item,
) -> Vec<Vec<Item>> {
    let operands = split(random, (MOST_ITEMS + statements) / 2, statements);
    let mut bodies: Vec<Vec<Item>> =
        operands.into_iter().map(|count| summed(random, count, &operand)).collect();
    if (MOST_ITEMS + statements) % 2 == 1 {
        let body = random.below(statements);
        let place = 1 + random.below(bodies[body].len());
        bodies[body].insert(place, Item::Operation(Operation::Negate));
    }
    bodies
}

/// A body of so many operands, and operations on two numbers alone.
fn summed(
    random: &mut Random,
    mut operands: usize,
    operand: &impl Fn(&mut Random) -> Item,
) -> Vec<Item> {
    let mut items = Vec::with_capacity(2 * operands);
    let mut waiting = 0;
    while operands > 0 || waiting > 1 {
        let may_push = operands > 0 && waiting < MOST_WAITING;
        if may_push && (waiting < 2 || random.chance(1, 2)) {
            items.push(operand(random));
            operands -= 1;
            waiting += 1;
        } else {
            items.push(Item::Operation(two_operand(random)));
            waiting -= 1;
        }
    }
    items
}

fn two_operand(random: &mut Random) -> Operation {
    random.pick(&[Operation::Add, Operation::Subtract, Operation::Multiply, Operation::Divide])
}

/// A read where one can be found, else a constant.
pub fn operand(random: &mut Random, setting: &Setting) -> Item {
    if random.chance(3, 4) {
        for _ in 0..4 {
            if let Some(reference) = a_read(random, setting) {
                return Item::Read(reference);
            }
        }
    }
    Item::Constant(constant(random))
}

fn constant(random: &mut Random) -> u32 {
    let large = random.draw() as u32;
    random.pick(&[0, 1, 2, 3, 255, 65_536, u32::MAX, large])
}

/// An array, and the least and the greatest offset at which every iteration
/// stays inside it.
fn reach(random: &mut Random, setting: &Setting) -> Option<(u8, i64, i64)> {
    let array = random.below(setting.arrays.len());
    let room = i64::from(setting.arrays[array]) - 1 - i64::from(setting.last);
    let low = (-setting.offset).max(-i64::from(setting.first));
    let high = setting.offset.min(room);
    (low <= high).then_some((array as u8, low, high))
}

/// A read; often of what a statement of the loop stores in the same iteration.
fn a_read(random: &mut Random, setting: &Setting) -> Option<Reference> {
    let (array, low, high) = reach(random, setting)?;
    let stored = setting.destinations.iter().filter(|to| to.array == array);
    let own: Vec<Reference> = stored.copied().collect();
    if !own.is_empty() && random.chance(1, 2) {
        return Some(random.pick(&own));
    }
    let offset = random.between(low, high) as i16;
    let read = Access { at: Reference { array, offset }, stores: false };
    (setting.serial || !setting.collides(read)).then_some(read.at)
}

impl Setting<'_> {
    /// Whether a reference meets another iteration's store.
    pub fn collides(&self, access: Access) -> bool {
        let bounds = Loop { first: self.first, last: self.last, statements: Vec::new() };
        let mut stores = self.destinations.iter().map(|&at| Access { at, stores: true });
        stores.any(|store| bounds.collide(store, access))
    }
}
