//! Wrong ways to take a plan by hand, to refuse it and to go by it, and a
//! count of the calls by which each of them would be seen.

use crate::blocks::{indices, laid, Plan, LONGEST_LINE, MOST_PROCESSORS};
use crate::by_hand::{meets, LOOP_BYTES, MOST_AMOUNT};
use crate::dependence::{dependences, dependences_among, dependences_by, meet, Dependence};
use crate::lists::lists;
use crate::misjudged::chosen_of;
use crate::outcome::Answer;
use crate::planner::{amounts_of, threshold, Amounts};
use crate::settings::{Settings, PLAN_BYTES};
use crate::table::{Access, Loop, Table, MOST_LOOPS};

/// What a call is asked: a table, the settings, and a processor where the call
/// has one.
pub struct Asked<'a> {
    table: &'a Table,
    settings: Settings,
    named: Option<u32>,
    ending: Vec<Vec<Dependence>>,
    own: Vec<Amounts>,
}

impl<'a> Asked<'a> {
    pub fn new(table: &'a Table, settings: Settings, named: Option<u32>) -> Asked<'a> {
        let ending = dependences(table);
        let own = amounts_of(&ending);
        Asked { table, settings, named, ending, own }
    }
}

/// What a call comes to: the threshold that it tells and the plan by which it
/// goes, or its answer.
type Outcome = Result<(i64, Plan), Answer>;

/// A ground's question.
#[derive(Clone, Copy, PartialEq)]
enum Ask {
    Plan,
    Unmet,
    Processors,
    Named,
    Line,
    Short,
}

/// Pairs of an earlier and a later loop, in rising order.
type Pairs = Vec<(usize, usize)>;

/// From the own numbers and the given ones.
type Chosen<T> = fn(&[Amounts], &[Amounts]) -> T;

/// A way, right or wrong.
#[derive(Clone, Copy)]
struct Rule {
    order: [Ask; 6],
    /// Whether there is a plan by hand.
    by_hand: fn(u32) -> bool,
    /// Whether a plan of so many bytes is one for so many loops.
    length: fn(u32, usize) -> bool,
    /// Where shift and peel of a loop stand.
    places: fn(usize) -> [usize; 2],
    number: fn([u8; 4]) -> u32,
    /// Of how many loops 19 is asked, and the most that a number may be.
    looked_at: fn(usize) -> usize,
    most: i64,
    /// The pairs that are not met, and which of them is told, as place and
    /// name.
    unmet: fn(&Asked, &[Amounts]) -> Pairs,
    told: fn(&[(usize, usize)]) -> [usize; 2],
    /// The threshold of 11, and that which the call tells.
    short: Chosen<i64>,
    threshold: Chosen<i64>,
    /// What the lists go by.
    listed: Chosen<Vec<Amounts>>,
}

const RIGHT: Rule = Rule {
    order: [Ask::Plan, Ask::Unmet, Ask::Processors, Ask::Named, Ask::Line, Ask::Short],
    by_hand: |number| number != 0,
    length: |length, loops| length as usize == LOOP_BYTES * loops,
    places: |k| [LOOP_BYTES * k, LOOP_BYTES * k + 4],
    number: u32::from_le_bytes,
    looked_at: |loops| loops,
    most: MOST_AMOUNT,
    unmet: |asked, given| by(asked, given, meets),
    told: |pairs| [pairs[0].0, pairs[0].1],
    short: |_, given| threshold(given),
    threshold: |_, given| threshold(given),
    listed: |_, given| given.to_vec(),
};

/// The pairs with a dependence that is not met by this rule.
fn by(asked: &Asked, given: &[Amounts], met: fn(&Dependence, &[Amounts]) -> bool) -> Pairs {
    unmet(&asked.ending, given, met)
}

fn unmet(
    ending: &[Vec<Dependence>],
    given: &[Amounts],
    met: fn(&Dependence, &[Amounts]) -> bool,
) -> Pairs {
    let all = ending.iter().flatten().filter(|one| !met(one, given));
    let mut pairs: Pairs = all.map(|one| (one.from, one.to)).collect();
    pairs.sort_unstable();
    pairs.dedup();
    pairs
}

/// By how much the later loop's shift and peel are above what is asked.
fn above(one: &Dependence, given: &[Amounts]) -> (i64, i64) {
    let (earlier, later) = (given[one.from], given[one.to]);
    let shift = later.shift - earlier.shift - one.backward();
    (shift, later.peel - earlier.peel - one.forward())
}

/// Bounds are not asked: every pair of references to one array counts.
fn without_bounds(asked: &Asked, given: &[Amounts]) -> Pairs {
    unmet(&dependences_by(asked.table, |_, _, _| true), given, meets)
}

/// References that are chosen by their statement's number count alone.
fn among(asked: &Asked, given: &[Amounts], chosen: fn(usize, &Access) -> bool) -> Pairs {
    let some = |one: &Loop| chosen_of(one, chosen);
    unmet(&dependences_among(asked.table, some, meet), given, meets)
}

/// A plan is taken where no number is below the loop's own.
fn not_below_own(asked: &Asked, given: &[Amounts]) -> Pairs {
    let low = |(one, own): (&Amounts, &Amounts)| one.shift < own.shift || one.peel < own.peel;
    if given.iter().zip(&asked.own).any(low) {
        by(asked, given, meets)
    } else {
        Vec::new()
    }
}

/// What stands behind the plan counts too.
fn all_sixteen(_: usize) -> usize {
    MOST_LOOPS
}

/// Own shifts with the given peels.
fn own_shifts(own: &[Amounts], given: &[Amounts]) -> Vec<Amounts> {
    let both = own.iter().zip(given);
    both.map(|(own, given)| Amounts { shift: own.shift, peel: given.peel }).collect()
}

fn own_peels(own: &[Amounts], given: &[Amounts]) -> Vec<Amounts> {
    own_shifts(given, own)
}

/// The largest shift and the largest peel, of whatever loops.
fn of_two_loops(_: &[Amounts], given: &[Amounts]) -> i64 {
    let shift = given.iter().map(|one| one.shift).max().unwrap_or(0);
    shift + given.iter().map(|one| one.peel).max().unwrap_or(0)
}

const fn met_by(unmet: fn(&Asked, &[Amounts]) -> Pairs) -> Rule {
    Rule { unmet, ..RIGHT }
}

const fn told(told: fn(&[(usize, usize)]) -> [usize; 2]) -> Rule {
    Rule { told, ..RIGHT }
}

const fn asked(order: [Ask; 6]) -> Rule {
    Rule { order, ..RIGHT }
}

const fn hand(by_hand: fn(u32) -> bool) -> Rule {
    Rule { by_hand, ..RIGHT }
}

const fn length(length: fn(u32, usize) -> bool) -> Rule {
    Rule { length, ..RIGHT }
}

const fn number(number: fn([u8; 4]) -> u32) -> Rule {
    Rule { number, ..RIGHT }
}

const fn listed(listed: Chosen<Vec<Amounts>>) -> Rule {
    Rule { listed, ..RIGHT }
}

use Ask::{Line, Named, Plan as Numbers, Processors, Short, Unmet};

const WAYS: [(&str, Rule); 46] = [
    ("a plan by hand ignored", hand(|_| false)),
    ("by hand only where it is 1", hand(|number| number == 1)),
    ("by hand by the low byte alone", hand(|number| number & 0xFF != 0)),
    ("by hand by the low two bytes alone", hand(|number| number & 0xFFFF != 0)),
    ("always by hand", hand(|_| true)),
    ("the length not asked", length(|_, _| true)),
    ("a longer plan accepted", length(|length, loops| length as usize >= LOOP_BYTES * loops)),
    ("a shorter plan accepted", length(|length, loops| length as usize <= LOOP_BYTES * loops)),
    ("the length's low byte alone", length(|length, loops| length as u8 as usize == 8 * loops)),
    ("the length in whole loops", length(|length, loops| length as usize / LOOP_BYTES == loops)),
    ("bytes behind the plan looked at", Rule { looked_at: all_sixteen, ..RIGHT }),
    ("shift and peel exchanged", Rule { places: |k| [8 * k + 4, 8 * k], ..RIGHT }),
    ("all shifts, then all peels", Rule { places: |k| [4 * k, 64 + 4 * k], ..RIGHT }),
    ("loops four bytes apart", Rule { places: |k| [4 * k, 4 * k + 4], ..RIGHT }),
    ("the high byte first", number(u32::from_be_bytes)),
    ("a number's low two bytes alone", number(|b| u32::from_le_bytes(b) & 0xFFFF)),
    ("a number's low 14 bits alone", number(|b| u32::from_le_bytes(b) & 0x3FFF)),
    ("10,001 accepted", Rule { most: 10_001, ..RIGHT }),
    ("9,999 the most", Rule { most: 9_999, ..RIGHT }),
    ("16,383 the most", Rule { most: 16_383, ..RIGHT }),
    (
        "what is just met refused",
        met_by(|a, g| by(a, g, |d, g| above(d, g).0.min(above(d, g).1) > 0)),
    ),
    ("one below accepted", met_by(|a, g| by(a, g, |d, g| above(d, g).0.min(above(d, g).1) > -2))),
    ("shifts alone asked", met_by(|a, g| by(a, g, |d, g| above(d, g).0 >= 0))),
    ("peels alone asked", met_by(|a, g| by(a, g, |d, g| above(d, g).1 >= 0))),
    ("neighbours alone asked", met_by(|a, g| by(a, g, |d, g| d.to > d.from + 1 || meets(d, g)))),
    ("distances of 0 not asked", met_by(|a, g| by(a, g, |d, g| d.distance == 0 || meets(d, g)))),
    ("bounds not asked", met_by(without_bounds)),
    (
        "the first destination alone asked",
        met_by(|a, g| among(a, g, |number, one| number == 0 || !one.stores)),
    ),
    (
        "the first statement's reads alone asked",
        met_by(|a, g| among(a, g, |number, one| number == 0 || one.stores)),
    ),
    ("accepted where no number is below the own", met_by(not_below_own)),
    ("20 not asked", met_by(|_, _| Vec::new())),
    ("the last pair told", told(|p| [p[p.len() - 1].0, p[p.len() - 1].1])),
    (
        "the lowest later loop first",
        told(|p| {
            let (later, earlier) = p.iter().map(|one| (one.1, one.0)).min().unwrap_or_default();
            [earlier, later]
        }),
    ),
    (
        "the highest later loop told",
        told(|p| {
            let same = p.iter().filter(|one| one.0 == p[0].0);
            [p[0].0, same.map(|one| one.1).max().unwrap_or_default()]
        }),
    ),
    ("the pair exchanged", told(|p| [p[0].1, p[0].0])),
    ("19 after 20", asked([Unmet, Numbers, Processors, Named, Line, Short])),
    ("10 before 19 and 20", asked([Processors, Named, Numbers, Unmet, Line, Short])),
    ("10 before 20", asked([Numbers, Processors, Named, Unmet, Line, Short])),
    ("19 and 20 after 17", asked([Processors, Named, Line, Numbers, Unmet, Short])),
    ("19 and 20 after 11", asked([Processors, Named, Line, Short, Numbers, Unmet])),
    ("11 by the own threshold", Rule { short: |own, _| threshold(own), ..RIGHT }),
    ("the own threshold told", Rule { threshold: |own, _| threshold(own), ..RIGHT }),
    ("the threshold of two loops told", Rule { threshold: of_two_loops, ..RIGHT }),
    ("lists by the own numbers", listed(|own, _| own.to_vec())),
    ("lists by the own shifts", listed(own_shifts)),
    ("lists by the own peels", listed(own_peels)),
];

/// The numbers that a plan by hand has by the rule, of so many loops.
fn given(settings: &Settings, rule: &Rule, loops: usize) -> Vec<Amounts> {
    let number = |at: usize| {
        let byte = |i: usize| settings.plan[(at + i) % PLAN_BYTES];
        i64::from((rule.number)([byte(0), byte(1), byte(2), byte(3)]))
    };
    let one = |k| (rule.places)(k).map(number);
    (0..loops).map(one).map(|[shift, peel]| Amounts { shift, peel }).collect()
}

/// Ground 19 by the rule.
fn no_plan(asked: &Asked, rule: &Rule) -> bool {
    let (settings, loops) = (&asked.settings, asked.table.loops.len());
    let high = |one: &Amounts| one.shift.max(one.peel) > rule.most;
    !(rule.length)(settings.plan_length, loops)
        || given(settings, rule, (rule.looked_at)(loops)).iter().any(high)
}

fn outcome(asked: &Asked, rule: &Rule) -> Outcome {
    let Settings { processors, line, by_hand, .. } = asked.settings;
    let (by_hand, loops) = ((rule.by_hand)(by_hand), asked.table.loops.len());
    let numbers = if by_hand { given(&asked.settings, rule, loops) } else { asked.own.clone() };
    let pairs = if by_hand { (rule.unmet)(asked, &numbers) } else { Vec::new() };
    for ask in rule.order {
        let (holds, ground) = match ask {
            Ask::Plan => (by_hand && no_plan(asked, rule), 19),
            Ask::Unmet => (!pairs.is_empty(), 20),
            Ask::Processors => (!(1..=MOST_PROCESSORS).contains(&processors), 10),
            Ask::Named => (asked.named.is_some_and(|named| named >= processors), 10),
            Ask::Line => (!(1..=LONGEST_LINE).contains(&line), 17),
            Ask::Short => (short(asked, rule, &numbers), 11),
        };
        let [place, name] = if holds && ground == 20 { (rule.told)(&pairs) } else { [0, 0] };
        if holds {
            return Err([ground, place as u64, name as u64, 0]);
        }
    }
    let listed = (rule.listed)(&asked.own, &numbers);
    let plan = laid(asked.table, asked.settings, listed).ok_or([11, 0, 0, 0])?;
    Ok(((rule.threshold)(&asked.own, &numbers), plan))
}

fn short(asked: &Asked, rule: &Rule, numbers: &[Amounts]) -> bool {
    let least = (rule.short)(&asked.own, numbers);
    laid(asked.table, asked.settings, Vec::new()).is_none_or(|plan| !plan.long_enough(least))
}

/// Whether some call tells the two from each other.
fn differ(one: &Outcome, other: &Outcome) -> bool {
    match (one, other) {
        (Ok((told, plan)), Ok((also_told, other))) => {
            let listed = plan.amounts != other.amounts && lists(plan) != lists(other);
            told != also_told || listed
        }
        (Err(one), Err(other)) => one != other,
        _ => true,
    }
}

/// What is easily missed, of a call and what it rightly comes to.
type Kind = fn(&Asked, &Outcome) -> bool;

const KINDS: [(&str, Kind); 19] = [
    ("an accepted plan by hand", |a, o| a.settings.by_hand != 0 && o.is_ok()),
    ("one above the own, for two processors or more", |a, o| {
        a.settings.processors >= 2 && o.as_ref().is_ok_and(|(_, plan)| plan.amounts != a.own)
    }),
    ("the own numbers by hand", |a, o| {
        a.settings.by_hand != 0 && o.as_ref().is_ok_and(|(_, plan)| plan.amounts == a.own)
    }),
    ("an accepted number of 10,000", |_, o| any_number(o, |one| one == MOST_AMOUNT)),
    ("an accepted shift above all indices", |a, o| {
        let count = indices(a.table).count();
        o.as_ref().is_ok_and(|(_, plan)| plan.amounts.iter().any(|one| one.shift > count))
    }),
    ("an accepted plan of sixteen loops", |a, o| {
        let full = a.settings.plan_length as usize == PLAN_BYTES;
        full && a.settings.by_hand != 0 && o.is_ok()
    }),
    ("20 that names the sixteenth loop", |_, o| {
        o.as_ref().is_err_and(|answer| answer[0] == 20 && answer[2] == MOST_LOOPS as u64 - 1)
    }),
    ("a threshold for which one index decides", |a, o| {
        let least = |plan: &Plan| plan.blocks.iter().map(|block| block.count()).min();
        let by_hand = a.settings.by_hand != 0 && a.settings.processors >= 2;
        by_hand && o.as_ref().is_ok_and(|(told, plan)| least(plan) == Some(*told))
    }),
    ("19 of the length", |a, o| ground(o) == 19 && !right_length(a)),
    ("19 of a number", |a, o| ground(o) == 19 && right_length(a)),
    ("20 of shifts alone", |a, o| ground(o) == 20 && missed(a, |(_, peel)| peel >= 0)),
    ("20 of peels alone", |a, o| ground(o) == 20 && missed(a, |(shift, _)| shift >= 0)),
    ("20 of several pairs", |a, o| ground(o) == 20 && pairs_of(a).len() > 1),
    ("20 of no neighbours", |a, o| {
        ground(o) == 20 && pairs_of(a).iter().all(|&(earlier, later)| later > earlier + 1)
    }),
    ("20 with no number below the own", |a, o| {
        ground(o) == 20 && not_below_own(a, &in_settings(a)).is_empty()
    }),
    ("11 where the own numbers have a plan", |a, o| {
        let own = Asked { settings: a.settings.own(), ..Asked::new(a.table, a.settings, a.named) };
        ground(o) == 11 && outcome(&own, &RIGHT).is_ok()
    }),
    ("an accepted plan by hand of several statements in a loop", |a, o| {
        a.settings.by_hand != 0 && several(a) && o.is_ok()
    }),
    ("20 of several statements in a loop", |a, o| several(a) && ground(o) == 20),
    ("bytes of a plan where none is by hand", |a, _| {
        a.settings.by_hand == 0 && a.settings.plan_length > 0
    }),
];

fn several(asked: &Asked) -> bool {
    asked.table.loops.iter().any(|one| one.statements.len() > 1)
}

fn ground(outcome: &Outcome) -> u64 {
    outcome.as_ref().err().map_or(0, |answer| answer[0])
}

fn any_number(outcome: &Outcome, is: impl Fn(i64) -> bool) -> bool {
    let any = |plan: &Plan| plan.amounts.iter().any(|one| is(one.shift) || is(one.peel));
    outcome.as_ref().is_ok_and(|(_, plan)| any(plan))
}

fn right_length(asked: &Asked) -> bool {
    asked.settings.plan_length as usize == LOOP_BYTES * asked.table.loops.len()
}

fn in_settings(asked: &Asked) -> Vec<Amounts> {
    given(&asked.settings, &RIGHT, asked.table.loops.len())
}

fn pairs_of(asked: &Asked) -> Pairs {
    by(asked, &in_settings(asked), meets)
}

/// Whether this holds of all dependences.
fn missed(asked: &Asked, holds: fn((i64, i64)) -> bool) -> bool {
    let given = in_settings(asked);
    asked.ending.iter().flatten().all(|one| holds(above(one, &given)))
}

/// Of the calls, how many are of each kind, and how many show that a way is
/// wrong.
pub struct Misplanned {
    calls: u64,
    kinds: [u64; KINDS.len()],
    shown: [u64; WAYS.len()],
}

impl Default for Misplanned {
    fn default() -> Misplanned {
        Misplanned { calls: 0, kinds: [0; KINDS.len()], shown: [0; WAYS.len()] }
    }
}

impl Misplanned {
    pub fn new() -> Misplanned {
        Misplanned::default()
    }

    pub fn add(&mut self, asked: &Asked) {
        self.calls += 1;
        let right = outcome(asked, &RIGHT);
        for (count, (_, kind)) in self.kinds.iter_mut().zip(KINDS) {
            *count += u64::from(kind(asked, &right));
        }
        for (count, (_, way)) in self.shown.iter_mut().zip(&WAYS) {
            *count += u64::from(differ(&outcome(asked, way), &right));
        }
    }

    pub fn print(&self, name: &str) {
        println!("{name}: {} calls, of which so many have", self.calls);
        for (count, (kind, _)) in self.kinds.iter().zip(KINDS) {
            println!("  {count:6} {kind}");
        }
        println!("  and so many would show each mistake");
        for (count, (way, _)) in self.shown.iter().zip(&WAYS) {
            println!("  {count:6} {way}");
        }
    }

    /// Ends the program where a kind was made or a wrong way would have shown
    /// too seldom.
    pub fn require(&self, least: u64) {
        for (count, (kind, _)) in self.kinds.iter().zip(KINDS) {
            assert!(*count >= least, "{kind}: in {count} calls, fewer than {least}");
        }
        for (count, (way, _)) in self.shown.iter().zip(&WAYS) {
            assert!(*count >= least, "{way}: would show {count} times, fewer than {least}");
        }
    }
}

#[cfg(test)]
mod tests {
    use super::*;
    use crate::blocks::plan_naming;
    use crate::by_hand::written;
    use crate::examples::{three_loops, EXAMPLE};
    use crate::line_lengths;
    use crate::plans_by_hand;
    use crate::processors;
    use crate::random::Random;
    use crate::reader::read;
    use crate::tables::{self, SMALL};

    fn plan(numbers: &[(i64, i64)]) -> Vec<u8> {
        let one = |&(shift, peel): &(i64, i64)| Amounts { shift, peel };
        written(&numbers.iter().map(one).collect::<Vec<Amounts>>())
    }

    /// The names of the ways that are wrong for these settings.
    fn wrong(table: &Table, settings: Settings) -> Vec<&'static str> {
        let asked = Asked::new(table, settings, None);
        let right = outcome(&asked, &RIGHT);
        let all = WAYS.iter().filter(|(_, way)| differ(&outcome(&asked, way), &right));
        all.map(|(name, _)| *name).collect()
    }

    #[test]
    fn the_right_way_is_the_second_planners() {
        let mut random = Random::new(74);
        for _ in 0..8_000 {
            let table = tables::aligned(&mut random, &SMALL);
            let settings =
                Settings::new(processors::any(&mut random), line_lengths::any(&mut random));
            let settings = plans_by_hand::any(&mut random, &table, settings);
            let named = random.chance(1, 2).then(|| random.below(5) as u32);
            let wanted = plan_naming(&table, settings, named);
            let wanted = wanted.map(|plan| (threshold(&plan.amounts), plan));
            let found = outcome(&Asked::new(&table, settings, named), &RIGHT);
            assert!(!differ(&found, &wanted.map_err(|refusal| refusal.answer())));
        }
    }

    #[test]
    fn each_wrong_way_refuses_what_its_words_say() {
        let table = read(&three_loops()).expect("accepted");
        let one = Settings::of(1);
        // Shifts and peels 0, 1, 2 are the own. A plan that meets all with one
        // to spare shows nothing of 20.
        let just = wrong(&table, one.with_plan(&plan(&[(0, 0), (1, 1), (2, 2)])));
        assert!(just.contains(&"what is just met refused"));
        assert!(!just.contains(&"one below accepted"));
        let shift = wrong(&table, one.with_plan(&plan(&[(1, 0), (1, 2), (3, 3)])));
        assert!(shift.contains(&"one below accepted") && shift.contains(&"peels alone asked"));
        assert!(shift.contains(&"accepted where no number is below the own"));
        assert!(!shift.contains(&"shifts alone asked") && !shift.contains(&"the last pair told"));
        let both = wrong(&table, one.with_plan(&plan(&[(1, 0), (1, 2), (1, 3)])));
        assert!(both.contains(&"the last pair told"));
        let high = wrong(&table, one.with_plan(&plan(&[(0, 0), (1, 1), (10_001, 2)])));
        assert!(high.contains(&"10,001 accepted") && !high.contains(&"19 after 20"));
        let first = wrong(&table, one.with_plan(&plan(&[(0, 0), (0, 1), (10_001, 2)])));
        assert!(first.contains(&"19 after 20"));
    }

    #[test]
    fn each_wrong_way_takes_what_its_words_say() {
        let table = read(&EXAMPLE).expect("accepted");
        let two = Settings::of(2);
        // 5 indices a block, and 2 + 3 just fits.
        let given = two.with_plan(&plan(&[(0, 1), (2, 3)]));
        let wide = wrong(&table, given);
        for way in ["a plan by hand ignored", "the own threshold told", "lists by the own numbers"]
        {
            assert!(wide.contains(&way), "{way}");
        }
        assert!(!wide.contains(&"by hand only where it is 1"));
        let other = wrong(&table, Settings { by_hand: 256, ..given });
        assert!(other.contains(&"by hand by the low byte alone"));
        let short = wrong(&table, two.with_plan(&plan(&[(0, 1), (3, 3)])));
        assert!(short.contains(&"11 by the own threshold"));
        let longer = wrong(&table, Settings { plan_length: 17, ..given });
        assert!(longer.contains(&"a longer plan accepted"));
        assert!(longer.contains(&"the length in whole loops"));
        assert!(!longer.contains(&"a shorter plan accepted"));
    }

    #[test]
    fn a_call_that_shows_nothing_is_too_little() {
        let table = read(&EXAMPLE).expect("accepted");
        let mut misplanned = Misplanned::new();
        misplanned.add(&Asked::new(&table, Settings::of(1), None));
        assert_eq!((misplanned.calls, misplanned.kinds[0], misplanned.shown[0]), (1, 0, 0));
        assert!(std::panic::catch_unwind(|| misplanned.require(1)).is_err());
    }
}
