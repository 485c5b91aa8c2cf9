//! Wrong ways to make blocks of lines and to refuse them, and a count of the
//! calls by which each of them would be seen.

use crate::blocks::{indices, Range, LONGEST_LINE, MOST_PROCESSORS};
use crate::planner::{amounts, threshold};
use crate::settings::Settings;
use crate::table::Table;

/// What a call is asked: a table, of which these numbers count, the settings,
/// and a processor where the call has one.
pub struct Asked {
    indices: Range,
    threshold: i64,
    settings: Settings,
    named: Option<u32>,
}

impl Asked {
    pub fn new(table: &Table, settings: Settings, named: Option<u32>) -> Asked {
        let (indices, threshold) = (indices(table), threshold(&amounts(table)));
        Asked { indices, threshold, settings, named }
    }
}

/// The blocks, or the ground.
type Outcome = Result<Vec<Range>, u64>;

/// A ground's question.
#[derive(Clone, Copy)]
enum Ask {
    Processors,
    Named,
    Line,
    Short,
}

/// What 11 may look at.
struct Sizes {
    processors: i64,
    indices: i64,
    line: i64,
    lines: i64,
    threshold: i64,
    /// How many indices each block has, and the last one if it is not cut.
    blocks: Vec<i64>,
    uncut: i64,
}

/// A way, right or wrong.
#[derive(Clone, Copy)]
struct Rule {
    order: [Ask; 4],
    /// A line's length as it is taken; none is 17.
    taken: fn(u32) -> Option<i64>,
    /// Where lines begin, for the least first and a line's length.
    origin: fn(i64, i64) -> i64,
    /// How many lines so many indices have.
    lines: fn(i64, i64) -> i64,
    /// Whether block b of so many has a line more, where so many lines are
    /// left over.
    longer: fn(i64, i64, i64) -> bool,
    /// The last block's last index, from that of its last line and the
    /// greatest last.
    cut: fn(i64, i64) -> i64,
    short: fn(&Sizes) -> bool,
}

const RIGHT: Rule = Rule {
    order: [Ask::Processors, Ask::Named, Ask::Line, Ask::Short],
    taken: |w| up_to(w, LONGEST_LINE),
    origin: |first, _| first,
    lines: |indices, w| (indices + w - 1) / w,
    longer: |b, _, left| b < left,
    cut: |_, last| last,
    short: |s| few(s) || below(s, &s.blocks, s.threshold),
};

/// A length from 1 to the longest.
fn up_to(line: u32, longest: u32) -> Option<i64> {
    (1..=longest).contains(&line).then_some(line.into())
}

fn few(sizes: &Sizes) -> bool {
    sizes.lines < sizes.processors
}

/// Whether one of these blocks has too few indices, where that counts.
fn below(sizes: &Sizes, blocks: &[i64], least: i64) -> bool {
    sizes.processors >= 2 && blocks.iter().any(|&size| size < least)
}

/// All blocks but the last.
fn front(sizes: &Sizes) -> &[i64] {
    &sizes.blocks[..sizes.blocks.len() - 1]
}

fn by_uncut(s: &Sizes) -> bool {
    few(s) || below(s, front(s), s.threshold) || below(s, &[s.uncut], s.threshold)
}

fn by_indices(s: &Sizes) -> bool {
    s.indices < s.processors || below(s, &s.blocks, s.threshold)
}

const LINE_FIRST: [Ask; 4] = [Ask::Line, Ask::Processors, Ask::Named, Ask::Short];
const LINE_BEFORE_NAMED: [Ask; 4] = [Ask::Processors, Ask::Line, Ask::Named, Ask::Short];
const LINE_LAST: [Ask; 4] = [Ask::Processors, Ask::Named, Ask::Short, Ask::Line];

const WAYS: [(&str, Rule); 22] = [
    ("the line ignored", Rule { taken: |w| up_to(w, 64).and(Some(1)), ..RIGHT }),
    ("lines rounded down", Rule { lines: |indices, w| indices / w, ..RIGHT }),
    ("lines counted from index 0", Rule { origin: |first, w| first - first % w, ..RIGHT }),
    ("the last block not cut", Rule { cut: |e, _| e, ..RIGHT }),
    ("the last blocks have a line more", Rule { longer: |b, p, left| b >= p - left, ..RIGHT }),
    ("every block as long as the first", Rule { longer: |_, _, left| left > 0, ..RIGHT }),
    ("what is left over to the last block", Rule { longer: |_, _, _| false, ..RIGHT }),
    ("11 by the uncut last block", short(by_uncut)),
    ("11 not of the last block", short(|s| few(s) || below(s, front(s), s.threshold))),
    ("11 by indices in place of lines", short(by_indices)),
    ("11 by the threshold alone", short(|s| below(s, &s.blocks, s.threshold))),
    ("11 by lines alone", short(few)),
    ("11 where lines are as many", short(|s| s.lines <= s.processors)),
    ("11 of just the threshold", short(|s| few(s) || below(s, &s.blocks, s.threshold + 1))),
    ("the threshold in lines", short(|s| few(s) || below(s, &s.blocks, s.threshold * s.line))),
    ("17 before 10", Rule { order: LINE_FIRST, ..RIGHT }),
    ("17 before 10 of the named processor", Rule { order: LINE_BEFORE_NAMED, ..RIGHT }),
    ("17 after 11", Rule { order: LINE_LAST, ..RIGHT }),
    ("0 accepted", Rule { taken: |w| up_to(w.max(1), 64), ..RIGHT }),
    ("65 accepted", Rule { taken: |w| up_to(w, 65), ..RIGHT }),
    ("64 refused", Rule { taken: |w| up_to(w, 63), ..RIGHT }),
    ("of the length its low byte alone", Rule { taken: |w| up_to(w & 0xFF, 64), ..RIGHT }),
];

const fn short(short: fn(&Sizes) -> bool) -> Rule {
    Rule { short, ..RIGHT }
}

fn outcome(asked: &Asked, rule: &Rule) -> Outcome {
    let Settings { processors, line, .. } = asked.settings;
    for ask in rule.order {
        let (holds, ground) = match ask {
            Ask::Processors => (!(1..=MOST_PROCESSORS).contains(&processors), 10),
            Ask::Named => (asked.named.is_some_and(|named| named >= processors), 10),
            Ask::Line => ((rule.taken)(line).is_none(), 17),
            Ask::Short => ((rule.short)(&sizes(asked, rule)), 11),
        };
        if holds {
            return Err(ground);
        }
    }
    Ok(blocks(asked, rule).0)
}

/// The length as the rule takes it, or, where the rule asks for it only later,
/// as it is.
fn taken(asked: &Asked, rule: &Rule) -> i64 {
    let line = asked.settings.line;
    (rule.taken)(line).unwrap_or(i64::from(line.max(1)))
}

/// The blocks, how many lines they have, and the last line's last index.
fn blocks(asked: &Asked, rule: &Rule) -> (Vec<Range>, i64, i64) {
    let (count, line) = (i64::from(asked.settings.processors), taken(asked, rule));
    let Range { a: first, e: last } = asked.indices;
    let origin = (rule.origin)(first, line);
    let lines = (rule.lines)(last - origin + 1, line);
    let mut next = origin;
    let mut all = Vec::new();
    for b in 0..count {
        let own = lines / count + i64::from((rule.longer)(b, count, lines % count));
        all.push(Range { a: next.max(first), e: next + own * line - 1 });
        next += own * line;
    }
    if let Some(block) = all.last_mut() {
        block.e = (rule.cut)(block.e, last);
    }
    (all, lines, next - 1)
}

fn sizes(asked: &Asked, rule: &Rule) -> Sizes {
    let (blocks, lines, end) = blocks(asked, rule);
    Sizes {
        processors: i64::from(asked.settings.processors),
        indices: asked.indices.count(),
        line: taken(asked, rule),
        lines,
        threshold: asked.threshold,
        uncut: blocks.last().map_or(0, |last| end - last.a + 1),
        blocks: blocks.iter().map(Range::count).collect(),
    }
}

/// What is easily missed, of the sizes by the right way.
type Kind = fn(&Sizes) -> bool;

const KINDS: [(&str, Kind); 8] = [
    ("lines of two iterations or more", |s| s.line >= 2),
    ("as many lines as processors", |s| s.processors >= 2 && s.lines == s.processors),
    ("one line fewer than processors", |s| s.lines == s.processors - 1),
    ("indices enough and lines too few", |s| s.indices >= s.processors && s.lines < s.processors),
    ("a last block that is cut", |s| s.indices < s.lines * s.line),
    ("a cut last block with just the threshold", |s| cut(s, s.threshold)),
    ("a cut last block with one index fewer", |s| cut(s, s.threshold - 1)),
    ("a last block that the cut alone makes too short", |s| {
        !few(s) && below(s, &s.blocks, s.threshold) && !by_uncut(s)
    }),
];

/// Lines enough, a threshold that counts, and a last block of this size after
/// a cut.
fn cut(sizes: &Sizes, size: i64) -> bool {
    let last = sizes.blocks.last();
    let counts = sizes.processors >= 2 && sizes.threshold > 0 && !few(sizes);
    counts && sizes.indices < sizes.lines * sizes.line && last == Some(&size)
}

/// Of the calls, how many are of each kind, and how many show that a way is
/// wrong.
#[derive(Default)]
pub struct Misaligned {
    calls: u64,
    kinds: [u64; KINDS.len()],
    shown: [u64; WAYS.len()],
}

impl Misaligned {
    pub fn new() -> Misaligned {
        Misaligned::default()
    }

    pub fn add(&mut self, asked: &Asked) {
        self.calls += 1;
        let right = outcome(asked, &RIGHT);
        if !matches!(right, Err(10 | 17)) {
            let sizes = sizes(asked, &RIGHT);
            for (count, (_, kind)) in self.kinds.iter_mut().zip(KINDS) {
                *count += u64::from(kind(&sizes));
            }
        }
        for (count, (_, way)) in self.shown.iter_mut().zip(&WAYS) {
            *count += u64::from(outcome(asked, way) != right);
        }
    }

    pub fn print(&self, name: &str) {
        println!("{name}: {} calls, of which so many have", self.calls);
        for (count, (kind, _)) in self.kinds.iter().zip(KINDS) {
            println!("  {count:6} {kind}");
        }
        println!("  and so many would show each mistake");
        for (count, (way, _)) in self.shown.iter().zip(&WAYS) {
            println!("  {count:6} {way}");
        }
    }

    /// Ends the program where a kind was made or a wrong way would have shown
    /// too seldom.
    pub fn require(&self, least: u64) {
        for (count, (kind, _)) in self.kinds.iter().zip(KINDS) {
            assert!(*count >= least, "{kind}: in {count} calls, fewer than {least}");
        }
        for (count, (way, _)) in self.shown.iter().zip(&WAYS) {
            assert!(*count >= least, "{way}: would show {count} times, fewer than {least}");
        }
    }
}

#[cfg(test)]
mod tests {
    use super::*;
    use crate::blocks::plan;
    use crate::lined;
    use crate::random::Random;

    /// The indices 1 to 10.
    fn ten(threshold: i64, processors: u32, line: u32) -> Asked {
        let indices = Range { a: 1, e: 10 };
        Asked { indices, threshold, settings: Settings::new(processors, line), named: None }
    }

    /// The ways that are wrong here, by number; with each its first blocks'
    /// last index, or the ground.
    fn wrong(asked: &Asked) -> Vec<(usize, i64)> {
        let told = |outcome: &Outcome| match outcome {
            Ok(blocks) => blocks[0].e,
            Err(ground) => -(*ground as i64),
        };
        let right = outcome(asked, &RIGHT);
        let all = WAYS.iter().map(|(_, way)| outcome(asked, way)).enumerate();
        all.filter(|(_, one)| *one != right).map(|(at, one)| (at, told(&one))).collect()
    }

    #[test]
    fn each_wrong_way_comes_to_what_its_words_say() {
        // Blocks 1 to 8 and 9 to 10.
        let two = wrong(&ten(0, 2, 4));
        assert_eq!(two, [(0, 5), (1, 4), (2, 7), (3, 8), (4, 4), (6, 4)]);
        // 11, for two indices are fewer than three. (1, 4) has 5 to 10 behind
        // it, (2, 7) has 8 to 10.
        let short = wrong(&ten(3, 2, 4));
        assert_eq!(
            short,
            [(0, 5), (1, 4), (2, 7), (3, 8), (4, 4), (6, 4), (7, 8), (8, 8), (11, 8), (12, 8)]
        );
        // 11, for three lines are fewer than four.
        assert_eq!(wrong(&ten(0, 4, 4)), [(0, 3), (9, 4), (10, 4)]);
        // Blocks 1 to 4, 5 to 8, 9 to 10, the last with just the threshold.
        let just = wrong(&ten(2, 3, 4));
        assert_eq!(just, [(0, 4), (1, -11), (2, 3), (3, 4), (12, -11), (13, -11), (14, -11)]);
        // Blocks 1 to 4, 5 to 6, 7 to 8, 9 to 10.
        assert_eq!(wrong(&ten(0, 4, 2)), [(0, 3), (2, 3), (4, 2), (5, 4), (6, 2)]);
    }

    #[test]
    fn each_wrong_way_asks_what_its_words_say() {
        assert_eq!(wrong(&ten(0, 0, 0)), [(15, -17)]);
        assert_eq!(wrong(&ten(0, 2, 0)), [(18, 5)]);
        // One line of 65 is fewer than two.
        assert_eq!(wrong(&ten(0, 2, 65)), [(17, -11), (19, -11)]);
        // One block, 1 to 10.
        assert_eq!(wrong(&ten(0, 1, 64)), [(1, -11), (3, 64), (12, -11), (20, -17)]);
        assert_eq!(wrong(&ten(0, 2, 256 + 5)), [(17, -11), (21, 5)]);
        let named = Asked { named: Some(2), ..ten(0, 2, 65) };
        assert_eq!(wrong(&named), [(15, -17), (16, -17)]);
    }

    #[test]
    fn the_right_way_is_the_second_planners() {
        let mut random = Random::new(9);
        for _ in 0..5_000 {
            let lined = lined::any(&mut random, 64);
            let wanted = plan(&lined.table, lined.settings);
            let wanted = wanted.map(|plan| plan.blocks).map_err(|refusal| refusal.number);
            assert_eq!(outcome(&Asked::new(&lined.table, lined.settings, None), &RIGHT), wanted);
        }
    }

    #[test]
    fn a_call_that_shows_nothing_is_too_little() {
        let mut misaligned = Misaligned::new();
        misaligned.add(&ten(0, 2, 1));
        assert_eq!((misaligned.calls, misaligned.kinds[0], misaligned.shown[0]), (1, 0, 0));
        assert!(std::panic::catch_unwind(|| misaligned.require(1)).is_err());
    }
}
