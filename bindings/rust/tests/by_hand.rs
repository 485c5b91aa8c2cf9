//! Plans by hand: which are accepted, with which ground the others are refused, and what lists and runs make of them. What is expected is typed, or
//! worked out here from the loops that a table was made from.

use std::fs;
use std::ops::Range;
use vempaldi::*;

const EXAMPLE: &[u8] = include_bytes!("../../../examples/example.table");

type Pairs = Vec<(u32, u32)>;

/// The ground's number, its place and the first number that it names.
fn told(refusal: Refusal) -> (u64, u64, u64) {
    assert_eq!(refusal.named[1], 0);
    (refusal.ground.number(), refusal.place, refusal.named[0])
}

fn checked(table: &[u8], settings: Settings) -> Result<u32, (u64, u64, u64)> {
    check_plan(table, settings).map_err(told)
}

/// Loop 0 stores A0[i], loop 1 reads A0[i-1] and A0[i+1]: its shift and its peel are each one more than those of loop 0, or higher.
#[test]
fn the_example_has_its_answers() {
    for (plan, wanted) in [
        ([(0, 0), (1, 1)], Ok(2)),
        ([(0, 0), (0, 1)], Err((20, 0, 1))),
        ([(0, 0), (1, 0)], Err((20, 0, 1))),
        ([(2, 0), (3, 4)], Ok(7)),
        ([(3, 2), (3, 3)], Err((20, 0, 1))),
        ([(3, 2), (4, 3)], Ok(7)),
        ([(0, 1), (1, 1)], Err((20, 0, 1))),
        ([(0, 1), (1, 2)], Ok(3)),
        ([(9_999, 9_999), (10_000, 10_000)], Ok(20_000)),
        ([(10_000, 0), (10_000, 1)], Err((20, 0, 1))),
        ([(0, 0), (10_001, 1)], Err((19, 0, 0))),
        ([(0, 0), (1, 10_001)], Err((19, 0, 0))),
        ([(10_001, 0), (1, 1)], Err((19, 0, 0))),
        ([(0, 10_001), (1, 1)], Err((19, 0, 0))),
        ([(0, 0), (u32::MAX, 1)], Err((19, 0, 0))),
        ([(0, 0), (65_536 + 1, 1)], Err((19, 0, 0))),
    ] {
        assert_eq!(checked(EXAMPLE, Settings::new(1).amounts(plan)), wanted, "{plan:?}");
    }
}

/// 16 bytes are a plan for two loops, and no other count is.
#[test]
fn a_plan_has_eight_bytes_for_each_loop() {
    let right = [0, 0, 0, 0, 0, 0, 0, 0, 1, 0, 0, 0, 1, 0, 0, 0];
    let long = [&right[..], &[0; 1_000]].concat();
    for length in 0..long.len() {
        let wanted = if length == right.len() { Ok(2) } else { Err((19, 0, 0)) };
        assert_eq!(checked(EXAMPLE, Settings::new(2).plan(&long[..length])), wanted, "{length} bytes");
    }
    // A length whose low bytes alone are right.
    let far = [&right[..], &vec![0; 65_536]].concat();
    assert_eq!(checked(EXAMPLE, Settings::new(2).plan(&far)), Err((19, 0, 0)));
}

/// A plan of no bytes is one that is wrong; no plan at all is the table's own.
#[test]
fn an_empty_plan_is_not_none() {
    assert_eq!(checked(EXAMPLE, Settings::new(2).plan(&[])), Err((19, 0, 0)));
    assert_eq!(checked(EXAMPLE, Settings::new(2)), Ok(2));
    assert_ne!(Settings::new(2).plan(&[]), Settings::new(2));
    assert_eq!((Settings::new(2).plan_length(), Settings::new(2).plan(&[]).plan_length()), (None, Some(0)));
    assert_eq!(Settings::new(2).plan(&[7; 300]).plan_length(), Some(300));
}

/// As the library takes them, the low byte first.
#[test]
fn numbers_and_bytes_are_one_plan() {
    let numbers = Settings::new(3).line(2).amounts([(258, 3), (4, 65_537)]);
    let bytes = [2, 1, 0, 0, 3, 0, 0, 0, 4, 0, 0, 0, 1, 0, 1, 0];
    assert_eq!(numbers, Settings::new(3).plan(&bytes).line(2));
    let back: Pairs = numbers.by_hand().expect("a plan").iter().map(|one| (one.shift, one.peel)).collect();
    assert_eq!(back, [(258, 3), (4, 65_537)]);
    assert_eq!(numbers.amounts([(1, 2)]), Settings::new(3).line(2).amounts([(1, 2)]));
    assert_eq!(format!("{:?}", Settings::new(3)), "Settings { processors: 3, line: 1 }");
    let said = format!("{:?}", Settings::new(3).amounts([(1, 2)]));
    assert_eq!(said, "Settings { processors: 3, line: 1, plan_length: 8, plan: [(1, 2)] }");
}

#[test]
fn a_refusal_says_both_loops() {
    let refusal = check_plan(EXAMPLE, Settings::new(2).amounts([(0, 0), (0, 0)])).expect_err("refused");
    assert_eq!(refusal.loops(), Some((0, 1)));
    assert_eq!(refusal.references(), None);
    assert_eq!(refusal.to_string(), "refused 20 unmet from loop 0 to loop 1: a plan by hand does not meet some dependence");
    let refusal = check_plan(EXAMPLE, Settings::new(2).plan(&[])).expect_err("refused");
    assert_eq!(refusal.loops(), None);
    let said = "refused 19 plan: a plan by hand has not 8 bytes for each loop, or a number above 10,000";
    assert_eq!(refusal.to_string(), said);
}

fn tables() -> Vec<Vec<u8>> {
    let directory = concat!(env!("CARGO_MANIFEST_DIR"), "/../../examples");
    let read = |name| fs::read(format!("{directory}/{name}.table")).expect("the table");
    ["example", "boundary", "coast", "jacobi", "ll18", "reach", "river"].map(read).into()
}

/// The table's own shifts and peels, written by hand, change nothing.
#[test]
fn the_own_plan_gives_the_same_lists() {
    for table in tables() {
        let own = shifts_and_peels(&table).expect("accepted");
        for (processors, line) in [(1, 1), (2, 1), (2, 8), (3, 4), (5, 1), (64, 1), (2, 64), (0, 1), (65, 1), (2, 65)] {
            let ours = Settings::new(processors).line(line);
            let by_hand = ours.amounts(own.iter().copied());
            assert_eq!(listing(&table, by_hand), listing(&table, ours), "{ours:?}");
            assert_eq!(check_plan(&table, by_hand), check_plan(&table, ours), "{ours:?}");
            for processor in 0..processors.min(3) {
                assert_eq!(fused_list(&table, by_hand, processor), fused_list(&table, ours, processor), "{ours:?}");
                assert_eq!(peeled_list(&table, by_hand, processor), peeled_list(&table, ours, processor), "{ours:?}");
            }
            if let Ok(found) = check_plan(&table, ours) {
                assert_eq!(Ok(found), threshold(&table));
            }
        }
        // A number below the own one is never accepted.
        for at in 0..own.len() {
            for (shift, peel) in [(1, 0), (0, 1)] {
                let mut lower = own.clone();
                let (Some(less), Some(fewer)) = (lower[at].shift.checked_sub(shift), lower[at].peel.checked_sub(peel)) else {
                    continue;
                };
                (lower[at].shift, lower[at].peel) = (less, fewer);
                let refusal = check_plan(&table, Settings::new(1).amounts(lower)).expect_err("below the own");
                assert_eq!((refusal.ground, refusal.named[0]), (Ground::Unmet, at as u64));
            }
        }
    }
}

/// The ground of each call that plans, in one order.
fn grounds(table: &[u8], settings: Settings, processor: u32, numbers: usize, count: u32) -> Vec<u64> {
    let mut state = State { counts: [count; 64] };
    let mut memory = vec![0.5; numbers];
    let all = [
        check_plan(table, settings).err(),
        blocks(table, settings).err(),
        listing(table, settings).err(),
        run(table, settings, &[0, 1], &mut memory.clone()).err(),
        fused_list(table, settings, processor).err(),
        peeled_list(table, settings, processor).err(),
        fused_ranges(table, settings, processor).err(),
        peeled_ranges(table, settings, processor).err(),
        step(table, settings, processor, &mut state, &mut memory).err(),
    ];
    assert!(memory.iter().all(|number| *number == 0.5) || all[8].is_none());
    all.iter().map(|refusal| refusal.as_ref().map_or(0, |refusal| refusal.ground.number())).collect()
}

/// 19 and 20 stand behind 1 to 9 and before 10, 17, 11, 12 and 15, which all hold here.
#[test]
fn every_call_asks_19_then_20_then_the_rest() {
    let bad = |plan: Pairs| Settings::new(65).line(65).amounts(plan);
    assert_eq!(grounds(EXAMPLE, bad(vec![(0, 0)]), 99, 35, 9), [19; 9]);
    assert_eq!(grounds(EXAMPLE, bad(vec![(0, 0), (0, 10_001)]), 99, 35, 9), [19; 9]);
    assert_eq!(grounds(EXAMPLE, bad(vec![(0, 0), (0, 0)]), 99, 35, 9), [20; 9]);
    assert_eq!(grounds(EXAMPLE, bad(vec![(0, 0), (1, 1)]), 99, 35, 9), [10; 9]);
    assert_eq!(grounds(&EXAMPLE[..60], bad(vec![(0, 0)]), 99, 35, 9), [1; 9]);
    // 11 by the plan's own threshold, which is 6 where blocks have 5 indices.
    let short = Settings::new(2).amounts([(0, 0), (5, 1)]);
    assert_eq!(grounds(EXAMPLE, short, 0, 35, 9), [11; 9]);
    assert_eq!(grounds(EXAMPLE, short.line(0), 0, 35, 9), [17; 9]);
    let just = Settings::new(2).amounts([(0, 0), (4, 1)]);
    assert_eq!(grounds(EXAMPLE, just, 0, 35, 9), [0, 0, 0, 12, 0, 0, 0, 0, 12]);
    // With one processor 11 is never given.
    assert_eq!(grounds(EXAMPLE, Settings::new(1).amounts([(0, 0), (10_000, 10_000)]), 0, 36, 0), [0; 9]);
}

/// A loop of a made table: bounds, and for each statement the array and offset that it stores, and those that it reads.
struct Made {
    first: u32,
    last: u32,
    statements: Vec<(Referred, Vec<Referred>)>,
}

/// An array and an offset.
type Referred = (u32, i64);

/// Numbers that look drawn, the same in every run.
struct Drawn(u64);

impl Drawn {
    fn below(&mut self, bound: u64) -> u64 {
        self.0 = self.0.wrapping_mul(6_364_136_223_846_793_005).wrapping_add(1_442_695_040_888_963_407);
        (self.0 >> 33) % bound
    }
}

const LENGTH: i64 = 60;

/// Loops over four arrays, of one statement to three. A loop stores no array twice and reads none that it stores, so that its iterations
/// never meet.
fn made(drawn: &mut Drawn) -> Vec<Made> {
    let a_loop = |drawn: &mut Drawn| {
        let first = 8 + drawn.below(30) as u32;
        let last = first + drawn.below(u64::from(52 - first)) as u32;
        let (stores, count) = (drawn.below(4) as u32, 1 + drawn.below(3) as u32);
        let offset = |drawn: &mut Drawn| drawn.below(9) as i64 - 4;
        let read = |drawn: &mut Drawn| ((stores + count + drawn.below(u64::from(4 - count)) as u32) % 4, offset(drawn));
        let reads = |drawn: &mut Drawn| (0..1 + drawn.below(3)).map(|_| read(drawn)).collect();
        let statements = (0..count).map(|at| (((stores + at) % 4, offset(drawn)), reads(drawn))).collect();
        Made { first, last, statements }
    };
    (0..2 + drawn.below(4)).map(|_| a_loop(drawn)).collect()
}

fn bytes(loops: &[Made]) -> Vec<u8> {
    let mut b = Builder::new();
    let arrays = [LENGTH as u32; 4].map(|length| b.array(length));
    for one in loops {
        for (at, ((array, offset), reads)) in one.statements.iter().enumerate() {
            match at {
                0 => b.open_loop(one.first, one.last, arrays[*array as usize], *offset as i32),
                _ => b.statement(arrays[*array as usize], *offset as i32),
            }
            for (at, read) in reads.iter().enumerate() {
                b.read(arrays[read.0 as usize], read.1 as i32);
                if at > 0 {
                    b.operation(Operation::Add);
                }
            }
        }
    }
    b.end().expect("a table")
}

/// The distances of the dependences from one loop to a later one: iteration i of the one meets iteration i + d of the other.
fn distances(earlier: &Made, later: &Made) -> Vec<i64> {
    let references = |one: &Made| {
        let of_statement = |(stored, reads): &(Referred, Vec<Referred>)| {
            let reads = reads.iter().map(|read| (read.0, read.1, false));
            reads.chain([(stored.0, stored.1, true)]).collect::<Vec<_>>()
        };
        one.statements.iter().flat_map(of_statement).collect::<Vec<_>>()
    };
    let mut found = Vec::new();
    for (array, offset, stores) in references(earlier) {
        for (other, behind, stored) in references(later) {
            let distance = offset - behind;
            let inside = |i: u32| (i64::from(later.first)..=i64::from(later.last)).contains(&(i64::from(i) + distance));
            if array == other && (stores || stored) && (earlier.first..=earlier.last).any(inside) {
                found.push(distance);
            }
        }
    }
    found
}

/// The lowest pair of loops with a dependence that is not met.
fn unmet(loops: &[Made], plan: &[(u32, u32)]) -> Option<(u64, u64)> {
    let meets = |j: usize, k: usize, distance: i64| {
        let (shift, peel) = (i64::from(plan[j].0) + (-distance).max(0), i64::from(plan[j].1) + distance.max(0));
        i64::from(plan[k].0) >= shift && i64::from(plan[k].1) >= peel
    };
    let all = (0..loops.len()).flat_map(|j| (j + 1..loops.len()).map(move |k| (j, k)));
    let mut bad = all.filter(|&(j, k)| distances(&loops[j], &loops[k]).iter().any(|&distance| !meets(j, k, distance)));
    bad.next().map(|(j, k)| (j as u64, k as u64))
}

/// Any plan that meets every dependence: the least one, and now and then something more, which later loops then follow.
fn a_plan(loops: &[Made], drawn: &mut Drawn) -> Pairs {
    let mut plan: Pairs = Vec::new();
    for k in 0..loops.len() {
        let mut own = (0, 0);
        for j in 0..k {
            for distance in distances(&loops[j], &loops[k]) {
                own.0 = own.0.max(plan[j].0 + (-distance).max(0) as u32);
                own.1 = own.1.max(plan[j].1 + distance.max(0) as u32);
            }
        }
        let mut more = || drawn.below(6).saturating_sub(3) as u32;
        plan.push((own.0 + more(), own.1 + more()));
    }
    plan
}

/// First and last index of each block, where every block has the threshold's indices; lines are dealt out one by one.
fn dealt(loops: &[Made], settings: Settings, threshold: u32) -> Option<Vec<(i64, i64)>> {
    let first = loops.iter().map(|one| one.first).min().expect("a loop");
    let last = loops.iter().map(|one| one.last).max().expect("a loop");
    let lines: Vec<u32> = (first..=last).step_by(settings.line as usize).collect();
    let mut counts = vec![0; settings.processors as usize];
    (0..lines.len()).for_each(|at| counts[at % settings.processors as usize] += 1);
    let mut starts = lines.into_iter();
    let starts: Option<Vec<u32>> = counts.iter().map(|&count| starts.by_ref().take(count).reduce(|first, _| first)).collect();
    let starts = starts?;
    let ends = starts[1..].iter().map(|start| start - 1).chain([last]);
    let blocks: Vec<(u32, u32)> = starts.iter().copied().zip(ends).collect();
    let short = |block: &(u32, u32)| block.1 - block.0 + 1 < threshold;
    let wide = |(first, last): (u32, u32)| (i64::from(first), i64::from(last));
    (blocks.len() == 1 || !blocks.iter().any(short)).then(|| blocks.into_iter().map(wide).collect())
}

/// What block b has of a loop, fused and peeled, by the plan's shift and peel.
fn parts(one: &Made, (shift, peel): (u32, u32), blocks: &[(i64, i64)], b: usize) -> [Range<u32>; 2] {
    let (first, last) = (i64::from(one.first), i64::from(one.last));
    let from = if b == 0 { first } else { blocks[b].0 + i64::from(peel) };
    let to = if b + 1 == blocks.len() { last } else { blocks[b].1 - i64::from(shift) };
    let behind = if b + 1 == blocks.len() { (1, 0) } else { (to + 1, blocks[b].1 + i64::from(peel)) };
    [(from, to), behind].map(|(from, to)| {
        let (from, to) = (from.max(first), to.min(last));
        if from > to {
            0..0
        } else {
            from as u32..to as u32 + 1
        }
    })
}

fn bits(memory: &[f64]) -> Vec<u64> {
    memory.iter().map(|number| number.to_bits()).collect()
}

fn run_agrees(table: &[u8], settings: Settings, drawn: &mut Drawn) {
    let start: Vec<f64> = (0..4 * LENGTH).map(|at| (at * at) as f64 / 7.0 + drawn.below(1_000) as f64).collect();
    let order: Vec<u8> = (0..150).map(|_| drawn.below(u64::from(settings.processors) + 1) as u8).collect();
    let (mut plain, mut run_memory) = (start.clone(), start);
    plain_run(table, &mut plain).expect("accepted");
    run(table, settings, &order, &mut run_memory).expect("accepted");
    assert_eq!(bits(&run_memory), bits(&plain), "{settings:?}");
}

/// An accepted plan gives the lists by its own numbers, and a run in any order ends as the plain run.
fn agrees(loops: &[Made], table: &[u8], plan: &[(u32, u32)], settings: Settings, drawn: &mut Drawn) -> u64 {
    let highest = plan.iter().map(|one| one.0 + one.1).max().expect("a loop");
    let Some(blocks) = dealt(loops, settings, highest) else {
        assert_eq!(checked(table, settings), Err((11, 0, 0)), "{settings:?}");
        return 11;
    };
    assert_eq!(checked(table, settings), Ok(highest), "{settings:?}");
    for b in 0..settings.processors {
        let (fused, peeled): (Vec<_>, Vec<_>) =
            loops.iter().zip(plan).map(|(one, own)| <(_, _)>::from(parts(one, *own, &blocks, b as usize))).unzip();
        assert_eq!(fused_ranges(table, settings, b), Ok(fused.clone()), "{settings:?}");
        assert_eq!(peeled_ranges(table, settings, b), Ok(peeled), "{settings:?}");
        let mut order: Vec<(u32, u32, u32)> = Vec::new();
        for (k, range) in (0..).zip(fused) {
            order.extend(range.map(|index| (index + plan[k as usize].0, k, index)));
        }
        order.sort_unstable();
        let list = fused_list(table, settings, b).expect("accepted");
        let list: Vec<(u32, u32)> = list.iter().map(|one| (one.loop_number, one.index)).collect();
        assert_eq!(list, order.iter().map(|one| (one.1, one.2)).collect::<Vec<_>>(), "{settings:?}");
    }
    run_agrees(table, settings, drawn);
    0
}

#[test]
fn made_plans_have_the_answers_that_their_loops_say() {
    let mut drawn = Drawn(8);
    let (mut accepted, mut short, mut not_met) = (0, 0, 0);
    for _ in 0..1_500 {
        let loops = made(&mut drawn);
        let table = bytes(&loops);
        let mut plan = a_plan(&loops, &mut drawn);
        let settings = Settings::new(1 + drawn.below(6) as u32).line([1, 1, 2, 3, 8][drawn.below(5) as usize]);
        assert_eq!(unmet(&loops, &plan), None);
        match agrees(&loops, &table, &plan, settings.amounts(plan.iter().copied()), &mut drawn) {
            0 => accepted += 1,
            _ => short += 1,
        }
        // One number is made lower or higher: it may be one below what its dependences need, or what the later loops can follow.
        let at = drawn.below(loops.len() as u64) as usize;
        let number = if drawn.below(2) == 0 { &mut plan[at].0 } else { &mut plan[at].1 };
        *number = (*number + drawn.below(5) as u32).saturating_sub(2);
        let settings = settings.amounts(plan.iter().copied());
        if let Some((earlier, later)) = unmet(&loops, &plan) {
            assert_eq!(checked(&table, settings), Err((20, earlier, later)), "{settings:?}");
            not_met += 1;
        } else {
            agrees(&loops, &table, &plan, settings, &mut drawn);
        }
    }
    assert!(accepted > 400 && short > 200 && not_met > 200, "{accepted} {short} {not_met}");
}

/// Sixteen loops, each reading at -1 and +1 what the one before stores, have a plan of 128 bytes. In it loop 5 is too low for loop 4 alone,
/// loop 9 for loop 8 alone.
#[test]
fn sixteen_loops_have_the_longest_plan() {
    let mut b = Builder::new();
    let arrays: Vec<_> = (0..16).map(|_| b.array(1_000)).collect();
    for k in 0..16 {
        b.open_loop(20, 900, arrays[k], 0);
        b.read(arrays[(k + 15) % 16], -1);
        b.read(arrays[(k + 15) % 16], 1);
        b.operation(Operation::Add);
    }
    let table = b.end().expect("a table");
    // Loop 0 reads what loop 15 stores: it comes before, so loop 15's amounts are those of the chain, and not less than 1.
    let chain: Pairs = (0..16).map(|k| (k, k)).collect();
    assert_eq!(checked(&table, Settings::new(4).amounts(chain.clone())), Ok(30));
    let mut lower = chain.clone();
    lower[5].0 = 4;
    assert_eq!(checked(&table, Settings::new(4).amounts(lower.clone())), Err((20, 4, 5)));
    lower[9].1 = 8;
    assert_eq!(checked(&table, Settings::new(4).amounts(lower.clone())), Err((20, 4, 5)));
    lower[5].0 = 5;
    assert_eq!(checked(&table, Settings::new(4).amounts(lower)), Err((20, 8, 9)));
    for count in [15, 17] {
        let other = (0..count).map(|k| (k, k));
        assert_eq!(checked(&table, Settings::new(4).amounts(other)), Err((19, 0, 0)));
    }
    let mut highest = chain;
    highest[15] = (10_000, 10_000);
    assert_eq!(checked(&table, Settings::new(1).amounts(highest.clone())), Ok(20_000));
    assert_eq!(checked(&table, Settings::new(2).amounts(highest)), Err((11, 0, 0)));
}

/// Without a plan by hand loop 0 is never peeled. Here every loop has a fused part in each of 64 blocks and a peeled one in each but the last, and all
/// indices have five digits.
#[test]
fn the_longest_listings_fit() {
    let mut b = Builder::new();
    let [a0, a1] = [65_536, 65_536].map(|length| b.array(length));
    for _ in 0..16 {
        b.open_loop(10_000, 65_535, a0, 0);
        b.read(a1, 0);
    }
    let table = b.end().expect("a table");
    let text = listing(&table, Settings::new(64).amounts([(100, 100); 16])).expect("it fits");
    // Lines of loops, blocks, fused and peeled parts, and the sweeps. A line has its words, a blank before each number, and a line feed.
    let digits = |count: u32| (0..count).map(|number| number.to_string().len()).sum::<usize>();
    let loops = digits(16) + 16 * "loop  100 100\n".len();
    let blocks = digits(64) + 64 * "block  10000 10000\n".len();
    let fused = 16 * digits(64) + 64 * digits(16) + 1_024 * "fused   10000 10000\n".len();
    let peeled = 16 * digits(63) + 63 * digits(16) + 1_008 * "peeled   10000 10000\n".len();
    // Each loop touches both arrays and stores one.
    let sweeps = "sweeps 48 3\n".len();
    assert_eq!(text.len(), loops + blocks + fused + peeled + sweeps);
    assert!(text.len() > 48_400 && text.len() <= LISTING_BYTES, "{}", text.len());
}

/// With shift 3 and peel 2 of loop 1 and two processors, the first has 1 to 5 of loop 0 and 1 to 2 of loop 1, and 3 to 7 of loop 1 past the
/// barrier; the other has 6 to 10 and 8 to 10, which are eight iterations.
#[test]
fn a_step_goes_by_the_plan() {
    let settings = Settings::new(2).amounts([(0, 0), (3, 2)]);
    let (mut state, mut memory) = (State::new(), vec![1.25; 36]);
    let mut performed = Vec::new();
    for processor in [1, 0, 0, 1] {
        while let Report::Iteration { loop_number, index, .. } =
            step(EXAMPLE, settings, processor, &mut state, &mut memory).expect("accepted")
        {
            performed.push((processor, loop_number, index));
        }
    }
    let second = [(0, 6), (0, 7), (0, 8), (0, 9), (0, 10), (1, 8), (1, 9), (1, 10)].map(|(k, i)| (1, k, i));
    let first = [(0, 1), (0, 2), (0, 3), (0, 4), (1, 1), (0, 5), (1, 2)].map(|(k, i)| (0, k, i));
    let peeled = [3, 4, 5, 6, 7].map(|i| (0, 1, i));
    assert_eq!(performed, [&second[..], &first[..], &peeled[..]].concat());
    let mut plain = vec![1.25; 36];
    plain_run(EXAMPLE, &mut plain).expect("accepted");
    assert_eq!(bits(&memory), bits(&plain));
    // The own plan has nine fused iterations there: counts of the one are none of the other.
    let mut counts = State::new();
    counts.counts[1] = 9;
    let refusal = step(EXAMPLE, settings, 1, &mut counts, &mut memory).expect_err("refused");
    assert_eq!(refusal.ground, Ground::State);
    assert_eq!(run(EXAMPLE, settings, &[1; 12], &mut plain), Ok(4));
}
