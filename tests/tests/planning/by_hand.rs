//! Plans by hand: what is typed, every small plan beside the iterations that
//! meet, the own numbers given back, and many plans that are met, just missed
//! or no plan, with a count of those by which each wrong way would be seen.

use crate::entries::{check_plan, every_entry, listing, needed, of_plan, with_room};
use vempaldi_checks::by_hand::{in_force, typed as bytes_of, written, MOST_AMOUNT};
use vempaldi_checks::by_iterations::{least_unmet, needs};
use vempaldi_checks::collisions;
use vempaldi_checks::damage;
use vempaldi_checks::encoder::encode;
use vempaldi_checks::examples::{crossed, ByHand, CROSSED_BY_HAND, EXAMPLE, EXAMPLE_BY_HAND};
use vempaldi_checks::examples::{EXAMPLE_BY_HAND_LISTING, EXAMPLE_LISTING};
use vempaldi_checks::large;
use vempaldi_checks::library_planning as library;
use vempaldi_checks::line_lengths;
use vempaldi_checks::lined;
use vempaldi_checks::meeting;
use vempaldi_checks::misplanned::{Asked, Misplanned};
use vempaldi_checks::outcome::{hex, Answer, ACCEPTED};
use vempaldi_checks::planner::{threshold, Amounts};
use vempaldi_checks::plans_by_hand;
use vempaldi_checks::processors;
use vempaldi_checks::random::Random;
use vempaldi_checks::settings::{Settings, PLAN_BYTES};
use vempaldi_checks::table::{Item, Loop, Operation, Reference, Table, MOST_LOOPS};
use vempaldi_checks::tables::{self, Shape, LARGE, MIDDLE, SMALL};
use vempaldi_checks::tally::Tally;

const MADE: u64 = 80_000;
const SMALL_TABLES: u64 = 400;
const GIVEN_BACK: u64 = 20_000;
const LONG: u64 = 4_000;
const LONGEST: usize = 49_780;
const HEADER: &str = include_str!("../../../include/vempaldi.h");
/// Of so many long tables one is asked for its lists.
const LISTS: u64 = 200;
const LEAST_OF_EACH: u64 = 300;
/// Of so many made plans one goes to every entry with every room, the others
/// to the check and to one entry.
const EVERY: u64 = 20;
/// Of so many, one table is damaged too.
const DAMAGED: u64 = 8;
/// Enough for the lists and listings of the tables that are given back.
const ROOM: usize = 65_536;
/// Chains over few arrays, so that most loops depend on several others.
const CHAINED: Shape = Shape { arrays: 2, loops: 8, items: 6, length: 90, offset: 3, ..SMALL };

pub fn compare_all() {
    let mut tally = Tally::new();
    typed(&mut tally, &EXAMPLE, &EXAMPLE_BY_HAND);
    typed(&mut tally, &crossed(), &CROSSED_BY_HAND);
    typed_listings();
    made(&mut tally);
    tally.print("entries of plans by hand");
    tally.require(&[0, 1, 2, 3, 5, 6, 7, 8, 9, 10, 11, 13, 17, 19, 20], LEAST_OF_EACH);
    long();
    longest_listing();
    small();
    given_back();
}

fn typed(tally: &mut Tally, table: &[u8], typed: &[ByHand]) {
    for &(plan, processors, wanted) in typed {
        let settings = Settings::of(processors).with_plan(&bytes_of(plan));
        compare(table, settings, wanted, "what is typed");
        every_entry(tally, table, settings, processors / 2);
        // Bytes behind a plan, and a plan that is not by hand.
        let mut filled = settings;
        let from = (settings.plan_length as usize).min(PLAN_BYTES);
        filled.plan[from..].fill(0xFF);
        compare(table, filled, wanted, "what is typed");
        let none = Settings { by_hand: 0, ..filled };
        assert_eq!(library::check_plan(table, none), library::check_plan(table, settings.own()));
    }
}

/// The example's listing by hand, without a plan, and by hand with what would
/// be found.
fn typed_listings() {
    let own = bytes_of(&[(0, 0), (1, 1)]);
    let other = bytes_of(&[(0, 0), (2, 3)]);
    let two = Settings::of(2);
    for (settings, wanted) in [
        (two, EXAMPLE_LISTING),
        (two.with_plan(&own), EXAMPLE_LISTING),
        (two.with_plan(&other), EXAMPLE_BY_HAND_LISTING),
    ] {
        let mut out = [0; 256];
        let (_, written) = library::listing(&EXAMPLE, settings, &mut out);
        let found = String::from_utf8_lossy(&out[..written as usize]);
        assert_eq!(found, wanted, "a typed listing for {settings:?}");
    }
}

/// High numbers for several processors, which need long blocks: most calls are
/// those whose output is short.
fn long() {
    let mut random = Random::new(83);
    let mut tally = Tally::new();
    let tables = [large::last_indices(2), large::last_indices(5), large::chained()];
    let mut highest = 0;
    for number in 0..LONG {
        let table = &tables[random.below(tables.len())];
        let (bytes, line) = (encode(table), line_lengths::good(&mut random));
        let mut settings = plans_by_hand::high(&mut random, table, Settings::new(1, line));
        let plan = in_force(table, &settings).expect("accepted");
        let most = processors::most_with(table, line, threshold(&plan));
        let fewer = random.between(1, most.into()) as u32;
        settings.processors = random.pick(&[most, most, most + 1, fewer]);
        let processor = random.below(settings.processors as usize) as u32;
        check_plan(&mut tally, &bytes, settings);
        for entry in of_plan(&bytes, settings, processor) {
            if number % LISTS == 0 || !entry.is_list() {
                with_room(&mut tally, &bytes, &entry, needed(&entry));
            }
        }
        let tall = plan.iter().any(|one| one.shift.max(one.peel) == MOST_AMOUNT);
        highest += u64::from(tall && (2..=most).contains(&settings.processors));
    }
    tally.print("high numbers by hand in long tables");
    println!("  {highest} accepted plans for two processors and more have a number of 10,000");
    tally.require(&[0, 11], LEAST_OF_EACH);
    assert!(highest >= LEAST_OF_EACH, "too few plans with the highest number");
}

/// The longest listing that there is: sixteen loops in 64 blocks, every index
/// of five digits, every shift and peel of three, sweeps of three and two, and
/// a fused and a peeled range wherever there can be one. By their own numbers
/// loop 0 is never peeled, so that theirs are shorter.
fn longest_listing() {
    let (first, last) = (10_000, 37_000);
    let at = |array| Reference { array, offset: 0 };
    let a_loop = |own: u8| {
        let mut items = vec![Item::Constant(1)];
        for array in (0..7).filter(|&array| array != own % 7) {
            items.extend([Item::Read(at(array)), Item::Operation(Operation::Add)]);
        }
        Loop::of_one(first, last, at(own % 7), items)
    };
    let table = Table { arrays: vec![last + 1; 7], loops: (0..16).map(a_loop).collect() };
    let settings = Settings::of(64).with_plan(&bytes_of(&[(200, 200); 16]));
    let (bytes, mut tally) = (encode(&table), Tally::new());
    let entry = listing(&bytes, settings);
    assert_eq!(needed(&entry), LONGEST, "the longest listing");
    for room in [LONGEST, LONGEST - 1, LONGEST + 1] {
        with_room(&mut tally, &bytes, &entry, room);
    }
    println!("the longest listing by hand: {LONGEST} bytes");
    let said = listing_bytes();
    assert!(said >= LONGEST, "the header says that no listing has more than {said} bytes");
}

/// What the header says is always enough for a listing.
fn listing_bytes() -> usize {
    let (_, behind) = HEADER.split_once("VEMPALDI_LISTING_BYTES = ").expect("the header has it");
    let digits = behind.chars().take_while(char::is_ascii_digit);
    digits.collect::<String>().parse().expect("a number")
}

/// Every plan of small numbers for small tables, beside what the iterations
/// that meet ask for.
fn small() {
    let mut random = Random::new(80);
    let (mut calls, mut accepted) = (0, 0);
    for number in 0..SMALL_TABLES {
        let table = small_table(&mut random, number);
        let (bytes, needs) = (encode(&table), needs(&table));
        for plan in every_plan(table.loops.len()) {
            let wanted = match least_unmet(&needs, &plan) {
                Some((earlier, later)) => Err([20, earlier as u64, later as u64, 0]),
                None => Ok(threshold(&plan) as u64),
            };
            let settings = Settings::of(1).with_plan(&written(&plan));
            compare(&bytes, settings, wanted, "the iterations that meet");
            calls += 1;
            accepted += u64::from(wanted.is_ok());
        }
    }
    println!("every small plan: {calls} calls, {accepted} accepted, as by iterations that meet");
    assert!(accepted > 20_000 && calls - accepted > 20_000, "too few of one kind");
}

/// At most three loops that often depend on each other by little.
fn small_table(random: &mut Random, number: u64) -> Table {
    let near = Shape { arrays: 2, offset: 1, length: 12, ..SMALL };
    loop {
        let table = match number % 3 {
            0 => meeting::short_table(random),
            1 => tables::aligned(random, &SMALL),
            _ => tables::aligned(random, &near),
        };
        if (2..=3).contains(&table.loops.len()) && !needs(&table).is_empty() {
            return table;
        }
    }
}

/// All numbers up to 2, for two loops up to 4.
fn every_plan(loops: usize) -> impl Iterator<Item = Vec<Amounts>> {
    let base = if loops == 2 { 5usize } else { 3 };
    let digit = move |plan: usize, at: u32| (plan / base.pow(at) % base) as i64;
    (0..base.pow(2 * loops as u32)).map(move |plan| {
        let one = |k| Amounts { shift: digit(plan, 2 * k), peel: digit(plan, 2 * k + 1) };
        (0..loops as u32).map(one).collect()
    })
}

/// The numbers that the library tells, given back by hand: every call does
/// what it does without them.
fn given_back() {
    let mut random = Random::new(81);
    let (mut calls, mut accepted) = (0, 0);
    for _ in 0..GIVEN_BACK {
        let shape = random.pick(&[SMALL, SMALL, CHAINED, MIDDLE]);
        let table = tables::aligned(&mut random, &shape);
        let bytes = encode(&table);
        let line = line_lengths::any(&mut random);
        let most = processors::most(&table, line.clamp(1, 64));
        let fewer = random.between(1, most.into()) as u32;
        let settings = Settings::new(random.pick(&[fewer, fewer, most, most + 1]), line);
        let processor = random.below(settings.processors as usize + 1) as u32;
        let mut plan = [0; PLAN_BYTES];
        let (_, length) = library::shifts_and_peels(&bytes, &mut plan);
        let by_hand = settings.with_plan(&plan[..length as usize]);
        accepted += u64::from(library::check_plan(&bytes, settings).0 == ACCEPTED);
        let (wanted, found) =
            (all_of(&bytes, settings, processor), all_of(&bytes, by_hand, processor));
        calls += found.len();
        if found != wanted {
            eprintln!("own numbers by hand: the library and the library without them disagree");
            eprintln!("  table    {}, {by_hand:?}, processor {processor}", hex(&bytes));
            std::process::exit(1);
        }
    }
    println!("own numbers given back: {calls} calls as without them, {accepted} plans accepted");
    assert!((GIVEN_BACK / 3..GIVEN_BACK).contains(&accepted), "too few of one kind");
}

/// What a call comes to: its answer, its result and the bytes that it wrote.
type Came = (Answer, u64, Vec<u8>);

/// Every call that plans, with room enough.
fn all_of(table: &[u8], settings: Settings, processor: u32) -> Vec<Came> {
    type Call<'a> = &'a dyn Fn(&mut [u8]) -> (Answer, u64);
    let calls: [Call; 6] = [
        &|out| library::blocks(table, settings, out),
        &|out| library::listing(table, settings, out),
        &|out| library::fused_list(table, settings, processor, out),
        &|out| library::peeled_list(table, settings, processor, out),
        &|out| library::fused_ranges(table, settings, processor, out),
        &|out| library::peeled_ranges(table, settings, processor, out),
    ];
    let mut out = vec![0xA5; ROOM];
    let mut came = |call: &Call| {
        let (answer, written) = call(&mut out);
        assert!(answer[0] != 13, "too little room");
        (answer, written, out[..written as usize].to_vec())
    };
    let (answer, threshold) = library::check_plan(table, settings);
    let mut all = vec![(answer, threshold, Vec::new())];
    all.extend(calls.iter().map(&mut came));
    all
}

fn made(tally: &mut Tally) {
    let mut random = Random::new(82);
    let mut misplanned = Misplanned::new();
    for number in 0..MADE {
        let table = a_table(&mut random);
        let (bytes, settings) = (encode(&table), any_settings(&mut random, &table));
        let processor = random.below(settings.processors.clamp(1, 64) as usize + 1) as u32;
        check_plan(tally, &bytes, settings);
        misplanned.add(&Asked::new(&table, settings, None));
        misplanned.add(&Asked::new(&table, settings, Some(processor)));
        if number % EVERY == 0 {
            every_entry(tally, &bytes, settings, processor);
        } else {
            one_entry(tally, &mut random, &bytes, settings, processor);
        }
        if number % DAMAGED == 0 {
            let broken = damaged(&mut random, &bytes);
            check_plan(tally, &broken, settings);
            one_entry(tally, &mut random, &broken, settings, processor);
        }
    }
    misplanned.print("which plans by hand");
    misplanned.require(LEAST_OF_EACH);
}

/// Mostly small, seldom of sixteen loops or with far references.
fn a_table(random: &mut Random) -> Table {
    match random.below(32) {
        0..=9 => tables::aligned(random, &CHAINED),
        10..=14 => tables::aligned(random, &SMALL),
        15..=22 => meeting::short_table(random),
        23..=26 => lined::made(random, 9).table,
        27 | 28 => {
            let arrays = [120; 4];
            tables::loops_over(
                random,
                &Shape { length: 120, items: 5, ..SMALL },
                &arrays,
                MOST_LOOPS,
            )
        }
        29 => tables::any(random, &MIDDLE),
        30 => tables::aligned(random, &Shape { loops: 16, items: 6, length: 300, ..MIDDLE }),
        _ => tables::aligned(random, &Shape { offset: 9, length: 900, items: 8, ..LARGE }),
    }
}

/// A plan by hand, and numbers of processors around the largest that it
/// leaves.
fn any_settings(random: &mut Random, table: &Table) -> Settings {
    let line = if random.chance(1, 2) { 1 } else { line_lengths::any(random) };
    let mut settings = plans_by_hand::any(random, table, Settings::new(1, line));
    let least = in_force(table, &settings).map_or(0, |plan| threshold(&plan));
    let most = processors::most_with(table, line.clamp(1, 64), least);
    let fewer = random.between(1, most.into()) as u32;
    settings.processors = match random.below(10) {
        0 | 1 => 1,
        2 | 3 => most,
        4 => most + 1,
        5 => processors::any(random),
        _ => fewer,
    };
    settings
}

fn damaged(random: &mut Random, bytes: &[u8]) -> Vec<u8> {
    match random.below(6) {
        0 => damage::field(random, bytes),
        1 | 2 => damage::change_byte(random, bytes),
        3 => damage::crowd(random, bytes),
        4 => encode(&collisions::table(random)),
        _ => bytes[..random.below(bytes.len())].to_vec(),
    }
}

/// With just enough room, or with one byte less.
fn one_entry(
    tally: &mut Tally,
    random: &mut Random,
    table: &[u8],
    settings: Settings,
    processor: u32,
) {
    let all = of_plan(table, settings, processor);
    let entry = &all[random.below(all.len())];
    let room = needed(entry);
    let less = random.chance(1, 8);
    with_room(tally, table, entry, if less { room.saturating_sub(1) } else { room });
}

/// The library's check of a plan beside what another way finds.
fn compare(table: &[u8], settings: Settings, wanted: Result<u64, Answer>, way: &str) {
    let (answer, told) = library::check_plan(table, settings);
    let found = if answer == ACCEPTED { Ok(told) } else { Err(answer) };
    if found != wanted || (answer != ACCEPTED && told != 0) {
        eprintln!("check of a plan: the library and {way} disagree");
        eprintln!("  table    {}, {settings:?}", hex(table));
        eprintln!("  library  {answer:?}, threshold {told}");
        eprintln!("  expected {wanted:?}");
        std::process::exit(1);
    }
}
