//! What a refusal's words say holds of the table: over many damaged tables every number in them is compared with the bytes, read here by
//! code of its own, and a value that is said to be outside its range is outside it. The ranges are typed from the description of tables.

// Only its way to run the command is needed here.
#[allow(dead_code)]
mod common;
#[path = "common/lines.rs"]
mod lines;

use common::fed;
use std::collections::BTreeMap;
use vempaldi_checks::collisions;
use vempaldi_checks::damage;
use vempaldi_checks::encoder::encode;
use vempaldi_checks::limits;
use vempaldi_checks::random::Random;
use vempaldi_checks::tables::{self, Shape, LARGE, MIDDLE, SMALL};
use vempaldi_command::{dump, explain, explain_serial, make, Explanation, Names};

/// The kinds with their articles and how long their records are.
const KINDS: [(&str, usize); 8] = [
    ("", 0),
    ("an array", 5),
    ("a loop", 12),
    ("a read", 4),
    ("a constant", 5),
    ("an operation", 2),
    ("an end", 1),
    ("a statement", 4),
];
const OPERATIONS: [&str; 6] = ["", "'+'", "'-'", "'*'", "'/'", "'neg'"];

/// What the bytes before a place are.
#[derive(Default)]
struct Seen {
    arrays: Vec<i64>,
    loops: Vec<[i64; 2]>,
    /// Of the last loop.
    statements: usize,
    items: usize,
    references: Vec<Reference>,
    /// Of its last statement.
    own_items: usize,
    waiting: usize,
    ended: bool,
}

#[derive(Clone, Copy)]
struct Reference {
    array: i64,
    offset: i64,
    stores: bool,
}

impl Seen {
    /// Three bytes: an array's number and an offset.
    fn refers(&mut self, bytes: &[u8], stores: bool) {
        self.references.push(Reference { array: bytes[0].into(), offset: signed(&bytes[1..3]), stores });
    }

    fn begins_statement(&mut self, bytes: &[u8]) {
        self.statements += 1;
        (self.own_items, self.waiting) = (0, 0);
        self.refers(bytes, true);
    }

    fn adds_item(&mut self, row: &[u8]) {
        (self.items, self.own_items) = (self.items + 1, self.own_items + 1);
        match (row[0], row[1]) {
            (5, 5) => {}
            (5, _) => self.waiting -= 1,
            _ => self.waiting += 1,
        }
        if row[0] == 3 {
            self.refers(&row[1..4], false);
        }
    }
}

fn unsigned(bytes: &[u8]) -> i64 {
    bytes.iter().rev().fold(0, |sum, byte| 256 * sum + i64::from(*byte))
}

fn signed(bytes: &[u8]) -> i64 {
    let value = unsigned(bytes);
    if value >= 32_768 {
        value - 65_536
    } else {
        value
    }
}

fn seen(bytes: &[u8]) -> Seen {
    let mut all = Seen::default();
    for row in damage::records(bytes) {
        match row[0] {
            1 => all.arrays.push(unsigned(&row[1..5])),
            2 => {
                all.loops.push([unsigned(&row[1..5]), unsigned(&row[5..9])]);
                (all.statements, all.items, all.references) = (0, 0, Vec::new());
                all.begins_statement(&row[9..12]);
            }
            6 => all.ended = true,
            7 => all.begins_statement(&row[1..4]),
            _ => all.adds_item(&row),
        }
    }
    all
}

/// The whole numbers of a text, with their signs; a number in a name or before letters, as in 17th, counts too.
fn numbers(words: &str) -> Vec<i64> {
    let pieces = words.split(|one: char| !one.is_ascii_digit() && one != '-');
    pieces.filter_map(|piece| piece.parse().ok()).collect()
}

/// A text with each number made into #, by which the forms of words are told apart.
fn form(words: &str) -> String {
    let mut all = String::new();
    for one in words.chars() {
        match one {
            _ if one.is_ascii_digit() && all.ends_with('#') => {}
            _ if one.is_ascii_digit() => all.push('#'),
            _ => all.push(one),
        }
    }
    all.replace("-#", "#").replace("+#", "#").replace("[i#]", "[i]")
}

struct Case<'a> {
    bytes: &'a [u8],
    place: usize,
    words: &'a str,
    said: Vec<i64>,
}

impl Case<'_> {
    fn kind(&self) -> u8 {
        self.bytes[self.place]
    }

    fn before(&self) -> Seen {
        seen(&self.bytes[..self.place])
    }

    fn body(&self) -> &[u8] {
        &self.bytes[self.place + 1..]
    }

    fn torn(&self) -> bool {
        let (length, left) = (self.bytes.len() as i64, self.bytes.len() - self.place);
        match self.words {
            "the input is empty" => length == 0,
            words if words.starts_with("the input ends behind") => {
                self.said == [length] && self.place as i64 == length && !self.before().ended
            }
            words => {
                let (name, whole) = KINDS[usize::from(self.kind())];
                self.said == [whole as i64, left as i64] && left < whole && words.starts_with(&format!("{name} record has"))
            }
        }
    }

    fn out_of_order(&self) -> bool {
        let (kind, before) = (self.kind(), self.before());
        match self.words {
            "the end comes before any array" => kind == 6 && before.arrays.is_empty(),
            "the end comes before any loop" => kind == 6 && !before.arrays.is_empty() && before.loops.is_empty(),
            words if words.contains(" before any loop, items belong to a loop") => {
                (3..=5).contains(&kind) && before.loops.is_empty() && words.starts_with(KINDS[usize::from(kind)].0)
            }
            "a statement before any loop, it is a further one of a loop" => kind == 7 && before.loops.is_empty(),
            words if words.starts_with("an array behind loop") => kind == 1 && self.said[0] + 1 == before.loops.len() as i64,
            words => words.starts_with("kind ") && self.said == [kind.into(), 1, 7] && !(1..=7).contains(&kind),
        }
    }

    /// The value is the record's, it is outside the range, and the range is the one that the field has.
    fn field(&self) -> bool {
        let (body, kind) = (self.body(), self.kind());
        let value = |name: &str| match (name, kind) {
            ("length", 1) => Some((unsigned(&body[..4]), 1, 65_536)),
            ("first", 2) => Some((unsigned(&body[..4]), 0, 131_071)),
            ("last", 2) => Some((unsigned(&body[4..8]), 0, 131_071)),
            ("offset", 2) => Some((signed(&body[9..11]), -255, 255)),
            ("offset", 3 | 7) => Some((signed(&body[1..3]), -255, 255)),
            ("operation", 5) => Some((body[0].into(), 1, 5)),
            _ => None,
        };
        if self.words.contains(" is above last ") {
            return kind == 2 && self.said == [unsigned(&body[..4]), unsigned(&body[4..8])] && self.said[0] > self.said[1];
        }
        let name = self.words.split(' ').next().expect("a word");
        let (value, low, high) = value(name).expect("a field of this kind");
        self.said == [value, low, high] && !(low..=high).contains(&value)
    }

    fn crowd(&self) -> bool {
        let (kind, before) = (self.kind(), self.before());
        match self.words {
            "a 17th array, at most 16 are allowed" => kind == 1 && before.arrays.len() == 16,
            "a 17th loop, at most 16 are allowed" => kind == 2 && before.loops.len() == 16,
            words if words.starts_with("a 5th statement of loop ") => {
                kind == 7 && before.statements == 4 && self.said == [5, before.loops.len() as i64 - 1, 4]
            }
            words if words.starts_with("a 33rd item of loop ") => {
                let open = before.loops.len() as i64 - 1;
                (3..=5).contains(&kind) && before.items == 32 && self.said == [33, open, 32]
            }
            words => {
                let (length, sum) = (unsigned(&self.body()[..4]), before.arrays.iter().sum::<i64>());
                words.starts_with("length ") && self.said == [length, sum + length, 262_144] && sum + length > 262_144
            }
        }
    }

    fn array(&self) -> bool {
        let count = self.before().arrays.len() as i64;
        let number = i64::from(if self.kind() == 2 { self.body()[8] } else { self.body()[0] });
        let there = match count {
            0 => "there is no array yet".to_string(),
            1 => "there is array 0 alone".to_string(),
            _ => format!("there are arrays 0 to {}", count - 1),
        };
        [2, 3, 7].contains(&self.kind()) && number >= count && self.words == format!("array {number}, {there}")
    }

    fn body_words(&self) -> bool {
        let before = self.before();
        let (open, left) = (before.loops.len() - 1, before.waiting);
        let body = match before.statements {
            1 => format!("the body of loop {open}"),
            count => format!("the body of statement {} of loop {open}", count - 1),
        };
        match self.kind() {
            2 | 6 | 7 if before.own_items == 0 => self.words == format!("{body} is empty, one number must be left"),
            2 | 6 | 7 => left != 1 && self.words == format!("{body} leaves {left} numbers, one must be left"),
            3 | 4 => left == 8 && self.words == "a 9th waiting number, at most 8 may wait",
            _ => {
                let code = usize::from(self.body()[0]);
                let takes = if code == 5 { "1 waiting number" } else { "2 waiting numbers" };
                let there = ["none", "one"][left];
                left < if code == 5 { 1 } else { 2 }
                    && self.words == format!("{} takes {takes}, {there} is there", OPERATIONS[code])
            }
        }
    }

    fn edge(&self) -> bool {
        let (body, before) = (self.body(), self.before());
        let [first, last, array, offset] = match self.kind() {
            2 => [unsigned(&body[..4]), unsigned(&body[4..8]), body[8].into(), signed(&body[9..11])],
            _ => {
                let open = before.loops.last().expect("a loop");
                [open[0], open[1], body[0].into(), signed(&body[1..3])]
            }
        };
        let end = before.arrays[array as usize] - 1;
        let index = if offset == 0 { "i".to_string() } else { format!("i{offset:+}") };
        let span = |from: i64, to: i64| if from == to { from.to_string() } else { format!("{from} to {to}") };
        let (low, high) = (first + offset, last + offset);
        let many = if low == high { "element" } else { "elements" };
        let said = format!(
            "A{array}[{index}] reaches {many} {} for i = {}, A{array} has {}",
            span(low, high),
            span(first, last),
            span(0, end)
        );
        (low < 0 || high > end) && self.words == said
    }

    fn tail(&self) -> bool {
        let (end, count) = (self.place - 1, self.bytes.len() - self.place);
        let follow = if count == 1 { "1 byte follows it".to_string() } else { format!("{count} bytes follow it") };
        let least = if self.bytes.len() >= 2_364 { "at least " } else { "" };
        let whole = seen(&self.bytes[..self.place]);
        whole.ended && self.bytes[end] == 6 && self.words == format!("the end record is byte {end}, {least}{follow}")
    }

    /// Both iterations are the loop's, they are not the same, and the element is where the one reads or stores and the other stores.
    fn serial(&self, number: u64, pair: (usize, usize)) -> bool {
        let own = up_to_loop(self.bytes, number as usize);
        let [first, last] = own.loops[number as usize];
        let (lower, higher) = (own.references[pair.0], own.references[pair.1]);
        let (one, other) = if lower.stores { (higher, lower) } else { (lower, higher) };
        let [i, array, element, j] = self.said[..] else { return false };
        let inside = |index: i64| (first..=last).contains(&index);
        let met = inside(i) && inside(j) && i != j && i + one.offset == element && j + other.offset == element;
        let (does, too) = if one.stores { ("stores", " too") } else { ("reads", "") };
        let said = format!("iteration {i} {does} A{array}[{element}], which iteration {j} stores{too}");
        met && pair.0 < pair.1 && other.stores && [one.array, other.array] == [array; 2] && self.words == said
    }
}

/// What the bytes are up to the loop behind this one, so that the last loop there is this one.
fn up_to_loop(bytes: &[u8], number: usize) -> Seen {
    let rows = damage::records(bytes);
    let next = (0..rows.len()).filter(|&at| rows[at][0] == 2).nth(number + 1);
    seen(&rows[..next.unwrap_or(rows.len())].concat())
}

fn explained(bytes: &[u8], names: &Names, refusal: &vempaldi::Refusal) -> Option<Explanation> {
    match refusal.references() {
        Some(pair) => explain_serial(bytes, names, refusal.place, pair),
        None => explain(bytes, names, refusal),
    }
}

/// The words of a refusal hold, and which form they have, and whether a token of a text was compared; nothing for an accepted table.
fn holds(bytes: &[u8]) -> Option<((u64, String), bool)> {
    let refusal = vempaldi::check(bytes).err()?;
    let found = explained(bytes, &Names::default(), &refusal);
    let Explanation { words, .. } = found.unwrap_or_else(|| panic!("no words for {refusal}: {bytes:?}"));
    let case = Case { bytes, place: refusal.place as usize, words: &words, said: numbers(&words) };
    let number = refusal.ground.number();
    let true_words = match number {
        1 => case.torn(),
        2 => case.out_of_order(),
        3 => case.field(),
        4 => case.crowd(),
        5 => case.array(),
        6 => case.body_words(),
        7 => case.edge(),
        8 => case.tail(),
        9 => case.serial(refusal.place, refusal.references().expect("a pair")),
        _ => false,
    };
    assert!(true_words, "{refusal}: '{words}' is not so: {bytes:?}");
    Some(((number, form(&words)), in_text(bytes, &refusal, &words)))
}

/// Where the table has a text, the token that is named there is the one that the words are about. Whether there was one to compare.
fn in_text(bytes: &[u8], refusal: &vempaldi::Refusal, words: &str) -> bool {
    let names = Names::default();
    let text = dump(bytes, &names);
    let Some(made) = make(&text).ok().filter(|made| made.bytes == bytes) else { return false };
    let Explanation { record, field, .. } = explained(bytes, &made.names, refusal).expect("words");
    let told = made.place(record, field);
    let line: Vec<char> = text.lines().nth(told.line - 1).unwrap_or("").chars().collect();
    let there: String = line[told.column - 1..].iter().take(told.token.chars().count()).collect();
    assert_eq!(there, told.token, "{text}");
    let said = words.split([' ', ',']).collect::<Vec<_>>();
    let wanted = match (refusal.ground.number(), said[0]) {
        (4, "a") if words.contains("array") => "array".to_string(),
        (4, "a") if words.contains("17th loop") => "loop".to_string(),
        (4, "a") if words.contains("statement") => "->".to_string(),
        (3, "length" | "first" | "last") | (4, "length") => said[1].to_string(),
        (3, "offset") => format!("{:+}", said[1].parse::<i64>().expect("an offset")),
        (6, sign) if sign.starts_with('\'') => sign.trim_matches('\'').to_string(),
        (7, reference) => reference.to_string(),
        (9, _) => {
            let (_, higher) = refusal.references().expect("a pair");
            let Reference { array, offset, .. } = up_to_loop(bytes, refusal.place as usize).references[higher];
            format!("A{array}[i{}]", if offset == 0 { String::new() } else { format!("{offset:+}") })
        }
        _ => return false,
    };
    assert_eq!(told.token, wanted, "{words}\n{text}");
    true
}

/// How many tables met each ground in each form, and with how many of each ground a token was compared.
#[derive(Default)]
struct Tally {
    forms: BTreeMap<(u64, String), usize>,
    tokens: BTreeMap<u64, usize>,
}

impl Tally {
    fn add(&mut self, bytes: &[u8]) {
        if let Some((key, compared)) = holds(bytes) {
            *self.tokens.entry(key.0).or_default() += usize::from(compared);
            *self.forms.entry(key).or_default() += 1;
        }
    }

    fn damaged(&mut self, random: &mut Random, shape: &Shape) {
        let good = encode(&tables::any(random, shape));
        let other = encode(&tables::any(random, shape));
        for bytes in [
            damage::change_byte(random, &good),
            damage::insert_byte(random, &good),
            damage::remove_byte(random, &good),
            damage::splice(random, &good, &other),
            damage::splice_records(random, &good, &other),
            damage::rearrange(random, &good),
            damage::crowd(random, &good),
            damage::statement(random, &good),
            damage::field(random, &good),
            damage::mostly_kinds(random, 40),
            good[..random.below(good.len())].to_vec(),
        ] {
            self.add(&bytes);
        }
    }
}

/// Every form of words, by ground, with numbers as #.
const FORMS: [(u64, &str); 43] = [
    (1, "the input is empty"),
    (1, "the input ends behind # bytes, with no end record"),
    (1, "an array record has # bytes, the input ends behind # of them"),
    (1, "a loop record has # bytes, the input ends behind # of them"),
    (1, "a read record has # bytes, the input ends behind # of them"),
    (1, "a constant record has # bytes, the input ends behind # of them"),
    (1, "an operation record has # bytes, the input ends behind # of them"),
    (1, "a statement record has # bytes, the input ends behind # of them"),
    (2, "kind #, allowed are # to #"),
    (2, "an array behind loop #, arrays come before all loops"),
    (2, "a read before any loop, items belong to a loop"),
    (2, "a constant before any loop, items belong to a loop"),
    (2, "an operation before any loop, items belong to a loop"),
    (2, "a statement before any loop, it is a further one of a loop"),
    (2, "the end comes before any array"),
    (2, "the end comes before any loop"),
    (3, "length #, allowed are # to #"),
    (3, "first #, allowed are # to #"),
    (3, "last #, allowed are # to #"),
    (3, "first # is above last #"),
    (3, "offset #, allowed are # to #"),
    (3, "operation #, allowed are # to #"),
    (4, "a #th array, at most # are allowed"),
    (4, "a #th loop, at most # are allowed"),
    (4, "a #th statement of loop #, at most # are allowed"),
    (4, "a #rd item of loop #, at most # are allowed"),
    (4, "length # makes # elements in all, at most # are allowed"),
    (5, "array #, there is no array yet"),
    (5, "array #, there is array # alone"),
    (5, "array #, there are arrays # to #"),
    (6, "the body of loop # is empty, one number must be left"),
    (6, "the body of loop # leaves # numbers, one must be left"),
    (6, "the body of statement # of loop # is empty, one number must be left"),
    (6, "the body of statement # of loop # leaves # numbers, one must be left"),
    (6, "a #th waiting number, at most # may wait"),
    (6, "'+' takes # waiting numbers, one is there"),
    (6, "'neg' takes # waiting number, none is there"),
    (7, "A#[i] reaches elements # to # for i = # to #, A# has # to #"),
    (7, "A#[i] reaches element # for i = #, A# has # to #"),
    (8, "the end record is byte #, # byte follows it"),
    (8, "the end record is byte #, # bytes follow it"),
    (9, "iteration # reads A#[#], which iteration # stores"),
    (9, "iteration # stores A#[#], which iteration # stores too"),
];

#[test]
fn words_hold_of_the_table_and_every_ground_has_its_own() {
    let mut tally = Tally::default();
    for case in limits::cases() {
        for length in 0..=case.bytes.len() {
            tally.add(&case.bytes[..length]);
        }
    }
    let mut random = Random::new(51);
    for (shape, rounds) in [(SMALL, 3_000), (MIDDLE, 400), (LARGE, 100)] {
        for _ in 0..rounds {
            tally.damaged(&mut random, &shape);
        }
    }
    for _ in 0..2_000 {
        tally.add(&encode(&collisions::short_table(&mut random)));
    }
    for (number, words) in FORMS {
        let count = tally.forms.get(&(number, words.to_string())).copied().unwrap_or(0);
        assert!(count >= 3, "{count} tables have the words '{words}' for {number}: {:#?}", tally.forms);
    }
    for number in [3, 4, 6, 7, 9] {
        assert!(tally.tokens[&number] >= 10, "{:?}", tally.tokens);
    }
}

/// A file is read no further than what decides, so a count of bytes behind that is a least one.
#[test]
fn a_long_tail_is_counted_as_far_as_it_is_read() {
    let good = limits::cases().into_iter().find(|case| case.answer[0] == 0).expect("an accepted table").bytes;
    for more in [1, 2, 2_000, 4_000] {
        holds(&[&good[..], &vec![0; more]].concat());
    }
}

/// What `plan` or `run` says behind the file's name, which is one line.
fn told(words: &[&str], table: &[u8]) -> String {
    let told = fed(words, table);
    assert_eq!((told.status, told.out.as_str(), told.err.lines().count()), (1, "", 1), "{}", told.err);
    told.err.strip_prefix("-: refused ").expect("a refusal").trim_end().to_string()
}

/// 10, 11 and 12, whose numbers are those of the call. The most processors are found with the second planner's threshold.
#[test]
fn words_about_a_call_hold_too() {
    let mut random = Random::new(52);
    let (mut few, mut short) = (0, 0);
    for round in 0..60 {
        let table = tables::any(&mut random, &[SMALL, SMALL, MIDDLE][round % 3]);
        let (bytes, most, indices) = (encode(&table), lines::most(&table, 1), lines::indices(&table));
        for count in [0, 65, u32::MAX] {
            let said = told(&["plan", "-", "-p", &count.to_string()], &bytes);
            assert_eq!(said, format!("10 processors: P is {count}, allowed are 1 to 64"));
        }
        for count in most + 1..=(most + 3).min(64) {
            let said = told(&["plan", "-", "-p", &count.to_string()], &bytes);
            let (why, at_most) = said.split_once("; there is a plan for ").expect("how many");
            assert_eq!(at_most, format!("{most} processor{} at most", if most == 1 { "" } else { "s" }));
            match numbers(why)[..] {
                [11, all, asked] => {
                    assert!((all, asked) == (indices.into(), count.into()) && all < asked, "{said}");
                    few += 1;
                }
                [11, all, asked, least, threshold] => {
                    assert!((all, asked) == (indices.into(), count.into()) && all >= asked, "{said}");
                    assert!(least == all / asked && least < threshold, "{said}");
                    short += 1;
                }
                _ => panic!("{said}"),
            }
        }
        let elements = table.elements();
        let said = told(&["run", "-", "-p1", "--memory", "@/dev/null"], &bytes);
        let many = if elements == 1 { "" } else { "s" };
        assert_eq!(said, format!("12 memory: the memory has 0 numbers, the table {elements} element{many}"));
    }
    assert!(few > 10 && short > 10, "{few} {short}");
}

/// 11 and 17 where there are lines of several iterations: how many lines and indices there are, the last block after it is cut, and the most
/// processors that have a plan in these lines.
#[test]
fn words_about_lines_hold_too() {
    let mut random = Random::new(53);
    let (mut few, mut short) = (0, 0);
    for round in 0..90 {
        let table = tables::any(&mut random, &[SMALL, SMALL, MIDDLE][round % 3]);
        let line = random.small(2, 64) as u32;
        let (bytes, most, indices) = (encode(&table), lines::most(&table, line), lines::indices(&table));
        for count in most + 1..=(most + 2).min(64) {
            let said = told(&["plan", "-", "-p", &count.to_string(), "--line", &line.to_string()], &bytes);
            let (why, at_most) = said.split_once("; in such lines there is a plan for ").expect("how many");
            assert_eq!(at_most, format!("{most} processor{} at most", if most == 1 { "" } else { "s" }));
            let [11, all, each, from, asked, left @ ..] = &numbers(why)[..] else { panic!("{said}") };
            assert_eq!((*each, *from, *asked), (line.into(), indices.into(), count.into()), "{said}");
            assert!((*all - 1) * each < *from && *all * each >= *from, "{said}");
            match left {
                [] => few += usize::from(all < asked && why.ends_with(&format!("for {asked} processors"))),
                [least, threshold] => {
                    assert!(all >= asked && *least == i64::from(lines::last_block(indices, count, line)), "{said}");
                    short += usize::from(least < threshold);
                }
                _ => panic!("{said}"),
            }
        }
        for wrong in [0, 65, u32::MAX] {
            let said = told(&["plan", "-", "-p1", "--line", &wrong.to_string()], &bytes);
            assert_eq!(said, format!("17 line: W is {wrong}, allowed are 1 to 64"));
        }
    }
    assert!(few > 20 && short > 20, "{few} {short}");
}
