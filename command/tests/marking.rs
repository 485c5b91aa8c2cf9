//! Refusal 9 shows the loop with the two references that it names marked. What is expected is typed from docs/TABLE.md: which pair is the lowest
//! that collides, and, with a read's offset o and a destination's c, that iteration i reads where iteration i + (o - c) stores.

mod common;

use common::{bytes, fed, out_name, run, EXAMPLE};
use vempaldi_checks::encoder::{encode, Encoder};
use vempaldi_checks::random::Random;
use vempaldi_checks::tables::{self, LARGE, MIDDLE, SMALL};
use vempaldi_command::{assignments, decode, make, Item, Loop, Names, Statement};

const ADD: u8 = 1;
const SUBTRACT: u8 = 2;
const MULTIPLY: u8 = 3;
const DIVIDE: u8 = 4;
const NEGATE: u8 = 5;

/// Two arrays of 40 elements and a loop from 10 to 19 that stores A0[i+offset], its body still to come. The loop is record 2 at byte 10,
/// its first item record 3 at byte 22.
fn from_10_to_19(offset: i16) -> Encoder {
    Encoder::new().array(40).array(40).a_loop(10, 19, 0, offset)
}

/// `check` prints the refusal's line with this place and the lowest iterations that meet, then the loop, then the marks.
fn says(table: Encoder, place: &str, met: (u32, &str, u32), lines: [&str; 2]) {
    let told = fed(&["check", "-"], &table.end().bytes);
    let met = format!("iteration {} reads {}, which iteration {} stores", met.0, met.1, met.2);
    let all = format!("-: refused 9 serial at {place}: {met}\n{}\n{}\n", lines[0], lines[1]);
    assert_eq!((told.status, told.out.as_str(), told.err.as_str()), (1, all.as_str(), ""));
}

#[test]
fn an_earlier_iteration_stores_what_is_read() {
    says(
        Encoder::new().array(12).array(12).a_loop(1, 10, 0, 0).read(1, 0).read(0, -1).operation(ADD),
        "loop 0, references 0 (record 2, byte 10) and 2 (record 4, byte 26)",
        (2, "A0[1]", 1),
        [
            "  loop 0, i = 1 to 10: A0[i] = A1[i] + A0[i-1]",
            "                       ^^^^^           ^^^^^^^ \
             iteration i reads the element that the earlier iteration i-1 stores (i = 2 to 10)",
        ],
    );
}

/// A known result: 1 to 10, A0 of 21 elements, A0[i] = A0[i+9]. Iteration 1 alone has another that far off.
#[test]
fn a_later_iteration_stores_what_is_read() {
    says(
        Encoder::new().array(21).a_loop(1, 10, 0, 0).read(0, 9),
        "loop 0, references 0 (record 1, byte 5) and 1 (record 2, byte 17)",
        (1, "A0[10]", 10),
        [
            "  loop 0, i = 1 to 10: A0[i] = A0[i+9]",
            "                       ^^^^^   ^^^^^^^ \
             iteration i reads the element that the later iteration i+9 stores (i = 1)",
        ],
    );
}

/// Who is earlier goes by both offsets, not by the sign of the read's own.
#[test]
fn the_destinations_offset_counts() {
    let place = "loop 0, references 0 (record 2, byte 10) and 1 (record 3, byte 22)";
    says(
        from_10_to_19(2).read(0, 1),
        place,
        (11, "A0[12]", 10),
        [
            "  loop 0, i = 10 to 19: A0[i+2] = A0[i+1]",
            "                        ^^^^^^^   ^^^^^^^ \
             iteration i reads the element that the earlier iteration i-1 stores (i = 11 to 19)",
        ],
    );
    says(
        from_10_to_19(-10).read(0, -1),
        place,
        (10, "A0[9]", 19),
        [
            "  loop 0, i = 10 to 19: A0[i-10] = A0[i-1]",
            "                        ^^^^^^^^   ^^^^^^^ \
             iteration i reads the element that the later iteration i+9 stores (i = 10)",
        ],
    );
    says(
        from_10_to_19(5).read(0, 0),
        place,
        (15, "A0[15]", 10),
        [
            "  loop 0, i = 10 to 19: A0[i+5] = A0[i]",
            "                        ^^^^^^^   ^^^^^ \
             iteration i reads the element that the earlier iteration i-5 stores (i = 15 to 19)",
        ],
    );
}

#[test]
fn the_lowest_of_several_is_marked() {
    says(
        from_10_to_19(0).read(1, -1).read(0, -1).operation(MULTIPLY).read(0, -1).operation(ADD).read(0, -1).operation(ADD),
        "loop 0, references 0 (record 2, byte 10) and 2 (record 4, byte 26)",
        (11, "A0[10]", 10),
        [
            "  loop 0, i = 10 to 19: A0[i] = A1[i-1] * A0[i-1] + A0[i-1] + A0[i-1]",
            "                        ^^^^^             ^^^^^^^ \
             iteration i reads the element that the earlier iteration i-1 stores (i = 11 to 19)",
        ],
    );
    // The lower number, not the nearer iteration.
    says(
        from_10_to_19(0).read(0, 3).read(0, -1).operation(SUBTRACT),
        "loop 0, references 0 (record 2, byte 10) and 1 (record 3, byte 22)",
        (10, "A0[13]", 13),
        [
            "  loop 0, i = 10 to 19: A0[i] = A0[i+3] - A0[i-1]",
            "                        ^^^^^   ^^^^^^^ \
             iteration i reads the element that the later iteration i+3 stores (i = 10 to 16)",
        ],
    );
}

/// A read of the element that the iteration itself stores meets no other, and neither do those that are ten iterations off in a loop
/// of ten.
#[test]
fn reads_of_the_array_that_meet_nothing_are_passed_over() {
    says(
        from_10_to_19(0).read(0, 0).read(0, 10).operation(ADD).read(0, -10).operation(ADD).read(0, 9).operation(ADD),
        "loop 0, references 0 (record 2, byte 10) and 4 (record 8, byte 38)",
        (10, "A0[19]", 19),
        [
            "  loop 0, i = 10 to 19: A0[i] = A0[i] + A0[i+10] + A0[i-10] + A0[i+9]",
            "                        ^^^^^                                 ^^^^^^^ \
             iteration i reads the element that the later iteration i+9 stores (i = 10)",
        ],
    );
}

#[test]
fn brackets_and_signs_stand_before_the_mark() {
    says(
        from_10_to_19(0).read(1, 0).read(1, 1).read(0, -1).operation(ADD).operation(MULTIPLY),
        "loop 0, references 0 (record 2, byte 10) and 3 (record 5, byte 30)",
        (11, "A0[10]", 10),
        [
            "  loop 0, i = 10 to 19: A0[i] = A1[i] * (A1[i+1] + A0[i-1])",
            "                        ^^^^^                      ^^^^^^^ \
             iteration i reads the element that the earlier iteration i-1 stores (i = 11 to 19)",
        ],
    );
    says(
        from_10_to_19(0).read(0, 1).operation(NEGATE),
        "loop 0, references 0 (record 2, byte 10) and 1 (record 3, byte 22)",
        (10, "A0[11]", 11),
        [
            "  loop 0, i = 10 to 19: A0[i] = -A0[i+1]",
            "                        ^^^^^    ^^^^^^^ \
             iteration i reads the element that the later iteration i+1 stores (i = 10 to 18)",
        ],
    );
    let sum = from_10_to_19(0).constant(7).constant(2).read(1, 0).read(0, -9).constant(u32::MAX).operation(ADD);
    let signs = sum.operation(NEGATE).operation(NEGATE);
    says(
        signs.operation(SUBTRACT).operation(SUBTRACT).operation(DIVIDE),
        "loop 0, references 0 (record 2, byte 10) and 2 (record 6, byte 36)",
        (19, "A0[10]", 10),
        [
            "  loop 0, i = 10 to 19: A0[i] = 7 / (2 - (A1[i] - -(-(A0[i-9] + 4294967295))))",
            "                        ^^^^^                         ^^^^^^^ \
             iteration i reads the element that the earlier iteration i-9 stores (i = 19)",
        ],
    );
}

/// Loop 0 is parallel; 1 and 2 are not.
#[test]
fn the_lowest_loop_is_shown() {
    let table = Encoder::new().array(200).array(200).array(200).a_loop(10, 19, 0, 0).read(1, -1);
    let table = table.a_loop(7, 130, 1, 0).constant(1).read(1, -2).operation(ADD);
    says(
        table.a_loop(10, 19, 2, 0).read(2, -1),
        "loop 1, references 0 (record 5, byte 31) and 1 (record 7, byte 48)",
        (9, "A1[7]", 7),
        [
            "  loop 1, i = 7 to 130: A1[i] = 1 + A1[i-2]",
            "                        ^^^^^       ^^^^^^^ \
             iteration i reads the element that the earlier iteration i-2 stores (i = 9 to 130)",
        ],
    );
}

#[test]
fn long_names_are_marked_whole() {
    let table = Encoder::new().repeat(16, |table| table.array(1_001)).a_loop(255, 1_000, 15, 0);
    says(
        table.read(14, -255).read(15, -255).operation(ADD),
        "loop 0, references 0 (record 16, byte 80) and 2 (record 18, byte 96)",
        (510, "A15[255]", 255),
        [
            "  loop 0, i = 255 to 1000: A15[i] = A14[i-255] + A15[i-255]",
            "                           ^^^^^^                ^^^^^^^^^^ \
             iteration i reads the element that the earlier iteration i-255 stores (i = 510 to 1000)",
        ],
    );
}

/// 32 items: 16 reads, 15 sums and a sign. The last read is marked, behind 34 characters and 15 operands of 8, and the destination behind 24.
#[test]
fn the_longest_body_is_marked_at_its_end() {
    let operands = (0..14).fold(from_10_to_19(0).read(1, 0), |table, _| table.read(1, 0).operation(ADD));
    let text = format!("  loop 0, i = 10 to 19: A0[i] = -({}A0[i-1])", "A1[i] + ".repeat(15));
    let words = "iteration i reads the element that the earlier iteration i-1 stores (i = 11 to 19)";
    says(
        operands.read(0, -1).operation(ADD).operation(NEGATE),
        "loop 0, references 0 (record 2, byte 10) and 16 (record 32, byte 110)",
        (11, "A0[10]", 10),
        [&text, &format!("{}^^^^^{}^^^^^^^ {words}", " ".repeat(24), " ".repeat(5 + 15 * 8))],
    );
}

const TEXT: &str = "array A0 12\narray A1 12\nloop 1 10 -> A0[i]: A1[i] A0[i+1] +\n";
const LINES: &str = "\
refused 9 serial at loop 0, references 0 (record 2, byte 10) and 2 (record 4, byte 26): \
iteration 1 reads A0[2], which iteration 2 stores
\x20 loop 0, i = 1 to 10: A0[i] = A1[i] + A0[i+1]
\x20                      ^^^^^           ^^^^^^^ \
iteration i reads the element that the later iteration i+1 stores (i = 1 to 9)
";

/// Beside the refusal's own line, on the stream where that stands.
#[test]
fn every_command_shows_the_same() {
    let name = out_name("serial");
    let table = Encoder::new().array(12).array(12).a_loop(1, 10, 0, 0).read(1, 0).read(0, 1).operation(ADD).end().bytes;
    std::fs::write(&name, table).expect("written");
    let lines = format!("{name}: {LINES}");
    for words in [&["check", &name][..], &["check", "-q", &name]] {
        let told = run(words);
        assert_eq!((told.status, told.out.as_str(), told.err.as_str()), (1, lines.as_str(), ""), "{words:?}");
    }
    for words in [
        &["plan", &name, "-p", "2"][..],
        &["run", &name, "-p", "2"],
        &["draw", &name, "-p", "2"],
        &["join", EXAMPLE, &name],
        &["join", &name, EXAMPLE],
    ] {
        let told = run(words);
        assert_eq!((told.status, told.out.as_str(), told.err.as_str()), (1, "", lines.as_str()), "{words:?}");
    }
    let told = run(&["dump", &name]);
    let text = TEXT.replace("loop 1", "# loop 0: A0[i] = A1[i] + A0[i+1]\nloop 1");
    assert_eq!((told.status, told.out.as_str(), told.err.as_str()), (1, text.as_str(), lines.as_str()));
    std::fs::remove_file(&name).expect("removed");
    let told = fed(&["make", "-"], TEXT.as_bytes());
    assert_eq!((told.status, told.out.as_str(), told.err.as_str()), (1, "", format!("-:3:27: {LINES}").as_str()));
}

#[test]
fn other_refusals_have_no_text() {
    let table = bytes(EXAMPLE);
    for damaged in [&table[..60], &[&table[..], &[0]].concat(), &[1, 0, 0, 0, 0]] {
        let told = fed(&["check", "-"], damaged);
        assert_eq!((told.status, told.out.lines().count()), (1, 1), "{}", told.out);
    }
}

/// Tries every pair of iterations of a loop from 10 to 14, for all offsets about as far apart as the loop is long.
#[test]
fn the_words_hold_of_every_pair_of_iterations() {
    for (c, o) in (-3..=3).flat_map(|c| (-3..=3).map(move |o| (c, o))) {
        let others = |i: i16| (10..=14).filter(move |&j| j != i && i + o == j + c);
        let reading: Vec<i16> = (10..=14).filter(|&i| others(i).count() > 0).collect();
        let told = fed(&["check", "-"], &Encoder::new().array(20).a_loop(10, 14, 0, c).read(0, o).end().bytes);
        let (Some(&from), Some(&to)) = (reading.first(), reading.last()) else {
            assert_eq!(told.out, "-: accepted\n", "{c} {o}");
            continue;
        };
        let storing = others(from).next().expect("one stores");
        let when = if storing < from { "earlier" } else { "later" };
        let span = if from == to { from.to_string() } else { format!("{from} to {to}") };
        let said =
            format!("^ iteration i reads the element that the {when} iteration i{:+} stores (i = {span})\n", storing - from);
        assert!(told.out.ends_with(&said), "{c} {o}: {}", told.out);
    }
}

fn written(item: &Item) -> Option<String> {
    match *item {
        Item::Read(array, 0) => Some(format!("A{array}[i]")),
        Item::Read(array, offset) if offset < 0 => Some(format!("A{array}[i-{}]", -offset)),
        Item::Read(array, offset) => Some(format!("A{array}[i+{offset}]")),
        _ => None,
    }
}

/// A statement's references, the destination first.
fn references(one: &Statement) -> Vec<String> {
    let stored = Item::Read(one.array, one.offset);
    [&stored].into_iter().chain(&one.items).filter_map(written).collect()
}

/// Each reference has a place of its own in the text, behind the one before, and stands there; each assignment begins with its destination.
fn placed(one: &Loop) {
    let said = assignments(one, &Names::default()).expect("accepted bodies");
    let found: Vec<&str> = said.references.iter().map(|place| &said.text[place.clone()]).collect();
    let wanted: Vec<String> = one.statements.iter().flat_map(references).collect();
    assert_eq!(found, wanted, "{}", said.text);
    let ends = std::iter::once(0).chain(said.references.iter().map(|place| place.end));
    assert!(said.references.iter().zip(ends).all(|(place, before)| before <= place.start), "{}", said.text);
    let begun = said.text.split("; ").map(|said| said.split(" = ").next().expect("a destination").to_string());
    let stored = one.statements.iter().map(|one| references(one).remove(0));
    assert!(begun.eq(stored), "{}", said.text);
}

#[test]
fn every_read_of_any_body_has_its_place() {
    let mut random = Random::new(34);
    for shape in [SMALL, MIDDLE, LARGE] {
        for _ in 0..1_000 {
            let (table, ended) = decode(&encode(&tables::any(&mut random, &shape)));
            assert!(ended);
            table.loops.iter().for_each(placed);
        }
    }
    let (table, _) = decode(&encode(&tables::full(&mut random, 4, 4, 4)));
    table.loops.iter().for_each(placed);
    for name in ["reach", "coast"] {
        let (table, ended) = decode(&bytes(&format!("examples/{name}.table")));
        assert!(ended && table.loops[1].statements.len() > 1);
        table.loops.iter().for_each(placed);
    }
}

/// The lines that `check` prints of a text, behind the file's name.
fn told_of(text: &str) -> String {
    let told = fed(&["check", "-"], text.as_bytes());
    assert_eq!((told.status, told.err.as_str()), (1, ""), "{text}");
    told.out
}

/// The lower reference may be a read of a statement before, and then stands where it meets a destination behind it.
#[test]
fn a_read_before_the_destination_that_it_meets_is_marked() {
    let text = "array A0 40\narray A1 40\nloop 10 19 -> A1[i]: A0[i] 2 *\n  -> A0[i+3]: 5\n";
    let said = "\
-:4:6: refused 9 serial at loop 0, references 1 (record 3, byte 22) and 2 (record 6, byte 33): \
iteration 13 reads A0[13], which iteration 10 stores
\x20 loop 0, i = 10 to 19: A1[i] = A0[i] * 2; A0[i+3] = 5
\x20                               ^^^^^      ^^^^^^^ \
iteration i reads the element that the earlier iteration i-3 stores (i = 13 to 19)
";
    assert_eq!(told_of(text), said);
}

/// Two destinations: the higher one's iterations are told, with the lower one's beside them.
#[test]
fn two_destinations_that_meet_are_marked() {
    let text = "array A0 40\nloop 10 19 -> A0[i+2]: 1\n  -> A0[i-1]: A0[i+2]\n";
    let said = "\
-:3:6: refused 9 serial at loop 0, references 0 (record 1, byte 5) and 1 (record 3, byte 22): \
iteration 13 stores A0[12], which iteration 10 stores too
\x20 loop 0, i = 10 to 19: A0[i+2] = 1; A0[i-1] = A0[i+2]
\x20                       ^^^^^^^      ^^^^^^^ \
iteration i stores as A0[i-1] the element that the earlier iteration i-3 stores as A0[i+2] (i = 13 to 19)
";
    assert_eq!(told_of(text), said);
}

/// What two references of one loop are: whether each stores, and their offsets in one array. Tries all pairs of iterations of a loop from 10 to
/// 14, both references in statements of their own.
#[test]
fn the_words_hold_of_every_pair_of_references() {
    for (one, other) in (-3..=3).flat_map(|one| (-3..=3).map(move |other| (one, other))) {
        let read_then_stored = format!("array A 20\narray B 20\nloop 10 14 -> B[i]: A[i{one:+}]\n-> A[i{other:+}]: 1\n");
        let stored_then_read = format!("array A 20\narray B 20\nloop 10 14 -> A[i{other:+}]: 1\n-> B[i]: A[i{one:+}]\n");
        let stored_twice = format!("array A 20\narray B 20\nloop 10 14 -> A[i{other:+}]: 1\n-> A[i{one:+}]: 1\n");
        for (text, pair, does) in
            [(read_then_stored, "1 2", "reads"), (stored_then_read, "0 2", "reads"), (stored_twice, "0 1", "stores")]
        {
            let others = |i: i32| (10..=14).find(move |&j| j != i && i + one == j + other);
            let meeting: Vec<i32> = (10..=14).filter(|&i| others(i).is_some()).collect();
            let raw = fed(&["check", "--raw", "-"], text.as_bytes()).out;
            let (Some(&from), Some(&to)) = (meeting.first(), meeting.last()) else {
                assert_eq!(raw, "accepted\n", "{text}");
                continue;
            };
            assert_eq!(raw, format!("refused 9 0 {pair}\n"), "{text}");
            let (met, span) = (others(from).expect("one"), if from == to { from.to_string() } else { format!("{from} to {to}") });
            let too = if does == "stores" { " too" } else { "" };
            let told = told_of(&text);
            let first = format!(": iteration {from} {does} A[{}], which iteration {met} stores{too}\n", from + one);
            assert!(told.contains(&first) && told.ends_with(&format!("(i = {span})\n")), "{told}");
        }
    }
}

/// `make` gives the records of several statements, and the loop's words have them all.
#[test]
fn statements_stand_side_by_side_in_words() {
    let made = make("array A 9\narray B 9\nloop 1 7 -> A[i]: B[i-1]\n->B[i+1]:1\n  2 +\n").expect("a text");
    let wanted = [
        &[1, 9, 0, 0, 0, 1, 9, 0, 0, 0, 2, 1, 0, 0, 0, 7, 0, 0, 0, 0, 0, 0, 3, 1, 255, 255][..],
        &[7, 1, 1, 0, 4, 1, 0, 0, 0, 4, 2, 0, 0, 0, 5, 1, 6],
    ];
    assert_eq!(made.bytes, wanted.concat());
    let said = assignments(&decode(&made.bytes).0.loops[0], &made.names).expect("bodies").text;
    assert_eq!(said, "A[i] = B[i-1]; B[i+1] = 1 + 2");
}
