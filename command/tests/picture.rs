//! `draw`: what stands in a picture, and that it can be read.

#[path = "picture/area.rs"]
mod area;
mod common;
#[path = "picture/drawn.rs"]
mod drawn;
#[path = "common/lines.rs"]
mod lines;
#[path = "common/plans.rs"]
mod plans;
#[path = "picture/ticks.rs"]
mod ticks;
#[path = "picture/xml.rs"]
mod xml;

use common::{bytes, fed, out_name, run, EXAMPLE};
use drawn::Drawn;
use vempaldi_checks::encoder::encode;
use vempaldi_checks::random::Random;
use vempaldi_checks::reader::read;
use vempaldi_checks::table::Table;
use vempaldi_checks::tables::{self, LARGE, MIDDLE, SMALL};

/// The picture of a table, after everything that holds of any picture was checked.
fn checked(table: &Table, count: u32) -> Drawn {
    in_lines(table, count, 1)
}

/// The same in lines of several indices.
fn in_lines(table: &Table, count: u32, line: u32) -> Drawn {
    let (bytes, settings) = (encode(table), [format!("-p{count}"), format!("--line={line}")]);
    let words = |command| [command, "-", settings[0].as_str(), settings[1].as_str()];
    let listing = fed(&words("plan"), &bytes).out;
    let told = fed(&words("draw"), &bytes);
    assert_eq!((told.status, told.err.as_str()), (0, ""));
    let drawn = Drawn::new(&told.out);
    let bounds: Vec<(u32, u32)> = table.loops.iter().map(|one| (one.first, one.last)).collect();
    drawn.check(&listing, &bounds);
    ticks::check(&drawn, &listing, line);
    drawn
}

/// The table of a text.
fn made(text: &str) -> Table {
    let made = vempaldi_command::make(text).expect("a text");
    read(&made.bytes).expect("a table")
}

#[test]
fn any_picture_can_be_read() {
    let mut random = Random::new(33);
    let (mut panels, mut ticked) = (0, 0);
    for round in 0..240 {
        let shape = [SMALL, MIDDLE, LARGE][round % 3];
        let make = [tables::aligned, tables::any][round / 3 % 2];
        let table = make(&mut random, &shape);
        let line = if round % 2 == 0 { 1 } else { random.between(2, 64) as u32 };
        let most = lines::most(&table, line);
        let count = if round % 4 == 0 { most } else { random.between(1, i64::from(most)) as u32 };
        let drawn = in_lines(&table, count, line);
        panels += drawn.root.with("panel").len();
        ticked += usize::from(!ticks::of(&drawn.root).is_empty());
    }
    // Many of them are of many processors, and many have ticks.
    assert!(panels > 500 && ticked > 50, "{panels} {ticked}");
}

#[test]
fn the_examples_can_be_read_for_few_and_for_many_processors() {
    for name in ["boundary", "coast", "example", "jacobi", "ll18", "reach", "river"] {
        let table = read(&bytes(&format!("examples/{name}.table"))).expect("a table");
        let most = lines::most(&table, 1);
        for count in (1..=most).filter(|count| *count <= 17 || count % 8 == 0 || *count == most) {
            let frame = checked(&table, count).frame();
            assert!(frame.width() <= 1_600.0, "{name} {count}: {}", frame.width());
        }
    }
}

/// Sixteen loops, each one shifted and peeled by one more than the one before: the most labels that a plan can have.
fn fullest() -> String {
    let mut text: String = (0..16).map(|k| format!("array A{k} 16384\n")).collect();
    text += "loop 20 16000 -> A0[i]: 1\n";
    for k in 1..16 {
        text += &format!("loop 20 16000 -> A{k}[i]: A{0}[i-1] A{0}[i+1] +\n", k - 1);
    }
    text
}

#[test]
fn the_fullest_picture_can_be_read() {
    for count in [1, 2, 8, 64] {
        let drawn = checked(&made(&fullest()), count);
        assert!(drawn.frame().width() <= 1_600.0, "{}", drawn.frame().width());
    }
}

/// The indices of many panels have no room side by side, and where there are more panels yet, neither have their names: some of them are
/// left out, and never all.
#[test]
fn some_panels_are_named_where_not_all_can_be() {
    let full = Drawn::new(&fed(&["draw", "-", "-p", "64"], fullest().as_bytes()).out);
    let said = |drawn: &Drawn, font: &str, wanted: fn(&str) -> bool| {
        let inside = drawn.root.with("overview")[0].with(font);
        inside.iter().map(|one| one.text.clone()).filter(|text| wanted(text)).collect::<Vec<String>>()
    };
    let is_range = |text: &str| text.chars().all(|one| one.is_ascii_digit() || one == '-' || one == 'P');
    let (names, bounds) = (said(&full, "strong", is_range), said(&full, "small", is_range));
    assert_eq!((names.len(), full.root.with("panel").len()), (21, 21), "{names:?}");
    // 15,981 indices: the first blocks have 250 of them, and the first panel four blocks.
    assert!(bounds.len() >= 10 && bounds[0] == "20-1019", "{bounds:?}");
    // A block with so many labels that few others have room beside it, so that there are many panels.
    for (loops, least) in [(11, 20), (15, 64)] {
        let mut crowded = "array A 64000\nloop 0 63999 -> A[i]: 1\n".to_string();
        (0..loops).for_each(|k| crowded += &format!("loop {} {} -> A[i]: 2\n", 30_000 + 60 * k, 30_001 + 60 * k));
        let drawn = checked(&made(&crowded), 64);
        let (names, bounds) = (said(&drawn, "strong", is_range), said(&drawn, "small", is_range));
        let panels = drawn.root.with("panel").len();
        assert!(panels >= least && names.len() < panels && names.len() >= panels / 3, "{panels}: {names:?}");
        assert!(bounds.len() < names.len() && bounds.len() >= panels / 8, "{panels}: {bounds:?}");
    }
}

/// Loops of one iteration at both ends, inside a block, and where two blocks meet; and one far from all others.
const BOUNDARY: &str = "array H 65536\narray Q 65536\n\
    loop 0 0 -> Q[i]: H[i] 2 *\n\
    loop 1 1998 -> Q[i]: H[i-1] H[i+1] - 200 /\n\
    loop 1999 1999 -> Q[i]: H[i] 3 *\n\
    loop 1 1998 -> H[i]: Q[i-1] Q[i+1] +\n\
    loop 500 500 -> H[i]: Q[i] 5 +\n\
    loop 700 700 -> H[i]: Q[i] 5 +\n";

#[test]
fn a_loop_of_one_iteration_is_seen_and_labelled() {
    let far = format!("{BOUNDARY}loop 65535 65535 -> H[i]: 7\n");
    for (text, counts) in [(BOUNDARY, [1, 4, 16, 64]), (&far, [1, 3, 17, 64])] {
        for count in counts {
            let drawn = checked(&made(text), count);
            let is_single = |one: &&xml::Element| one.get("data-from") == one.get("data-to");
            let singles = ["fused", "peeled"].iter().flat_map(|word| drawn.drawn_parts(word)).filter(is_single).count();
            assert_eq!(singles, made(text).loops.iter().filter(|one| one.first == one.last).count(), "{count}");
        }
    }
    let said = checked(&made(BOUNDARY), 4).said("in-fused").join(" ");
    assert!(["0", "700", "1999"].iter().all(|index| said.split([' ']).any(|word| word == *index)), "{said}");
}

#[test]
fn the_least_pictures_can_be_read() {
    let one = made("array A 1\nloop 0 0 -> A[i]: 1\n");
    assert_eq!(checked(&one, 1).said("in-fused"), ["P0: 0"]);
    let row = made("array A 64\nloop 0 63 -> A[i]: A[i] 1 +\nloop 3 3 -> A[i]: A[i] 2 *\n");
    for count in [1, 2, 63, 64] {
        checked(&row, count);
    }
}

#[test]
fn sixty_four_processors_stand_eight_in_a_panel() {
    let drawn = checked(&made("array A 64\nloop 0 63 -> A[i]: A[i] 1 +\n"), 64);
    let firsts: Vec<&str> = drawn.root.with("panel").iter().map(|panel| panel.get("data-first")).collect();
    assert_eq!(firsts, ["0", "8", "16", "24", "32", "40", "48", "56"]);
    let heads = drawn.said("strong");
    assert!(heads.contains(&"P0-P7") && heads.contains(&"P56-P63") && heads.contains(&"processors 8 to 15"), "{heads:?}");
}

/// In all panels, and so are the labels of fused parts.
#[test]
fn the_heads_of_columns_are_all_of_one_form() {
    let table = read(&bytes("examples/ll18.table")).expect("a table");
    for (count, word) in [(4, "processor "), (16, "P"), (64, "P")] {
        let drawn = checked(&table, count);
        let heads: Vec<&str> =
            drawn.said("mid").into_iter().filter(|said| said.starts_with('P') || said.starts_with("proc")).collect();
        let heads: Vec<&str> = heads.into_iter().filter(|said| !said.contains(['-', ':'])).collect();
        let wanted: Vec<String> = (0..count).map(|b| format!("{word}{b}")).collect();
        assert_eq!(heads, wanted);
    }
    let jacobi = read(&bytes("examples/jacobi.table")).expect("a table");
    for count in [2, 4, 9, 20, 50] {
        let labels = checked(&jacobi, count).said("in-fused").join(" ");
        let named = labels.matches("P").count();
        assert!(named == 0 || named == labels.matches(": ").count() && named == labels.split(' ').count() / 2, "{labels}");
    }
}

#[test]
fn a_picture_has_the_barrier_shifts_and_peels() {
    let told = run(&["draw", EXAMPLE, "-p", "2"]);
    assert_eq!((told.status, told.err.as_str()), (0, ""));
    let drawn = Drawn::new(&told.out);
    assert_eq!(drawn.root.with("barrier").len(), 1);
    assert_eq!(drawn.said("said"), ["barrier: opens when every processor has run its fused part"]);
    // Both loops before the barrier, the second past it: shift, peel.
    assert_eq!(drawn.said("plain")[..6], ["0", "0", "1", "1", "1", "1"]);
    assert_eq!(drawn.said("in-fused"), ["P0: 1-5", "P0: 1-4", "P1: 6-10", "P1: 7-10"]);
    assert_eq!(drawn.said("in-peeled"), ["P0: 5-6"]);
    assert!(!told.out.contains("<script"));
    assert_eq!(run(&["draw", EXAMPLE, "-p", "6"]).status, 1);
}

/// A text's names stay, and a table has none.
#[test]
fn a_row_has_its_loops_statement() {
    let river = [
        "S[i] = (H[i-1] - H[i+1]) / 200",
        "Q[i] = Q[i] * 9 / 10 + S[i] * 40",
        "D[i] = (Q[i-1] + 2 * Q[i] + Q[i+1]) / 4",
        "H[i] = H[i] + (D[i-1] - D[i+1]) / 50",
    ];
    let numbered = |said: &str| said.replace("H[", "A0[").replace("Q[", "A1[").replace("S[", "A2[").replace("D[", "A3[");
    let of_table = river.map(numbered);
    for (file, wanted) in [("examples/river.txt", river), ("examples/river.table", of_table.each_ref().map(String::as_str))] {
        let drawn = Drawn::new(&run(&["draw", file, "-p", "4"]).out);
        let statements: Vec<&str> = drawn.said("small").into_iter().filter(|said| said.contains(" = ")).collect();
        // All loops before the barrier, and past it the two that are peeled.
        assert_eq!(statements, [&wanted[..], &wanted[2..]].concat());
    }
}

/// Several statements stand side by side, cut where there is no room for all, and a pointer that rests there shows them.
#[test]
fn a_row_has_all_statements_of_its_loop() {
    let wanted =
        ["QN[i] = Q[i] * 9 / 10 + (H[i-1] - H[i+1]) / 5; HN[i] = H[i] + (Q[i-1] - QN[i]) / 50", "Q[i] = QN[i]; H[i] = HN[i]"];
    let drawn = Drawn::new(&run(&["draw", "examples/reach.txt", "-p", "4"]).out);
    let rows: Vec<&xml::Element> = drawn.root.with("small").into_iter().filter(|one| one.title().contains(" = ")).collect();
    // Both loops before the barrier, and the second past it.
    let whole: Vec<String> = rows.iter().map(|one| one.title().to_string()).collect();
    assert_eq!(whole, [wanted[0], wanted[1], wanted[1]]);
    assert!(rows[0].text.ends_with(" ..") && rows[0].text.starts_with("QN[i] = Q[i] * 9 / 10"), "{}", rows[0].text);
    assert_eq!(rows[1].text, wanted[1]);
}

#[test]
fn the_axis_says_when_it_is_not_to_scale() {
    let bent = |count: u32, text: &str| {
        let said = checked(&made(text), count).said("small").iter().any(|said| said.starts_with("Not to scale"));
        said
    };
    assert!(!bent(1, "array A 10\nloop 0 9 -> A[i]: 1\nloop 2 5 -> A[i]: 1\n"));
    assert!(bent(1, "array A 1000\nloop 0 999 -> A[i]: 1\nloop 500 500 -> A[i]: 1\n"));
}

#[test]
fn a_long_statement_is_cut_between_words_before_the_shift() {
    let table = made("array A 600\narray B 600\nloop 255 300 -> A[i-255]: B[i+255] B[i-255] + 4294967295 * 4294967295 /\n");
    let drawn = checked(&table, 1);
    let whole = "A0[i-255] = (A1[i+255] + A1[i-255]) * 4294967295 / 4294967295";
    let found: Vec<&xml::Element> = drawn.root.with("small").into_iter().filter(|one| one.title() == whole).collect();
    let [statement] = found[..] else { panic!("{found:?}") };
    let shown = statement.text.strip_suffix(" ..").expect("cut");
    assert!(whole.starts_with(&format!("{shown} ")) && shown.len() > 30, "{shown}");
}

#[test]
fn a_picture_says_what_it_is_of() {
    let drawn = Drawn::new(&fed(&["draw", "-", "-p", "2"], &bytes(EXAMPLE)).out);
    assert_eq!(drawn.said("title"), ["standard input: 2 processors"]);
    assert!(drawn.said("small")[0].contains("threshold 2 (no block may be shorter)"));
    // One block may be shorter than the threshold.
    let drawn = Drawn::new(&run(&["draw", EXAMPLE, "-p", "1"]).out);
    assert_eq!(drawn.said("title"), ["example.table: 1 processor"]);
    assert!(drawn.said("small")[0].contains("threshold 2 (it holds for two processors or more)"));
}

/// The shifts and peels are those of the plan, and its heading says whose they are.
#[test]
fn a_plan_by_hand_is_drawn() {
    let told = run(&["draw", EXAMPLE, "-p", "2", "--plan", "examples/example.hand"]);
    assert_eq!((told.status, told.err.as_str()), (0, ""));
    let drawn = Drawn::new(&told.out);
    assert_eq!(drawn.said("title"), ["example.table: 2 processors, plan by hand"]);
    assert!(drawn.said("small")[0].contains("threshold 3 (no block may be shorter)"));
    assert_eq!(drawn.said("plain")[..6], ["0", "0", "2", "1", "2", "1"]);
    assert_eq!(drawn.said("in-fused"), ["P0: 1-5", "P0: 1-3", "P1: 6-10", "P1: 7-10"]);
    assert_eq!(drawn.said("in-peeled"), ["P0: 4-6"]);
    assert_eq!(run(&["draw", EXAMPLE, "-p", "2", "--plan", "/dev/null"]).status, 1);
}

/// Whatever holds of the picture of any plan, also with the highest numbers.
#[test]
fn any_plan_by_hand_can_be_read() {
    let mut random = Random::new(35);
    for round in 0..60 {
        let table = tables::aligned(&mut random, &[SMALL, MIDDLE, LARGE][round % 3]);
        let plan = plans::met(&table, &mut random, 5);
        let plan = if round % 5 == 0 { plans::highest(&plan) } else { plan };
        let file = plans::PlanFile::new(
            "drawn.hand",
            if round % 2 == 0 { plans::text(&plan).into_bytes() } else { plans::bytes(&plan) },
        );
        let least = plans::threshold(&plan).max(1);
        let most = (1..=64).rev().find(|count| *count == 1 || lines::indices(&table) / count >= least).expect("one");
        let count = random.between(1, i64::from(most)).to_string();
        let words = |command| [command, "-", "-p", &count, "--plan", &file.0];
        let (bytes, bounds) = (encode(&table), table.loops.iter().map(|one| (one.first, one.last)).collect::<Vec<_>>());
        let (listing, told) = (fed(&words("plan"), &bytes).out, fed(&words("draw"), &bytes));
        assert_eq!((told.status, told.err.as_str()), (0, ""));
        Drawn::new(&told.out).check(&listing, &bounds);
    }
}

/// A file's name may have any characters and any length; the title is then escaped and cut.
#[test]
fn a_name_neither_breaks_the_picture_nor_leaves_it() {
    let long = "W".repeat(200);
    for odd in ["a<b>&'\"c\u{1}\n", long.as_str()] {
        let name = out_name(odd);
        std::fs::write(&name, bytes(EXAMPLE)).expect("written");
        let told = run(&["draw", &name, "-p", "64"]);
        assert_eq!(told.status, 1, "example.table has no plan for 64");
        let by_hand = ["--plan", "examples/example.hand"];
        for (count, more, end) in [("5", &[][..], ": 5 processors"), ("3", &by_hand, ": 3 processors, plan by hand")] {
            let drawn = Drawn::new(&run(&[&["draw", &name, "-p", count], more].concat()).out);
            let (title, area) = drawn.texts().into_iter().find(|(one, _)| one.is("title")).expect("a title");
            assert!(drawn.frame().holds(&area), "{area:?}");
            assert!(title.text.ends_with(end), "{title:?}");
        }
        std::fs::remove_file(&name).expect("removed");
    }
    let name = out_name("a<b>&'\"c");
    std::fs::write(&name, bytes(EXAMPLE)).expect("written");
    let drawn = Drawn::new(&run(&["draw", &name, "-p", "2"]).out);
    std::fs::remove_file(&name).expect("removed");
    assert!(drawn.said("title")[0].ends_with("a<b>&'\"c: 2 processors"), "{:?}", drawn.said("title"));
}

/// 198 indices are 25 lines of 8, of which the first block has seven.
#[test]
fn ticks_show_where_lines_begin() {
    let river = read(&bytes("examples/river.table")).expect("a table");
    let drawn = in_lines(&river, 4, 8);
    let indices: Vec<u32> = ticks::of(&drawn.root).iter().map(|(index, _)| *index).collect();
    assert_eq!(indices, (0..25).map(|line| 1 + 8 * line).collect::<Vec<_>>());
    // A block's first tick stands where the block begins.
    let mut columns: Vec<f64> =
        ["even", "odd"].iter().flat_map(|class| drawn.root.with(class)).map(|one| one.number("x")).collect();
    columns.sort_by(f64::total_cmp);
    let at = |index| ticks::of(&drawn.root).iter().find(|tick| tick.0 == index).expect("a tick").1;
    assert_eq!([1, 57, 105, 153].map(at).to_vec(), columns);
    let said = "ticks: at each a line of 8 indices begins; blocks begin on whole lines";
    assert!(drawn.said("plain").contains(&said), "{:?}", drawn.said("plain"));
    assert!(drawn.said("small")[0].starts_with("indices 1 to 198 in lines of 8; threshold 4 "), "{:?}", drawn.said("small")[0]);
}

#[test]
fn lines_of_one_index_have_no_ticks() {
    let without = run(&["draw", "examples/river.txt", "-p", "4"]).out;
    assert_eq!(run(&["draw", "examples/river.txt", "-p", "4", "--line", "1"]).out, without);
    assert!(!without.contains("ticks") && !without.contains("in lines of"));
}

/// 4,096 indices on an axis of 640: lines of 2 have a third of a point each, and lines of 64 have ten.
#[test]
fn narrow_lines_have_no_ticks() {
    let table = made("array A 4096\nloop 0 4095 -> A[i]: 1\n");
    for (line, wanted) in [(2, 0), (16, 0), (32, 128), (64, 64)] {
        let drawn = in_lines(&table, 1, line);
        assert_eq!(ticks::of(&drawn.root).len(), wanted, "{line}");
        assert!(drawn.said("small")[0].contains(&format!(" in lines of {line};")));
    }
    // 26 lines of 40; the last has 24 indices, and no tick behind it.
    let cut = made("array A 1024\nloop 0 1023 -> A[i]: 1\n");
    let indices: Vec<u32> = ticks::of(&in_lines(&cut, 2, 40).root).iter().map(|tick| tick.0).collect();
    assert_eq!(indices, (0..26).map(|line| 40 * line).collect::<Vec<_>>());
}

/// Each line has its tick in the panel of its block.
#[test]
fn many_panels_have_their_own_ticks() {
    let drawn = in_lines(&made("array A 8192\nloop 0 8191 -> A[i]: 1\n"), 64, 16);
    let panels = drawn.root.with("panel");
    assert_eq!(panels.len(), 8);
    for (at, panel) in panels.iter().enumerate() {
        let indices: Vec<u32> = ticks::of(panel).iter().map(|tick| tick.0).collect();
        assert_eq!(indices, (0..64).map(|line| 1024 * at as u32 + 16 * line).collect::<Vec<_>>());
    }
}

#[test]
fn the_picture_of_the_readme_is_the_rivers() {
    let picture = run(&["draw", "examples/river.txt", "-p", "4"]).out;
    let same = picture.into_bytes() == bytes("docs/plan.svg");
    assert!(same, "bin/vempaldi draw examples/river.txt -p 4 -o docs/plan.svg makes it anew");
}
