//! `--plan` and `--write-plan`: the two forms of a plan by hand, what is refused and in which words, and what is written.

mod common;
#[path = "common/plans.rs"]
mod plans;

use common::{bytes, fed, out_name, run, Told, EXAMPLE};
use plans::{highest, met, text, threshold, PlanFile};
use std::path::Path;
use vempaldi_checks::dependence::{dependences, Dependence};
use vempaldi_checks::encoder::encode;
use vempaldi_checks::random::Random;
use vempaldi_checks::tables::{self, MIDDLE, SMALL};

/// The listing of the example on two processors with the plan of examples/example.hand: shift 2 and peel 1 of loop 1.
const LISTING: &str = "loop 0 0 0\nloop 1 2 1\nblock 0 1 5\nblock 1 6 10\nfused 0 0 1 5\nfused 0 1 1 3\n\
                       fused 1 0 6 10\nfused 1 1 7 10\npeeled 0 1 4 6\nsweeps 6 5\n";

fn is(told: &Told, status: i32, out: &str, err: &str) {
    assert_eq!((told.status, told.out.as_str(), told.err.as_str()), (status, out, err));
}

/// What `plan` says of the example on two processors with this plan, which comes from the standard input.
fn planned(plan: impl AsRef<[u8]>, more: &[&str]) -> Told {
    fed(&[&["plan", EXAMPLE, "-p2", "--plan", "-"], more].concat(), plan.as_ref())
}

#[test]
fn a_text_and_bytes_are_one_plan() {
    is(&run(&["plan", EXAMPLE, "-p", "2", "--plan", "examples/example.hand"]), 0, LISTING, "");
    is(&run(&["plan", EXAMPLE, "-p", "2", "--plan=examples/example.hand", "--raw"]), 0, LISTING, "");
    let bytes = [0, 0, 0, 0, 0, 0, 0, 0, 2, 0, 0, 0, 1, 0, 0, 0];
    is(&planned(bytes, &[]), 0, LISTING, "");
    for text in ["0 0\n2 1\n", "0 0\n2 1", "\n# a plan\n\t0   0# loop 0\r\n\n  02 0001 # \u{e4}\n\n"] {
        is(&planned(text, &[]), 0, LISTING, "");
    }
}

#[test]
fn what_is_no_plan_for_the_table_is_19() {
    let head = "examples/example.table: refused 19 plan: ";
    let long: &[u8] = &[7; 17];
    for (plan, said) in [
        (&b""[..], "the plan has 0 bytes, 2 loops need 16 (2 pairs)"),
        (b"# nothing\n", "the plan has 0 bytes, 2 loops need 16 (2 pairs)"),
        (b"0 0\n", "the plan has 8 bytes (1 pair), 2 loops need 16 (2 pairs)"),
        (b"0 0\n1 1\n2 2\n", "the plan has 24 bytes (3 pairs), 2 loops need 16 (2 pairs)"),
        (b"\0", "the plan has 1 byte (read as bytes: it is no text in UTF-8), 2 loops need 16 (2 pairs)"),
        (long, "the plan has 17 bytes (read as bytes: it is no text in UTF-8), 2 loops need 16 (2 pairs)"),
        (b"0 0 # h\xf6\n1 1\n", "the plan has 13 bytes (read as bytes: it is no text in UTF-8), 2 loops need 16 (2 pairs)"),
        (b"0 0\n10001 1\n", "shift 10001 of loop 1, allowed are 0 to 10000"),
        (b"10000 10000\n10001 1\n", "shift 10001 of loop 1, allowed are 0 to 10000"),
        (b"0 10001\n99999 10002\n", "peel 10001 of loop 0, allowed are 0 to 10000"),
        (b"0 0\n1 4294967295\n", "peel 4294967295 of loop 1, allowed are 0 to 10000"),
    ] {
        is(&planned(plan, &[]), 1, "", &format!("{head}{said}\n"));
        is(&planned(plan, &["--raw"]), 1, "refused 19 0\n", "");
        let object = planned(plan, &["--json"]).out;
        assert!(object.contains("\"by_hand\":true,\"accepted\":false,\"refusal\":{\"number\":19,\"word\":\"plan\""), "{object}");
    }
    let one = fed(&["plan", "-", "-p1", "--plan", "/dev/null"], b"array H 9\nloop 1 8 -> H[i]: 7\n");
    is(&one, 1, "", "-: refused 19 plan: the plan has 0 bytes, 1 loop needs 8 (1 pair)\n");
}

/// No more of a file is read than a text may have.
#[test]
fn a_file_without_end_is_19_too() {
    let endless = run(&["plan", EXAMPLE, "-p2", "--plan", "/dev/zero"]);
    let said = "the plan has at least 65537 bytes (read as bytes: it is no text in UTF-8), 2 loops need 16 (2 pairs)";
    is(&endless, 1, "", &format!("examples/example.table: refused 19 plan: {said}\n"));
    let told = planned("0 0 \n".repeat(20_000), &[]);
    let said = "-: more than 65536 bytes are no text of a plan";
    is(&told, 2, "", &format!("vempaldi: {said} (vempaldi plan --help says how)\n"));
}

/// With one dependence of distance -1 and one of distance 1. Both loops are shown, what makes the dependence marked.
#[test]
fn what_is_not_met_is_20_and_says_what_would_do() {
    let head = "examples/example.table: refused 20 unmet from loop 0 to loop 1: ";
    let (shift, peel) = ("for A0[i] -> A0[i+1], distance -1", "for A0[i] -> A0[i-1], distance 1");
    let first = "  loop 0, i = 1 to 10: A0[i] = A1[i] + 1\n                       ^^^^^\n";
    let second = "  loop 1, i = 1 to 10: A2[i] = A0[i-1] + A0[i+1]\n";
    let (left, right) = ("                               ^^^^^^^", "                                         ^^^^^^^");
    let both = "                               ^^^^^^^   ^^^^^^^";
    for (plan, said, marks) in [
        ("3 2\n3 3\n", format!("loop 1's shift is 3 and must be at least 4: loop 0's 3 plus 1 {shift}"), right),
        ("0 1\n1 1\n", format!("loop 1's peel is 1 and must be at least 2: loop 0's 1 plus 1 {peel}"), left),
        (
            "5 6\n1 0\n",
            format!(
                "loop 1's shift is 1 and must be at least 6: loop 0's 5 plus 1 {shift}; \
                 loop 1's peel is 0 and must be at least 7: loop 0's 6 plus 1 {peel}"
            ),
            both,
        ),
    ] {
        is(&planned(plan, &[]), 1, "", &format!("{head}{said}\n{first}{second}{marks}\n"));
        is(&planned(plan, &["--raw"]), 1, "refused 20 0 1\n", "");
        let object = planned(plan, &["--json"]).out;
        assert!(object.contains("\"number\":20,\"word\":\"unmet\",\"place\":0,\"named\":[1,0],\"message\":"), "{object}");
        assert!(object.contains(&said), "{object}");
    }
}

/// The refusals of a table come before, and those of P and W behind.
/// Loop 1 of the river's reach stores H in its second statement, which the first statement of loop 0 reads at -1 and 1; and Q in its first,
/// which the second of loop 0 reads at -1. The first dependence that asks for most is told.
#[test]
fn a_dependence_of_any_statement_is_told() {
    let told = fed(&["plan", "examples/reach.txt", "-p2", "--plan", "-"], b"0 0\n0 1\n");
    let said = "\
examples/reach.txt: refused 20 unmet from loop 0 to loop 1: loop 1's shift is 0 and must be at least 1: \
loop 0's 0 plus 1 for H[i-1] -> H[i], distance -1
\x20 loop 0, i = 1 to 198: QN[i] = Q[i] * 9 / 10 + (H[i-1] - H[i+1]) / 5; HN[i] = H[i] + (Q[i-1] - QN[i]) / 50
\x20                                                ^^^^^^
\x20 loop 1, i = 1 to 198: Q[i] = QN[i]; H[i] = HN[i]
\x20                                     ^^^^
";
    is(&told, 1, "", said);
}

#[test]
fn the_order_of_refusals_is_the_librarys() {
    let wrong = PlanFile::new("order.hand", "0 0\n");
    let unmet = PlanFile::new("order-unmet.hand", "0 0\n0 0\n");
    for command in ["plan", "run"] {
        let said = |plan: &PlanFile, file: &str, more: &[&str]| {
            fed(&[&[command, file, "--raw", "--plan", &plan.0], more].concat(), b"\x06").out
        };
        assert_eq!(said(&wrong, "-", &["-p65"]), "refused 2 0\n");
        assert_eq!(said(&wrong, EXAMPLE, &["-p65", "--line=0"]), "refused 19 0\n");
        assert_eq!(said(&unmet, EXAMPLE, &["-p65", "--line=0"]), "refused 20 0 1\n");
    }
    let memory = ["--memory", "@/dev/null"];
    let short = PlanFile::new("order-short.hand", "0 0\n5 1\n");
    let said = |more: &[&str]| run(&[&["run", EXAMPLE, "--raw", "--plan", &short.0], more, &memory].concat()).out;
    assert_eq!(said(&["-p65", "--line=0"]), "refused 10 0\n");
    assert_eq!(said(&["-p2", "--line=0"]), "refused 17 0\n");
    assert_eq!(said(&["-p2"]), "refused 11 0\n");
    assert_eq!(said(&["-p1"]), "refused 12 0\n");
}

/// 11 goes by the plan's own threshold, and the words say it.
#[test]
fn words_about_11_have_the_plans_threshold() {
    let head = "examples/example.table: refused 11 short: ";
    let told = fed(&["plan", EXAMPLE, "-p3", "--plan", "-"], b"0 0\n4 1\n");
    let said =
        "10 indices in 3 blocks leave a block of 3, the plan's threshold is 5; this plan is accepted for 2 processors at most";
    is(&told, 1, "", &format!("{head}{said}\n"));
    let told = fed(&["plan", EXAMPLE, "-p2", "--line=4", "--plan", "-"], b"0 0\n2 1\n");
    let said = "3 lines of 4 (10 indices) in 2 blocks leave a last block of 2, the plan's threshold is 3; \
                in such lines this plan is accepted for 1 processor at most";
    is(&told, 1, "", &format!("{head}{said}\n"));
    let told = fed(&["plan", EXAMPLE, "-p11", "--plan", "-"], b"0 0\n1 1\n");
    let said = "10 indices for 11 processors; this plan is accepted for 5 processors at most";
    is(&told, 1, "", &format!("{head}{said}\n"));
}

/// The numbers in a message, but for those in names.
fn numbers(words: &str) -> Vec<i64> {
    let word = |word: &str| word.trim_end_matches(['\'', 's', ':', ',', ';']).parse().ok();
    words.split(' ').filter_map(word).collect()
}

/// One number of a good plan is made too low, or some loop's so high that a later one is: which pair of loops is told, and which number would
/// do, follows from the second planner's dependences.
#[test]
fn words_about_20_hold_of_any_table() {
    let mut random = Random::new(71);
    let mut told = 0;
    for round in 0..600 {
        let table = tables::any(&mut random, &[SMALL, MIDDLE][round % 2]);
        let mut plan = met(&table, &mut random, 3);
        let at = random.between(0, plan.len() as i64 - 1) as usize;
        let number = if random.chance(1, 2) { &mut plan[at].0 } else { &mut plan[at].1 };
        *number = if random.chance(1, 2) { number.saturating_sub(1) } else { *number + 9 };
        let all = dependences(&table);
        let low = |one: &Dependence| {
            let (from, to) = (plan[one.from], plan[one.to]);
            i64::from(to.0) < i64::from(from.0) + one.backward() || i64::from(to.1) < i64::from(from.1) + one.forward()
        };
        let Some((from, to)) = all.iter().flatten().filter(|one| low(one)).map(|one| (one.from, one.to)).min() else { continue };
        let file = PlanFile::new("words.hand", text(&plan));
        let said = fed(&["plan", "-", "-p1", "--plan", &file.0], &encode(&table)).err;
        let line = said.lines().next().expect("a line");
        let words = line.strip_prefix(&format!("-: refused 20 unmet from loop {from} to loop {to}: ")).expect("the pair");
        for part in words.split("; ") {
            let pair = all[to].iter().filter(|one| one.from == from);
            let most = |amount: fn(&Dependence) -> i64| pair.clone().map(amount).max().expect("one");
            let shift = part.contains("'s shift is ");
            let (has, base, more) = match shift {
                true => (plan[to].0, plan[from].0, most(|one| one.backward())),
                false => (plan[to].1, plan[from].1, most(|one| one.forward())),
            };
            let (has, base) = (i64::from(has), i64::from(base));
            let found = numbers(part);
            let distance = *found.last().expect("a distance");
            assert_eq!(found, [to as i64, has, base + more, from as i64, base, more, distance], "{part}");
            assert_eq!(more, if shift { (-distance).max(0) } else { distance.max(0) }, "{part}");
            assert!(has < base + more, "{part}");
        }
        assert_eq!(said.lines().count(), 5, "{said}");
        told += 1;
    }
    assert!(told > 60, "{told}");
}

/// Lists, runs and the threshold go by the plan; a run in a drawn order ends as the plain run.
#[test]
fn accepted_plans_run_and_are_listed() {
    let mut random = Random::new(72);
    for round in 0..60 {
        let table = tables::aligned(&mut random, &[SMALL, MIDDLE][round % 2]);
        let (table_bytes, plan) = (encode(&table), met(&table, &mut random, 4));
        let file = PlanFile::new("run.hand", if round % 3 == 0 { plans::bytes(&plan) } else { text(&plan).into_bytes() });
        let (first, last) = (table.loops.iter().map(|one| one.first).min(), table.loops.iter().map(|one| one.last).max());
        let indices = last.expect("a loop") - first.expect("a loop") + 1;
        let most = (1..=64).rev().find(|&count| count == 1 || indices / count >= threshold(&plan).max(1)).expect("one");
        let count = random.between(1, i64::from(most)).to_string();
        let words = |command| [command, "-", "-p", &count, "--plan", &file.0];
        let listing = fed(&words("plan"), &table_bytes);
        assert_eq!((listing.status, listing.err.as_str()), (0, ""));
        let own = listing.out.lines().filter(|line| line.starts_with("loop "));
        let wanted = plan.iter().enumerate().map(|(k, (shift, peel))| format!("loop {k} {shift} {peel}"));
        assert_eq!(own.collect::<Vec<_>>(), wanted.collect::<Vec<_>>());
        let seed = format!("random:{round}");
        let ran = fed(&[&words("run")[..], &["--order", &seed, "--memory", &seed]].concat(), &table_bytes);
        assert_eq!((ran.status, ran.err.as_str()), (0, ""));
        assert!(
            ran.out.contains(" with a plan by hand, idle ") && ran.out.contains(": agrees with the plain run"),
            "{}",
            ran.out
        );
        let object = fed(&[&words("plan")[..], &["--json"]].concat(), &table_bytes).out;
        assert!(object.contains(&format!("\"threshold\":{},", threshold(&plan))), "{object}");
        if most < 64 {
            let more = (most + 1).to_string();
            assert_eq!(fed(&["plan", "--raw", "-", "-p", &more, "--plan", &file.0], &table_bytes).out, "refused 11 0\n");
        }
        // With one processor no threshold is too high.
        let file = PlanFile::new("highest.hand", text(&highest(&plan)));
        assert_eq!(fed(&["plan", "-", "-p1", "--plan", &file.0], &table_bytes).status, 0);
    }
}

/// What is written is the plan that is found, and as a plan by hand gives the same.
#[test]
fn a_written_plan_is_read_again() {
    let out = PlanFile::new("written.hand", "");
    let told = run(&["plan", EXAMPLE, "-p2", "--write-plan", &out.0]);
    assert_eq!((told.status, told.err.as_str()), (0, ""));
    let written = std::fs::read_to_string(&out.0).expect("written");
    let wanted = "# SHIFT PEEL of each loop of examples/example.table, in table order\n\
                  0 0         # loop 0, i = 1 to 10: A0[i] = A1[i] + 1\n\
                  1 1         # loop 1, i = 1 to 10: A2[i] = A0[i-1] + A0[i+1]\n";
    assert_eq!(written, wanted);
    for file in ["boundary.table", "coast.txt", "example.txt", "jacobi.table", "ll18.txt", "reach.table", "river.txt"]
        .map(|name| format!("examples/{name}"))
    {
        for more in [&[][..], &["--raw"], &["--json"]] {
            let found = run(&[&["plan", &file, "-p3", "--write-plan", &out.0], more].concat());
            let by_hand = run(&[&["plan", &file, "-p3", "--plan", &out.0], more].concat());
            assert_eq!((found.status, by_hand.status, by_hand.err.as_str()), (0, 0, ""), "{file}");
            assert_eq!(by_hand.out.replace("\"by_hand\":true", "\"by_hand\":false"), found.out, "{file}");
        }
    }
    // Statements that would make it longer than what is read of a plan are left out.
    let name = "A".repeat(30_000);
    let long = format!("array {name} 20\narray B 20\nloop 1 10 -> {name}[i]: 1\nloop 1 10 -> B[i]: {name}[i-1] {name}[i+1] +\n");
    assert_eq!(fed(&["plan", "-", "-p2", "--write-plan", &out.0], long.as_bytes()).status, 0);
    let short = std::fs::read_to_string(&out.0).expect("written");
    let wanted_short = "# SHIFT PEEL of each loop, in table order\n\
                        0 0         # loop 0, i = 1 to 10\n\
                        1 1         # loop 1, i = 1 to 10\n";
    assert_eq!(short, wanted_short);
    assert_eq!(fed(&["plan", "-", "-p2", "--plan", &out.0], long.as_bytes()).status, 0);
    // With --plan it is that plan, whatever its form was.
    let bytes = PlanFile::new("bytes.hand", [0, 0, 0, 0, 0, 0, 0, 0, 2, 0, 0, 0, 1, 0, 0, 0]);
    is(&run(&["plan", EXAMPLE, "-p2", "--plan", &bytes.0, "--write-plan", &out.0]), 0, LISTING, "");
    let again = std::fs::read_to_string(&out.0).expect("written");
    assert_eq!(again, wanted.replace("1 1         #", "2 1         #"));
}

#[test]
fn a_refused_plan_is_not_written() {
    let out = out_name("refused.hand");
    for words in [&[EXAMPLE, "-p6"][..], &[EXAMPLE, "-p2", "--plan", "/dev/null"], &["README.md", "-p2"], &["-", "-p2"]] {
        for more in [&[][..], &["--raw"], &["--json"]] {
            let told = fed(&[&["plan", "--write-plan", &out], words, more].concat(), b"loop");
            assert_eq!(told.status, 1, "{words:?}");
            assert!(!Path::new(&out).exists(), "{words:?}");
        }
    }
}

#[test]
fn what_cannot_be_done_is_a_usage_error() {
    let plan = PlanFile::new("usage.hand", "0 0\n1 1\n");
    let name = plan.0.as_str();
    let wrong = PlanFile::new("wrong.hand", "0 0\n\n1 -1\n");
    let hand = "examples/example.hand";
    for (words, said) in [
        (vec!["plan", EXAMPLE, EXAMPLE, "-p2", "--plan", hand], "--plan is for one file, not 2".to_string()),
        (vec!["run", EXAMPLE, EXAMPLE, "-p2", "--plan", hand], "--plan is for one file, not 2".to_string()),
        (vec!["plan", EXAMPLE, EXAMPLE, "-p2", "--write-plan", name], "--write-plan is for one file, not 2".to_string()),
        (vec!["plan", EXAMPLE, "-p2", "--write-plan", "-"], "--write-plan OUT must name a file".to_string()),
        (vec!["plan", EXAMPLE, "-p2", "--write-plan", name, "-o", "."], "--write-plan is not for -o DIR".to_string()),
        (vec!["plan", EXAMPLE, "-p2", "--plan", name, "--write-plan", name], format!("{name} is one of the files to read")),
        (vec!["run", EXAMPLE, "-p2", "--plan", name, "-o", name], format!("{name} is one of the files to read")),
        (vec!["draw", EXAMPLE, "-p2", "--plan", name, "-o", name], format!("{name} is one of the files to read")),
        (vec!["plan", "-", "-p2", "--plan", "-"], "the standard input can be read once only".to_string()),
        (vec!["run", EXAMPLE, "-p2", "--plan", "-", "--order", "@-"], "the standard input can be read once only".to_string()),
        (vec!["check", EXAMPLE, "--plan", name], "--plan is not for this command".to_string()),
        (vec!["draw", EXAMPLE, "-p2", "--write-plan", name], "--write-plan is not for this command".to_string()),
        (vec!["plan", EXAMPLE, "-p2", "--plan"], "--plan needs a value".to_string()),
        (vec!["plan", EXAMPLE, "--plan", name], "-p N is missing".to_string()),
        (vec!["plan", "-p2", "--plan", name], "no file".to_string()),
        (
            vec!["plan", EXAMPLE, "-p2", "--plan", &wrong.0],
            format!("{}:3: '-1' is no whole number; a line is SHIFT PEEL, two whole numbers", wrong.0),
        ),
    ] {
        let told = fed(&words, b"0 0\n1 1\n");
        is(&told, 2, "", &format!("vempaldi: {said} (vempaldi {} --help says how)\n", words[0]));
    }
    assert_eq!(std::fs::read_to_string(name).expect("there"), "0 0\n1 1\n");
    for absent in ["no-such-file", "examples"] {
        let told = run(&["plan", EXAMPLE, "-p2", "--plan", absent]);
        assert_eq!((told.status, told.out.as_str(), told.err.lines().count()), (2, "", 1));
        assert!(told.err.starts_with(&format!("vempaldi: {absent}: ")), "{}", told.err);
    }
    let told = run(&["plan", EXAMPLE, "-p2", "--write-plan", "no-such-directory/out"]);
    assert_eq!((told.status, told.out.as_str()), (2, ""));
}

/// `-o DIR` removes files of the tables' names first: not one that is read.
#[test]
fn a_plan_in_the_directory_of_outputs_is_not_removed() {
    let directory = out_name("by-hand");
    std::fs::create_dir(&directory).expect("made");
    let plan = format!("{directory}/example.plan");
    std::fs::write(&plan, bytes("examples/example.hand")).expect("written");
    let told = run(&["plan", EXAMPLE, "-p2", "--plan", &plan, "-o", &directory]);
    assert_eq!((told.status, told.out.as_str()), (2, ""));
    assert!(told.err.contains("example.plan is one of the files to read"), "{}", told.err);
    assert!(Path::new(&plan).exists());
    let told = run(&["plan", EXAMPLE, "-p2", "--plan", "examples/example.hand", "-o", &directory]);
    assert_eq!((told.status, std::fs::read_to_string(&plan).expect("written").as_str()), (0, LISTING));
    std::fs::remove_dir_all(&directory).expect("removed");
}
