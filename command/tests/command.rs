//! What each command does. What is expected is typed from docs/TABLE.md, and for LL18 and Jacobi from the thesis named there, which gives their shifts,
//! peels and sweeps.

mod common;

use common::{bytes, fed, out_name, run, EXAMPLE};

#[test]
fn plan_prints_the_examples_listing() {
    let told = run(&["plan", EXAMPLE, "-p", "2"]);
    let listing = "loop 0 0 0\nloop 1 1 1\nblock 0 1 5\nblock 1 6 10\nfused 0 0 1 5\nfused 0 1 1 4\n\
                   fused 1 0 6 10\nfused 1 1 7 10\npeeled 0 1 5 6\nsweeps 6 5\n";
    assert_eq!((told.status, told.out.as_str(), told.err.as_str()), (0, listing, ""));
}

#[test]
fn a_table_may_come_from_the_standard_input() {
    let told = fed(&["check", "-"], &bytes(EXAMPLE));
    assert_eq!((told.status, told.out.as_str()), (0, "-: accepted\n"));
}

#[test]
fn six_processors_are_refused_in_words() {
    let told = run(&["plan", EXAMPLE, "-p", "6"]);
    assert_eq!((told.status, told.out.as_str()), (1, ""));
    assert!(told.err.contains("refused 11 short"), "{}", told.err);
    assert!(told.err.contains("5 processors at most"), "{}", told.err);
    assert_eq!(run(&["plan", EXAMPLE, "-p", "5"]).status, 0);
    assert!(run(&["plan", EXAMPLE, "-p", "65"]).err.contains("refused 10 processors"));
}

#[test]
fn a_refusal_names_file_record_and_byte() {
    let table = bytes(EXAMPLE);
    let told = fed(&["check", "-"], &table[..60]);
    assert_eq!(told.status, 1);
    assert!(told.out.starts_with("-: refused 1 torn at record 11 (absent), byte 60"), "{}", told.out);
    // The read A0[i-1] made into A9[i-1]: records are 3 arrays, a loop, 3 items, a loop, then this one.
    let mut no_array = table.clone();
    no_array[51] = 9;
    let told = fed(&["check", "-"], &no_array);
    assert!(told.out.starts_with("-: refused 5 array at record 8 (read), byte 50"), "{}", told.out);
    let told = fed(&["check", "-"], &[&table[..], &[0]].concat());
    assert!(told.out.starts_with("-: refused 8 tail at byte 61"), "{}", told.out);
}

#[test]
fn meeting_iterations_are_named_by_loop_and_references() {
    // 1 to 10, A0 of 21 elements, A0[i] = A0[i+9].
    let text = b"array A 21\nloop 1 10 -> A[i]: A[i+9]\n";
    let told = fed(&["make", "-"], text);
    assert_eq!(told.status, 1);
    let said = "-:2:20: refused 9 serial at loop 0, references 0 (record 1, byte 5) and 1 (record 2, byte 17)";
    assert!(told.err.starts_with(said), "{}", told.err);
    assert_eq!(fed(&["make", "-"], b"array A 21\nloop 1 10 -> A[i]: A[i+10]\n").status, 0);
}

#[test]
fn make_gives_the_examples_bytes_and_names_wrong_lines() {
    for name in ["boundary", "coast", "example", "jacobi", "ll18", "reach", "river"] {
        let out = out_name(name);
        assert_eq!(run(&["make", &format!("examples/{name}.txt"), "-o", &out]).status, 0);
        assert_eq!(std::fs::read(&out).expect("written"), bytes(&format!("examples/{name}.table")));
        std::fs::remove_file(&out).expect("removed");
    }
    let told = fed(&["make", "-"], b"array A 12\n\nloop 1 10 -> A[i]: B[i]\n");
    assert_eq!(
        (told.status, told.err.as_str()),
        (1, "-:3:20: no array 'B'; there is A\n  loop 1 10 -> A[i]: B[i]\n                     ^\n")
    );
    let told = fed(&["make", "-"], b"array A 12\nloop 1 10 -> A[i]:\n  1\n  +\n");
    assert!(told.err.starts_with("-:4:3: refused 6 body"), "{}", told.err);
}

#[test]
fn kernels_have_the_shifts_and_peels_of_the_thesis() {
    // Its loop nests have two statements each, here a loop each: 0/0, 1/0, 2/1; afterwards 9 arrays read and 6 written.
    let out = run(&["plan", "examples/ll18.table", "-p", "4"]).out;
    let loops = "loop 0 0 0\nloop 1 0 0\nloop 2 1 0\nloop 3 1 0\nloop 4 2 1\nloop 5 2 1\n";
    assert!(out.starts_with(loops) && out.ends_with(" 15\n"), "{out}");
    // 1/1; 4 read and 2 written before, 2 and 2 after.
    let out = run(&["plan", "examples/jacobi.table", "-p", "4"]).out;
    assert!(out.starts_with("loop 0 0 0\nloop 1 1 1\n") && out.ends_with("sweeps 6 4\n"), "{out}");
}

/// How the plan for one processor begins: each loop with its shift and its peel.
fn begins(text: &str, lines: &str) {
    let told = fed(&["plan", "-", "-p", "1"], text.as_bytes());
    assert!(told.out.starts_with(lines), "{text}{}{}", told.out, told.err);
}

/// One loop, from 5 to 9, reads A[i+2], so A[7] to A[11]. The other stores A[i]: up to 6 is not far enough and from 12 on is too far; 7 and 11
/// are the first and the last that are read; and where either loop goes further on both sides, only iterations between its ends meet.
#[test]
fn loops_that_never_meet_have_no_shift_for_each_other() {
    let arrays = "array A 30\narray B 30\n";
    for (first, last, amount) in [(1, 6, 0), (1, 7, 2), (1, 20, 2), (9, 10, 2), (11, 20, 2), (12, 20, 0)] {
        let (stores, reads) = (format!("loop {first} {last} -> A[i]: 1\n"), "loop 5 9 -> B[i]: A[i+2]\n");
        begins(&format!("{arrays}{stores}{reads}"), &format!("loop 0 0 0\nloop 1 {amount} 0\nblock "));
        begins(&format!("{arrays}{reads}{stores}"), &format!("loop 0 0 0\nloop 1 0 {amount}\nblock "));
    }
}

/// The upper end, H[0], is read as H[i-4] in iteration 4 of loop 1 and never as H[i+4]; the lower end, iteration 199, reads what iteration 195
/// of loop 2 stores. 200 indices are 25 blocks of 8.
#[test]
fn the_ends_of_a_reach_shift_no_loop() {
    let told = run(&["plan", "examples/boundary.table", "-p", "25"]);
    assert!(told.out.starts_with("loop 0 0 0\nloop 1 0 4\nloop 2 0 4\nloop 3 0 8\nblock 0 0 7\n"), "{}{}", told.out, told.err);
    let told = run(&["plan", "examples/boundary.table", "-p", "26"]);
    let why = "200 indices in 26 blocks leave a block of 7, the threshold is 8; there is a plan for 25 processors at most";
    assert_eq!((told.status, told.err), (1, format!("examples/boundary.table: refused 11 short: {why}\n")));
}

/// Ten indices from 1 on are the lines 1 to 4, 5 to 8 and 9 to 10.
#[test]
fn blocks_begin_on_whole_lines() {
    let listing = "loop 0 0 0\nloop 1 1 1\nblock 0 1 8\nblock 1 9 10\nfused 0 0 1 8\nfused 0 1 1 7\n\
                   fused 1 0 9 10\nfused 1 1 10 10\npeeled 0 1 8 9\nsweeps 6 5\n";
    for words in [&["--line", "4"][..], &["--line=4"]] {
        let told = run(&[&["plan", EXAMPLE, "-p2"], words].concat());
        assert_eq!((told.status, told.out.as_str(), told.err.as_str()), (0, listing, ""));
    }
    let blocks = |count: &str, line: &str| {
        let told = run(&["plan", EXAMPLE, "-p", count, "--line", line]);
        let own: Vec<&str> = told.out.lines().filter_map(|line| line.strip_prefix("block ")).collect();
        own.join(", ")
    };
    assert_eq!(blocks("3", "4"), "0 1 4, 1 5 8, 2 9 10");
    assert_eq!(blocks("2", "5"), "0 1 5, 1 6 10");
    assert_eq!(blocks("1", "64"), "0 1 10");
    assert_eq!(run(&["plan", EXAMPLE, "-p2", "--line", "1"]).out, run(&["plan", EXAMPLE, "-p2"]).out);
}

/// By how many lines there are, by the last block where it is cut, and by the length itself.
#[test]
fn lines_are_refused_in_words() {
    for (count, line, said) in [
        (
            "4",
            "4",
            "11 short: 3 lines of 4 (10 indices) for 4 processors; in such lines there is a plan for 3 processors at most",
        ),
        (
            "2",
            "64",
            "11 short: 1 line of 64 (10 indices) for 2 processors; in such lines there is a plan for 1 processor at most",
        ),
        (
            "2",
            "9",
            "11 short: 2 lines of 9 (10 indices) in 2 blocks leave a last block of 1, the threshold is 2; \
             in such lines there is a plan for 1 processor at most",
        ),
        (
            "6",
            "1",
            "11 short: 10 indices in 6 blocks leave a block of 1, the threshold is 2; there is a plan for 5 processors at most",
        ),
        ("2", "0", "17 line: W is 0, allowed are 1 to 64"),
        ("6", "65", "17 line: W is 65, allowed are 1 to 64"),
        ("65", "65", "10 processors: P is 65, allowed are 1 to 64"),
    ] {
        for command in ["plan", "run", "draw"] {
            let told = run(&[command, EXAMPLE, "-p", count, "--line", line]);
            assert_eq!((told.status, told.out.as_str(), told.err), (1, "", format!("{EXAMPLE}: refused {said}\n")), "{command}");
        }
    }
}

const TABLES: [&str; 7] = [
    EXAMPLE,
    "examples/boundary.table",
    "examples/coast.table",
    "examples/jacobi.table",
    "examples/ll18.table",
    "examples/reach.txt",
    "examples/river.table",
];

/// Where there is a plan: lines may be too few, or leave a last block that is too short.
#[test]
fn run_agrees_with_the_plain_run_for_every_line() {
    let all = TABLES;
    let mut agree = 0;
    for line in 1..=64 {
        let line = line.to_string();
        for words in [&["--order", "random:3", "-p1"][..], &["--order", "falling", "-p2"], &["--order", "random:9", "-p3"]] {
            let told = run(&[&["run", "--line", &line, "--memory", "random:5"], words, &all].concat());
            let (good, short) = (told.out.matches("bit for bit").count(), told.err.matches(": refused 11 short: ").count());
            assert_eq!(good + short, all.len(), "{line} {words:?}: {}{}", told.out, told.err);
            agree += good;
        }
    }
    assert!(agree > 64 * 3 * 6, "{agree}");
    let told = run(&["run", EXAMPLE, "-p2", "--line", "4", "--order", "none"]);
    assert!(told.out.contains(": 20 iterations on 2 processors in lines of 4, idle 0: agrees"), "{}", told.out);
}

#[test]
fn run_agrees_with_the_plain_run_in_every_order() {
    let all = TABLES;
    for order in ["turns", "falling", "none", "random:1", "3,3,3,3,0,255", "@examples/river.txt"] {
        for memory in ["index", "zero", "random:5"] {
            let words = [&["run", "-p", "4", "--order", order, "--memory", memory], &all[..]].concat();
            let told = run(&words);
            assert_eq!(told.status, 0, "{}", told.out);
            assert_eq!(told.out.matches("bit for bit").count(), 7);
            assert_eq!(told.err, "7 files: 7 agree, 0 refused or different\n");
        }
    }
}

#[test]
fn run_leaves_the_known_values_and_counts_idle_bytes() {
    let words = ["run", EXAMPLE, "-p", "2", "--values", "--order", "1,1,1,1,1,1,1,1,1,1,1,1"];
    let told = run(&words);
    for line in ["A2[1] 3", "A2[5] 12", "A2[10] 21"] {
        assert!(told.out.lines().any(|found| found == line), "{}", told.out);
    }
    // Processor 1 has nine fused iterations and then waits.
    assert!(told.out.contains("20 iterations on 2 processors, idle 3:"), "{}", told.out);
}

#[test]
fn a_memory_of_the_wrong_length_is_refused() {
    let told = run(&["run", EXAMPLE, "-p", "2", "--memory", "@examples/river.txt"]);
    assert_eq!(told.status, 1);
    assert!(told.err.contains("refused 12 memory"), "{}", told.err);
}

#[test]
fn join_puts_the_loops_behind_each_other() {
    let out = out_name("joined");
    assert_eq!(run(&["join", EXAMPLE, EXAMPLE, "-o", &out]).status, 0);
    let table = bytes(EXAMPLE);
    assert_eq!(std::fs::read(&out).expect("written"), [&table[..60], &table[15..]].concat());
    std::fs::remove_file(&out).expect("removed");
    let told = run(&["join", EXAMPLE, "examples/river.table"]);
    assert_eq!(told.status, 1);
    assert!(told.err.contains("refused 14 unlike"), "{}", told.err);
    let told = run(&["join", EXAMPLE, "README.md"]);
    assert!(told.err.starts_with("README.md: refused"), "{}", told.err);
}

#[test]
fn several_files_are_counted_and_the_worst_decides() {
    let told = run(&["check", EXAMPLE, "README.md"]);
    assert_eq!((told.status, told.err.as_str()), (1, "2 files: 1 accepted, 1 refused\n"));
    let told = run(&["check", "-q", EXAMPLE, "examples/no-such-file", "README.md"]);
    assert_eq!(told.status, 2);
    assert_eq!(told.out.lines().count(), 1);
    assert!(told.err.contains("examples/no-such-file: ") && told.err.contains("1 not read"), "{}", told.err);
}

#[test]
fn help_names_every_command_and_wrong_words_end_with_2() {
    let told = run(&["--help"]);
    assert_eq!(told.status, 0);
    for command in ["check", "plan", "join", "run", "dump", "make", "draw"] {
        assert!(told.out.contains(&format!("vempaldi {command} ")), "{command}");
    }
    for words in [&[][..], &["plan", EXAMPLE], &["plan", EXAMPLE, "-p", "x"], &["fly"], &["check", "--loud", EXAMPLE]] {
        assert_eq!(run(words).status, 2, "{words:?}");
    }
}
