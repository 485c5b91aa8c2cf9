//! What a new user may type: each message says what is wrong and what would be right, and the status is 1 for what is refused and 2 for
//! usage and input/output errors.

mod common;

use common::{bytes, fed, out_name, run, EXAMPLE};

#[test]
fn a_file_that_cannot_be_read_is_said_once() {
    for words in [&["check"][..], &["plan", "-p", "2"], &["run", "-p", "2"], &["dump"], &["make"], &["draw", "-p", "2"]] {
        for (name, why) in [("no-such-file", "No such file"), ("examples", "directory")] {
            let told = run(&[words, &[name]].concat());
            assert_eq!((told.status, told.out.as_str()), (2, ""), "{words:?}");
            assert!(told.err.starts_with(&format!("vempaldi: {name}: ")) && told.err.contains(why), "{}", told.err);
            assert_eq!(told.err.lines().count(), 1, "{}", told.err);
        }
    }
    let told = run(&["check", "no-such-file", EXAMPLE]);
    assert_eq!((told.status, told.err.lines().last()), (2, Some("2 files: 1 accepted, 0 refused, 1 not read")));
}

/// An output is not a file that could not be read.
#[test]
fn an_output_that_cannot_be_written_is_named_as_one() {
    for words in [&["run", EXAMPLE, "-p", "2"][..], &["join", EXAMPLE, EXAMPLE], &["draw", EXAMPLE, "-p", "2"]] {
        let told = run(&[words, &["-o", "no-such-directory/out"]].concat());
        assert_eq!(told.status, 2);
        assert!(told.err.starts_with("vempaldi: no-such-directory/out: No such file"), "{}", told.err);
        assert_eq!(told.err.lines().count(), 1, "{}", told.err);
    }
    assert!(run(&["join", EXAMPLE, EXAMPLE, "-o", ""]).err.starts_with("vempaldi: '': "));
}

#[test]
fn the_standard_input_is_read_once() {
    for words in [
        &["check", "-", "-"][..],
        &["plan", "-", "-", "-p", "2"],
        &["dump", "-", EXAMPLE, "-"],
        &["join", "-", "-"],
        &["run", "-", "-p", "2", "--memory", "@-"],
        &["run", EXAMPLE, "-p", "2", "--memory", "@-", "--order", "@-"],
    ] {
        let told = fed(words, &bytes(EXAMPLE));
        assert_eq!((told.status, told.out.as_str()), (2, ""), "{words:?}");
        assert!(told.err.contains("the standard input can be read once only"), "{}", told.err);
    }
    assert_eq!(fed(&["run", EXAMPLE, "-p", "2", "--order", "@-"], &[1, 1, 0]).status, 0);
}

#[test]
fn numbers_of_processors() {
    for word in ["abc", "", " 2", "2.0", "-1", "4294967296"] {
        let told = run(&["plan", EXAMPLE, "-p", word]);
        let said = format!("vempaldi: -p '{word}' is not a number of processors, 1 to 64");
        assert_eq!(told.status, 2);
        assert!(told.err.starts_with(&said), "{}", told.err);
    }
    for (word, number) in [("0", "10"), ("65", "10"), ("6", "11")] {
        let told = run(&["plan", EXAMPLE, "-p", word]);
        assert_eq!(told.status, 1);
        assert!(told.err.starts_with(&format!("{EXAMPLE}: refused {number} ")), "{}", told.err);
    }
    let one = run(&["run", EXAMPLE, "-p", "1"]);
    assert!(one.out.contains("20 iterations on 1 processor, idle 0"), "{}", one.out);
}

#[test]
fn lengths_of_lines() {
    for word in ["abc", "", " 2", "2.0", "-1", "4294967296"] {
        for command in ["plan", "run", "draw"] {
            let told = run(&[command, EXAMPLE, "-p2", "--line", word]);
            let said = format!("vempaldi: --line '{word}' is not a number of iterations, 1 to 64");
            assert_eq!((told.status, told.out.as_str()), (2, ""));
            assert!(told.err.starts_with(&said), "{}", told.err);
        }
    }
    for (word, number) in [("0", "17"), ("65", "17"), ("64", "11")] {
        let told = run(&["plan", EXAMPLE, "-p2", "--line", word]);
        assert_eq!(told.status, 1);
        assert!(told.err.starts_with(&format!("{EXAMPLE}: refused {number} ")), "{}", told.err);
    }
    for command in ["check", "join", "dump", "make"] {
        let told = run(&[command, EXAMPLE, "--line", "4"]);
        assert_eq!(told.status, 2);
        assert!(told.err.starts_with("vempaldi: --line is not for this command"), "{}", told.err);
    }
}

#[test]
fn an_order_may_name_any_byte_and_nothing_else() {
    let told = run(&["run", EXAMPLE, "-p", "2", "--order", "2,255,0,64"]);
    assert_eq!(told.status, 0);
    assert!(told.out.contains("idle 3: agrees"), "{}", told.out);
    for word in ["256", "-1", "", "0, 1", "1,", "random", "random:x", "Turns"] {
        let told = run(&["run", EXAMPLE, "-p", "2", "--order", word]);
        assert_eq!(told.status, 2);
        let said = format!("vempaldi: --order '{word}' is not one of turns, falling, none, random:SEED, ");
        assert!(told.err.starts_with(&said), "{}", told.err);
    }
}

#[test]
fn a_memory_is_whole_and_as_long_as_the_table_says() {
    let name = out_name("memory");
    let word = format!("@{name}");
    let words = ["run", EXAMPLE, "-p", "2", "--memory", &word];
    let said = [
        (36 * 8, 0, "agrees with the plain run, all 36 numbers"),
        (35 * 8, 1, "the memory has 35 numbers, the table 36 elements"),
        (37 * 8, 1, "the memory has 37 numbers, the table 36 elements"),
        (36 * 8 - 3, 2, "285 bytes, not a whole count of numbers of 8 bytes"),
        (36 * 8 + 1, 2, "289 bytes, not a whole count of numbers of 8 bytes"),
    ];
    for (length, status, said) in said {
        std::fs::write(&name, vec![0; length]).expect("written");
        let told = run(&words);
        assert_eq!(told.status, status, "{length}");
        assert!(told.out.contains(said) || told.err.contains(said), "{}{}", told.out, told.err);
    }
    std::fs::remove_file(&name).expect("removed");
    let told = run(&["run", EXAMPLE, "-p", "2", "--memory", "ones"]);
    assert!(told.err.contains("--memory 'ones' is not one of index, zero, random:SEED or @FILE"), "{}", told.err);
}

#[test]
fn what_is_neither_text_nor_table_is_said_so() {
    for words in [&["check"][..], &["plan", "-p", "2"], &["run", "-p", "2"], &["draw", "-p", "2"], &["join", EXAMPLE]] {
        let told = run(&[words, &["README.md"]].concat());
        assert_eq!(told.status, 1);
        let said = told.out + &told.err;
        let hint =
            "kind 35, allowed are 1 to 7 (this looks like text, but begins with 'Vempaldi' and not with 'array' or 'loop')\n";
        assert!(said.contains("refused 2 kind") && said.ends_with(hint), "{said}");
    }
    let told = run(&["make", EXAMPLE]);
    assert_eq!((told.status, told.out.as_str()), (1, ""));
    assert!(told.err.starts_with("examples/example.table: this is a table, not a text"), "{}", told.err);
    assert!(!fed(&["check", "-"], &[8, 1]).out.contains("text"));
    assert!(fed(&["check", "-"], b"# nothing\n").out.ends_with("(this looks like text, but has no 'array' or 'loop')\n"));
}

#[test]
fn a_wrong_text_is_named_by_line_and_word() {
    let long = "x".repeat(5_000);
    for (text, said) in [
        ("", "-:1:1: refused 2 kind at record 0 (end), byte 0: the end comes before any array\n"),
        (long.as_str(), "-:1:1: 'xxxxxxxxxxxxxxxxxxxxxxxxxxxxxxxxxxxxxxxx..' where a line begins with 'array' or 'loop'\n"),
        ("\u{1b}[2J", "-:1:1: '\\u{1b}[2J' where a line begins with 'array' or 'loop'\n   [2J\n"),
        ("array A 12\nloop 1 10 -> A[i]: A[i]+1", "-:2:20: 'A[i]+1' is no item"),
        (
            "array A 12\nloop 1 10 -> A[i]: 1.5",
            "-:2:20: '1.5' is not a whole number up to 4294967295; a fraction is a division: 3 2 /\n",
        ),
        ("array A 12\nloop 1 10 -> A[i + 1]: 1", "-:2:17: ' + 1' is not an offset: +3 or -3\n"),
        ("array A 12\nloop 1 20 -> A[i]: 1", "-:2:14: refused 7 edge"),
    ] {
        let told = fed(&["make", "-"], text.as_bytes());
        assert_eq!((told.status, told.out.as_str()), (1, ""));
        assert!(told.err.starts_with(said), "{}", told.err);
    }
}

#[test]
fn wrong_words_are_named() {
    for (words, said, help) in [
        (&[][..], "no command is given; there are check, plan, join, run, dump, make and draw", ""),
        (&["chek", EXAMPLE], "no command 'chek' (is check meant?); there are check, plan, ", ""),
        (&["paln", "--help"], "no command 'paln' (is plan meant?); there are check, plan, ", ""),
        (&["help", "mkae"], "no command 'mkae' (is make meant?); there are check, plan, ", ""),
        (&["frobnicate"], "no command 'frobnicate'; there are check, plan, ", ""),
        (&["--version", "check"], "--version stands alone", ""),
        (&["check"], "no file", "check "),
        (&["check", "-v", EXAMPLE], "no option '-v'", "check "),
        (&["plan", EXAMPLE, "-p", "2", "--jsno"], "no option '--jsno'; is --json meant?", "plan "),
        (&["plan", EXAMPLE, "-p", "2", "--lien", "4"], "no option '--lien'; is --line meant?", "plan "),
        (&["plan", EXAMPLE, "-p2", "--line"], "--line needs a value", "plan "),
        (&["plan", EXAMPLE, "-p2", "--line=4", "--line=4"], "--line is given twice", "plan "),
        (&["plan", EXAMPLE, "--line", "4"], "-p N is missing", "plan "),
        (&["check", EXAMPLE, "-p", "2"], "-p is not for this command", "check "),
        (&["plan", EXAMPLE], "-p N is missing", "plan "),
        (&["plan", EXAMPLE, "-p"], "-p needs a value", "plan "),
        (&["plan", EXAMPLE, "-p2", "-p", "2"], "-p is given twice", "plan "),
        (&["check", "-q", EXAMPLE, "-q"], "-q is given twice", "check "),
        (&["run", EXAMPLE, "-p2", "--order=none", "--order", "turns"], "--order is given twice", "run "),
        (&["check", "--raw=1", EXAMPLE], "--raw has no value", "check "),
        (&["check", "-q1", EXAMPLE], "no option '-q1'", "check "),
        (&["join", EXAMPLE], "join takes two files", "join "),
        (&["draw", EXAMPLE, EXAMPLE, "-p", "2"], "one file, not 2", "draw "),
    ] {
        let told = run(words);
        assert_eq!((told.status, told.out.as_str()), (2, ""), "{words:?}");
        assert!(told.err.starts_with(&format!("vempaldi: {said}")), "{}", told.err);
        assert!(told.err.ends_with(&format!(" (vempaldi {help}--help says how)\n")), "{}", told.err);
    }
}

/// A value may stand in the option's own word.
#[test]
fn options_have_their_values_in_either_form() {
    let listing = run(&["plan", EXAMPLE, "-p", "2"]);
    assert_eq!(listing.status, 0);
    assert_eq!(run(&["plan", EXAMPLE, "-p2"]).out, listing.out);
    assert_eq!(run(&["plan", "-p2", "--", EXAMPLE]).out, listing.out);
    let run_with = |words: &[&str]| run(&[&["run", EXAMPLE, "-p2"], words].concat()).out;
    assert!(run_with(&["--order=2,255"]).contains(" idle 2:"));
    assert_eq!(run_with(&["--order=2,255"]), run_with(&["--order", "2,255"]));
    assert_eq!(run_with(&["--memory=zero", "--values"]), run_with(&["--values", "--memory", "zero"]));
    let name = out_name("attached");
    assert_eq!(run(&["join", EXAMPLE, EXAMPLE, &format!("-o{name}")]).status, 0);
    assert_eq!(std::fs::read(&name).expect("written").len(), 106);
    std::fs::remove_file(&name).expect("removed");
    // A value is taken as it is, also one that looks like an option.
    assert!(run(&["plan", EXAMPLE, "-p", "-o"]).err.starts_with("vempaldi: -p '-o' is not a number of processors"));
    assert!(run(&["run", EXAMPLE, "-p2", "--order="]).err.starts_with("vempaldi: --order '' is not one of"));
}

#[cfg(unix)]
#[test]
fn a_word_that_is_no_text_is_an_error_and_no_panic() {
    use std::os::unix::ffi::OsStrExt;
    let word = std::ffi::OsStr::from_bytes(&[0xFF, 0xFE]);
    let output = std::process::Command::new(env!("CARGO_BIN_EXE_vempaldi")).arg("check").arg(word).output().expect("ran");
    assert_eq!(output.status.code(), Some(2));
    assert_eq!(String::from_utf8_lossy(&output.stderr), "vempaldi: \"\\xFF\\xFE\" is not UTF-8 (vempaldi --help says how)\n");
}

const COMMANDS: [&str; 7] = ["check", "plan", "join", "run", "dump", "make", "draw"];

#[test]
fn every_help_fits_a_terminal_of_100_columns() {
    let own = COMMANDS.map(|command| vec![command, "--help"]);
    for words in [vec!["--help"], vec!["-h"], vec!["help"]].into_iter().chain(own) {
        let told = run(&words);
        assert_eq!((told.status, told.err.as_str()), (0, ""));
        for line in told.out.lines() {
            assert!(line.chars().count() <= 100, "{line}");
        }
    }
}

/// A command's own help begins with how it is called, says each of its options, and nothing of the others'.
#[test]
fn every_command_has_a_help_of_its_own() {
    let all = [
        ("check", &["-q", "--raw"][..]),
        ("plan", &["-p N", "--line W", "-o DIR", "--json", "--raw"]),
        ("join", &["-o OUT", "--raw"]),
        ("run", &["-p N", "--line W", "-o OUT", "--order", "--memory", "--values", "--raw", "random:SEED"]),
        ("dump", &["--raw"]),
        ("make", &["-o OUT", "--raw", "array H 100"]),
        ("draw", &["-p N", "--line W", "-o OUT", "--raw"]),
    ];
    let whole = run(&["--help"]).out;
    for (command, says) in all {
        let told = run(&[command, "--help"]);
        assert!(told.status == 0 && told.out.starts_with(&format!("vempaldi {command} ")), "{}", told.out);
        for said in says {
            assert!(told.out.contains(said) && whole.contains(said), "{command}: {said}");
        }
        assert_eq!(told.out.contains("random:SEED"), command == "run");
        assert_eq!(told.out.contains("--line"), told.out.contains("-p N"), "{command}");
        assert_eq!(told.out.contains("array H 100"), ["dump", "make"].contains(&command));
        assert!(told.out.contains("Exit status: 0 ") && told.out.contains("refused NUMBER PLACE"), "{command}");
        // Wherever it stands, but not behind `--`, where it is a file.
        for words in [&["help", command][..], &[command, "-h"], &[command, "file", "-p", "--help"]] {
            assert_eq!(run(words).out, told.out, "{words:?}");
        }
        assert_eq!(run(&[command, "--", "--help"]).status, 2);
    }
}

#[test]
fn the_version_is_the_commands_and_the_librarys() {
    let told = run(&["--version"]);
    let number = env!("CARGO_PKG_VERSION");
    assert_eq!((told.status, told.out), (0, format!("vempaldi {number}\nlibrary {number}\n")));
}

/// A name of a file that holds these bytes; the file is removed at the end.
struct Kept(String, Vec<u8>);

impl Kept {
    fn new(name: &str, bytes: Vec<u8>) -> Kept {
        let name = out_name(name);
        std::fs::write(&name, &bytes).expect("written");
        Kept(name, bytes)
    }

    fn is_as_before(&self) -> bool {
        std::fs::read(&self.0).expect("there") == self.1
    }
}

impl Drop for Kept {
    fn drop(&mut self) {
        std::fs::remove_file(&self.0).ok();
    }
}

/// A usage error, with and without --raw, before anything is written.
fn keeps(words: &[&str], kept: &Kept, out: &str) {
    for more in [&[][..], &["--raw"]] {
        let told = fed(&[words, &["-o", out], more].concat(), b"");
        let said = format!("vempaldi: {out} is one of the files to read (vempaldi {} --help says how)\n", words[0]);
        assert_eq!((told.status, told.out.as_str(), told.err), (2, "", said), "{words:?}");
        assert!(kept.is_as_before(), "{words:?}");
    }
}

#[test]
fn an_output_is_none_of_the_files_to_read() {
    let (text, table) = (Kept::new("own.txt", bytes("examples/example.txt")), Kept::new("own.table", bytes(EXAMPLE)));
    let memory = Kept::new("own.memory", vec![0; 36 * 8]);
    let at_memory = format!("@{}", memory.0);
    keeps(&["make", &text.0], &text, &text.0);
    keeps(&["join", &table.0, EXAMPLE], &table, &table.0);
    keeps(&["join", EXAMPLE, &table.0], &table, &table.0);
    keeps(&["draw", &table.0, "-p2"], &table, &table.0);
    keeps(&["run", &table.0, "-p2"], &table, &table.0);
    keeps(&["run", EXAMPLE, "-p2", "--memory", &at_memory], &memory, &memory.0);
    keeps(&["run", EXAMPLE, "-p2", "--order", &at_memory], &memory, &memory.0);
    // A file that is not there yet, a device and the standard output are none.
    let fresh = out_name("own.fresh");
    assert_eq!(run(&["make", &text.0, "-o", &fresh]).status, 0);
    assert_eq!(run(&["join", &table.0, &table.0, "-o", &fresh]).status, 0);
    std::fs::remove_file(&fresh).expect("removed");
    let device = ["run", EXAMPLE, "-p2", "--order", "@/dev/null", "-o", "/dev/null"];
    assert_eq!(run(&device).status, 0);
    assert_eq!(run(&["draw", &table.0, "-p2", "-o", "-"]).status, 0);
    assert!(table.is_as_before() && text.is_as_before());
}

/// Under another name it is the same file, and as the standard input too.
#[cfg(unix)]
#[test]
fn an_output_is_none_of_the_files_to_read_by_any_name() {
    let table = Kept::new("many-names.table", bytes(EXAMPLE));
    let (soft, hard) = (out_name("many-names.soft"), out_name("many-names.hard"));
    std::os::unix::fs::symlink(&table.0, &soft).expect("linked");
    std::fs::hard_link(&table.0, &hard).expect("linked");
    for name in [&soft, &hard] {
        keeps(&["join", &table.0, EXAMPLE], &table, name);
        keeps(&["draw", name, "-p2"], &table, &table.0);
    }
    let mut command = std::process::Command::new(env!("CARGO_BIN_EXE_vempaldi"));
    let input = std::fs::File::open(&table.0).expect("there");
    let output = command.args(["draw", "-", "-p2", "-o", &table.0]).stdin(input).output().expect("ran");
    assert_eq!(output.status.code(), Some(2));
    assert!(table.is_as_before());
    for name in [soft, hard] {
        std::fs::remove_file(name).expect("removed");
    }
}

/// A text of several tables stays one whatever the files are called.
#[test]
fn a_line_feed_in_a_name_does_not_break_a_dump() {
    let odd = Kept::new("a\nloop 'b'.table", bytes(EXAMPLE));
    let told = run(&["dump", &odd.0, EXAMPLE]);
    assert_eq!(told.status, 0);
    let heads: Vec<&str> = told.out.lines().filter(|line| line.starts_with("# ") && line.contains("table")).collect();
    assert_eq!(heads.len(), 2, "{}", told.out);
    assert!(heads[0].ends_with("a\\nloop 'b'.table'") && heads[0].starts_with("# '"), "{}", heads[0]);
    assert_eq!(heads[1], "# examples/example.table");
    // Without the comments it is the text of one table twice.
    let plain = |text: &str| -> String { text.split_inclusive('\n').filter(|line| !line.starts_with('#')).collect() };
    assert_eq!(plain(&told.out), plain(&run(&["dump", EXAMPLE]).out).repeat(2));
}

/// Who has the tree finds the documents there, and who has installed it below the directory of installation.
#[test]
fn help_says_where_the_documents_are() {
    let documents = [
        (&["--help"][..], "REFUSALS.md"),
        (&["check", "--help"], "REFUSALS.md"),
        (&["--help"], "plan.schema.json"),
        (&["plan", "--help"], "plan.schema.json"),
    ];
    for (words, document) in documents {
        let help = run(words).out.replace('\n', " ");
        assert!(help.contains(document), "{words:?}");
        assert!(help.contains("in docs of the source tree, installed in share/doc/vempaldi"), "{words:?}: {help}");
        assert!(!help.contains(&format!("docs/{document}")), "{words:?}");
        bytes(&format!("docs/{document}"));
    }
}
