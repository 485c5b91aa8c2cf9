//! `--raw`: what scripts read. The standard output has the library's answers and nothing else, byte for byte; the standard error has
//! nothing at all where there is no usage or input/output error. What is expected is typed from docs/TABLE.md.

mod common;

use common::{bytes, fed, out_name, run, Told, EXAMPLE};
use std::path::Path;
use vempaldi_checks::encoder::Encoder;

const ADD: u8 = 1;

/// The listing of the example on two processors.
const LISTING: &str = "loop 0 0 0\nloop 1 1 1\nblock 0 1 5\nblock 1 6 10\nfused 0 0 1 5\nfused 0 1 1 4\n\
                       fused 1 0 6 10\nfused 1 1 7 10\npeeled 0 1 5 6\nsweeps 6 5\n";

/// A0[i] = A1[i] + (A0[i] + A0[i-1]): of the three reads the last one meets another iteration.
fn serial() -> Vec<u8> {
    let open = Encoder::new().array(12).array(12).a_loop(1, 10, 0, 0);
    open.read(1, 0).read(0, 0).read(0, -1).operation(ADD).operation(ADD).end().bytes
}

fn is(told: &Told, status: i32, out: &str) {
    assert_eq!((told.status, told.out.as_str(), told.err.as_str()), (status, out, ""));
}

/// A name for an output, which is not there before and not left behind.
struct Output(String);

impl Output {
    fn new(name: &str) -> Output {
        Output(out_name(&format!("raw-{name}")))
    }

    fn read(&self) -> Vec<u8> {
        std::fs::read(&self.0).expect("written")
    }

    fn is_absent(&self) -> bool {
        !Path::new(&self.0).exists()
    }
}

impl Drop for Output {
    fn drop(&mut self) {
        std::fs::remove_file(&self.0).ok();
    }
}

#[test]
fn check_says_accepted_or_the_refusals_numbers() {
    is(&run(&["check", "--raw", EXAMPLE]), 0, "accepted\n");
    is(&run(&["check", EXAMPLE, "--raw"]), 0, "accepted\n");
    is(&fed(&["check", "--raw", "-"], &bytes(EXAMPLE)), 0, "accepted\n");
    is(&fed(&["check", "--raw", "-"], &serial()), 1, "refused 9 0 0 3\n");
    is(&run(&["check", "--raw", "-q", EXAMPLE]), 0, "");
    is(&fed(&["check", "--raw", "-q", "-"], &serial()), 1, "refused 9 0 0 3\n");
}

/// The smallest tables of docs/REFUSALS.md.
#[test]
fn every_ground_of_reading_has_its_number_and_its_place() {
    let new = Encoder::new;
    let stored = || new().array(1).a_loop(0, 0, 0, 0);
    for (table, line) in [
        (new(), "refused 1 0\n"),
        (new().array(1).raw(&[2, 0]), "refused 1 5\n"),
        (stored().constant(1), "refused 1 22\n"),
        (new().end(), "refused 2 0\n"),
        (new().array(0), "refused 3 0\n"),
        (new().repeat(4, |table| table.array(65_536)).array(1), "refused 4 20\n"),
        (new().a_loop(0, 0, 0, 0), "refused 5 0\n"),
        (stored().end(), "refused 6 17\n"),
        (new().array(1).a_loop(0, 1, 0, 0), "refused 7 5\n"),
        (stored().read(0, 0).end().raw(&[0]), "refused 8 22\n"),
        (new().array(3).a_loop(0, 1, 0, 0).read(0, 1).end(), "refused 9 0 0 1\n"),
        (new().array(1).statement(0, 0), "refused 2 5\n"),
        (stored().statement(0, 0), "refused 6 17\n"),
        (stored().repeat(4, |table| table.constant(1).statement(0, 0)), "refused 4 49\n"),
        (stored().constant(1).raw(&[7, 0, 0]), "refused 1 22\n"),
        (stored().constant(1).statement(1, 256), "refused 5 22\n"),
        (stored().constant(1).statement(0, 256), "refused 3 22\n"),
        (stored().constant(1).statement(0, 1), "refused 7 22\n"),
        (new().array(3).a_loop(0, 1, 0, 0).constant(1).statement(0, 1).constant(1).end(), "refused 9 0 0 1\n"),
    ] {
        for command in ["check", "dump"] {
            is(&fed(&[command, "--raw", "-"], &table.bytes), 1, line);
        }
        for command in ["plan", "run"] {
            is(&fed(&[command, "--raw", "-", "-p", "1"], &table.bytes), 1, line);
        }
    }
}

/// 9 has the loop and then two of its references, all from 0: here the destination and the fourth read. The others have no third number, and no 0
/// for it.
#[test]
fn nine_names_loop_and_references() {
    let first = Encoder::new().array(40).array(40).a_loop(10, 19, 0, 0).read(1, 0);
    let second = first.a_loop(10, 19, 1, 0).read(0, 0).constant(3).operation(ADD).read(1, 0).operation(ADD);
    let table = second.read(1, 10).operation(ADD).read(1, 9).operation(ADD).read(1, -1).operation(ADD).end().bytes;
    is(&fed(&["check", "--raw", "-"], &table), 1, "refused 9 1 0 4\n");
}

#[test]
fn plan_has_the_listings_lines_or_the_refusal() {
    is(&run(&["plan", "--raw", EXAMPLE, "-p", "2"]), 0, LISTING);
    is(&fed(&["plan", "--raw", "-", "-p", "2"], &bytes(EXAMPLE)), 0, LISTING);
    is(&run(&["plan", "--raw", EXAMPLE, "-p", "6"]), 1, "refused 11 0\n");
    is(&run(&["plan", "--raw", EXAMPLE, "-p", "0"]), 1, "refused 10 0\n");
    is(&run(&["plan", "--raw", EXAMPLE, "-p", "65"]), 1, "refused 10 0\n");
    // The program `plan` would say `refused 9 0`.
    is(&fed(&["plan", "--raw", "-", "-p", "2"], &serial()), 1, "refused 9 0 0 3\n");
}

/// In lines of 4 the blocks are 1 to 8 and 9 to 10.
#[test]
fn plan_has_the_listing_in_lines() {
    let in_fours = "loop 0 0 0\nloop 1 1 1\nblock 0 1 8\nblock 1 9 10\nfused 0 0 1 8\nfused 0 1 1 7\n\
                    fused 1 0 9 10\nfused 1 1 10 10\npeeled 0 1 8 9\nsweeps 6 5\n";
    is(&run(&["plan", "--raw", EXAMPLE, "-p", "2", "--line", "4"]), 0, in_fours);
    is(&run(&["plan", "--raw", EXAMPLE, "-p", "2", "--line", "1"]), 0, LISTING);
    is(&run(&["plan", "--raw", EXAMPLE, "-p", "2", "--line", "5"]), 0, LISTING);
    let out = Output::new("picture-in-lines");
    is(&run(&["draw", "--raw", EXAMPLE, "-p", "2", "--line", "4", "-o", &out.0]), 0, in_fours);
    // Processor 1 has fused 9 and 10 of loop 0 and 10 of loop 1, so nine of twelve calls find it waiting.
    let order = ["--order", "1,1,1,1,1,1,1,1,1,1,1,1"];
    is(&run(&[&["run", "--raw", EXAMPLE, "-p2", "--line", "4"], &order[..]].concat()), 0, "idle 9\n");
}

#[test]
fn lines_are_refused_by_number() {
    let out = Output::new("no-picture-in-lines");
    for command in [&["plan"][..], &["run"], &["draw", "-o", &out.0]] {
        for (count, line, answer) in [
            ("2", "0", "refused 17 0\n"),
            ("2", "65", "refused 17 0\n"),
            ("2", "4294967295", "refused 17 0\n"),
            ("6", "0", "refused 17 0\n"),
            ("0", "0", "refused 10 0\n"),
            ("4", "4", "refused 11 0\n"),
            ("2", "9", "refused 11 0\n"),
        ] {
            is(&run(&[command, &["--raw", EXAMPLE, "-p", count, "--line", line]].concat()), 1, answer);
        }
        is(&fed(&[command, &["--raw", "-", "-p2", "--line=0"]].concat(), &serial()), 1, "refused 9 0 0 3\n");
    }
    is(&run(&["run", "--raw", EXAMPLE, "-p2", "--line=0", "--memory", "@/dev/null"]), 1, "refused 17 0\n");
    assert!(out.is_absent());
}

#[test]
fn run_says_the_idle_count() {
    // Processor 1 has nine fused iterations, and three more calls find it waiting.
    let order = ["--order", "1,1,1,1,1,1,1,1,1,1,1,1"];
    is(&run(&[&["run", "--raw", EXAMPLE, "-p", "2"], &order[..]].concat()), 0, "idle 3\n");
    is(&run(&["run", "--raw", EXAMPLE, "-p", "2", "--order", "none"]), 0, "idle 0\n");
    is(&fed(&["run", "--raw", "-", "-p", "2", "--order", "2,255"], &bytes(EXAMPLE)), 0, "idle 2\n");
    is(&run(&["run", "--raw", EXAMPLE, "-p", "6"]), 1, "refused 11 0\n");
    is(&run(&["run", "--raw", EXAMPLE, "-p", "65"]), 1, "refused 10 0\n");
    is(&run(&["run", "--raw", EXAMPLE, "-p", "2", "--memory", "@/dev/null"]), 1, "refused 12 0\n");
    is(&fed(&["run", "--raw", "-", "-p", "2"], &serial()), 1, "refused 9 0 0 3\n");
}

#[test]
fn run_writes_its_memory_to_a_file() {
    let out = Output::new("memory");
    is(&run(&["run", "--raw", EXAMPLE, "-p", "2", "--order", "none", "-o", &out.0]), 0, "idle 0\n");
    let memory = out.read();
    assert_eq!(memory.len(), 36 * 8);
    // The known values of A2, which has the elements 24 to 35.
    for (element, value) in [(24 + 1, 3.0_f64), (24 + 5, 12.0), (24 + 10, 21.0)] {
        assert_eq!(memory[8 * element..8 * element + 8], value.to_le_bytes());
    }
    let out = Output::new("no-memory");
    is(&run(&["run", "--raw", EXAMPLE, "-p", "6", "-o", &out.0]), 1, "refused 11 0\n");
    assert!(out.is_absent());
}

#[test]
fn dump_has_no_text() {
    is(&run(&["dump", "--raw", EXAMPLE]), 0, "accepted\n");
    is(&fed(&["dump", "--raw", "-"], &bytes(EXAMPLE)), 0, "accepted\n");
    is(&fed(&["dump", "--raw", "-"], &serial()), 1, "refused 9 0 0 3\n");
    is(&fed(&["dump", "--raw", "-"], &bytes(EXAMPLE)[..60]), 1, "refused 1 60\n");
}

#[test]
fn make_says_whether_its_table_is_accepted() {
    let out = Output::new("made");
    is(&run(&["make", "--raw", "examples/example.txt", "-o", &out.0]), 0, "accepted\n");
    assert_eq!(out.read(), bytes(EXAMPLE));
    let out = Output::new("made-of-input");
    is(&fed(&["make", "--raw", "-", "-o", &out.0], &bytes("examples/example.txt")), 0, "accepted\n");
    assert_eq!(out.read(), bytes(EXAMPLE));
    let out = Output::new("not-made");
    let make = ["make", "--raw", "-", "-o", &out.0];
    is(&fed(&make, b"array A 21\nloop 1 10 -> A[i]: A[i+9]\n"), 1, "refused 9 0 0 1\n");
    is(&fed(&make, b"array A 12\nloop 1 20 -> A[i]: 1"), 1, "refused 7 5\n");
    is(&fed(&make, b""), 1, "refused 2 0\n");
    assert!(out.is_absent());
}

/// The library has not answered anything of what is no text.
#[test]
fn make_of_what_is_no_text_is_said_as_ever() {
    let out = Output::new("no-text");
    let wrong = b"array A 12\n\nloop 1 10 -> A[i]: B[i]\n";
    let told = fed(&["make", "--raw", "-", "-o", &out.0], wrong);
    assert_eq!(
        (told.status, told.out.as_str(), told.err.as_str()),
        (1, "", "-:3:20: no array 'B'; there is A\n  loop 1 10 -> A[i]: B[i]\n                     ^\n")
    );
    let told = run(&["make", "--raw", EXAMPLE, "-o", &out.0]);
    assert_eq!((told.status, told.out.as_str()), (1, ""));
    assert!(told.err.starts_with("examples/example.table: this is a table, not a text"), "{}", told.err);
    assert!(out.is_absent());
}

#[test]
fn join_says_how_many_bytes_it_wrote() {
    let (out, table) = (Output::new("joined"), bytes(EXAMPLE));
    // Three arrays of 5 bytes, twice 45 bytes of loops, one end.
    is(&run(&["join", "--raw", EXAMPLE, EXAMPLE, "-o", &out.0]), 0, "106\n");
    assert_eq!(out.read(), [&table[..60], &table[15..]].concat());
    let out = Output::new("joined-with-input");
    is(&fed(&["join", "--raw", EXAMPLE, "-", "-o", &out.0], &table), 0, "106\n");
    assert_eq!(out.read().len(), 106);
}

/// The place counts in the table that meets the ground, and the answer does not say in which.
#[test]
fn join_is_refused_by_number_and_place() {
    let out = Output::new("not-joined");
    is(&run(&["join", "--raw", EXAMPLE, "examples/river.table", "-o", &out.0]), 1, "refused 14 0\n");
    for sides in [["-", EXAMPLE], [EXAMPLE, "-"]] {
        let words = ["join", "--raw", sides[0], sides[1], "-o", &out.0];
        is(&fed(&words, &serial()), 1, "refused 9 0 0 3\n");
        is(&fed(&words, &bytes(EXAMPLE)[..60]), 1, "refused 1 60\n");
    }
    // 16 loops and one more are too many in all, at place 0.
    let (many, one) = (Output::new("many"), Encoder::new().array(10));
    let filled = one.clone().repeat(16, |table| table.a_loop(0, 9, 0, 0).constant(4)).end().bytes;
    std::fs::write(&many.0, filled).expect("written");
    let one = one.a_loop(0, 9, 0, 0).constant(4).end().bytes;
    is(&fed(&["join", "--raw", &many.0, "-", "-o", &out.0], &one), 1, "refused 4 0\n");
    assert!(out.is_absent());
}

#[test]
fn draw_has_the_listings_lines() {
    let out = Output::new("picture");
    is(&run(&["draw", "--raw", EXAMPLE, "-p", "2", "-o", &out.0]), 0, LISTING);
    assert_eq!(String::from_utf8_lossy(&out.read()), run(&["draw", EXAMPLE, "-p", "2"]).out);
    let out = Output::new("no-picture");
    is(&run(&["draw", "--raw", EXAMPLE, "-p", "6", "-o", &out.0]), 1, "refused 11 0\n");
    is(&fed(&["draw", "--raw", "-", "-p", "2", "-o", &out.0], &serial()), 1, "refused 9 0 0 3\n");
    assert!(out.is_absent());
}

/// One answer after the other, with no names and no count. README.md begins with a byte that is no kind.
#[test]
fn several_files_have_their_answers_in_order() {
    let files = ["README.md", EXAMPLE, "-", EXAMPLE];
    let all = |words: &[&str]| fed(&[words, &["--raw"], &files].concat(), &serial());
    is(&all(&["check"]), 1, "refused 2 0\naccepted\nrefused 9 0 0 3\naccepted\n");
    is(&all(&["check", "-q"]), 1, "refused 2 0\nrefused 9 0 0 3\n");
    is(&all(&["dump"]), 1, "refused 2 0\naccepted\nrefused 9 0 0 3\naccepted\n");
    is(&all(&["plan", "-p", "2"]), 1, &format!("refused 2 0\n{LISTING}refused 9 0 0 3\n{LISTING}"));
    is(&all(&["plan", "-p", "6"]), 1, "refused 2 0\nrefused 11 0\nrefused 9 0 0 3\nrefused 11 0\n");
    is(&all(&["run", "-p", "2", "--order", "7,7"]), 1, "refused 2 0\nidle 2\nrefused 9 0 0 3\nidle 2\n");
    is(&run(&["check", "--raw", EXAMPLE, EXAMPLE]), 0, "accepted\naccepted\n");
    is(&run(&["run", "--raw", "-p", "2", "--order", "none", EXAMPLE, EXAMPLE]), 0, "idle 0\nidle 0\n");
}

/// A file that cannot be read has no answer; the others have theirs.
#[test]
fn a_file_that_cannot_be_read_is_an_error_and_no_answer() {
    let files = [EXAMPLE, "no-such-file", "README.md", "examples"];
    for (words, out) in [
        (&["check"][..], "accepted\nrefused 2 0\n"),
        (&["check", "-q"], "refused 2 0\n"),
        (&["dump"], "accepted\nrefused 2 0\n"),
        (&["plan", "-p", "6"], "refused 11 0\nrefused 2 0\n"),
        (&["run", "-p", "2", "--order", "none"], "idle 0\nrefused 2 0\n"),
    ] {
        let told = run(&[words, &["--raw"], &files].concat());
        assert_eq!((told.status, told.out.as_str()), (2, out), "{words:?}");
        let said: Vec<&str> = told.err.lines().collect();
        assert_eq!(said.len(), 2, "{}", told.err);
        assert!(said[0].starts_with("vempaldi: no-such-file: No such file"), "{}", told.err);
        assert!(said[1].starts_with("vempaldi: examples: "), "{}", told.err);
    }
    let out = Output::new("of-nothing");
    for words in [
        &["check", "no-such-file"][..],
        &["dump", "no-such-file"],
        &["plan", "no-such-file", "-p", "2"],
        &["run", "no-such-file", "-p", "2"],
        &["make", "no-such-file", "-o", &out.0],
        &["draw", "no-such-file", "-p", "2", "-o", &out.0],
        &["join", EXAMPLE, "no-such-file", "-o", &out.0],
    ] {
        let told = run(&[words, &["--raw"]].concat());
        assert_eq!((told.status, told.out.as_str(), told.err.lines().count()), (2, "", 1), "{}", told.err);
        assert!(told.err.starts_with("vempaldi: no-such-file: No such file"), "{}", told.err);
    }
    assert!(out.is_absent());
}

/// An answer without its file would mislead a script.
#[test]
fn an_output_that_cannot_be_written_leaves_no_answer() {
    for words in [
        &["join", EXAMPLE, EXAMPLE][..],
        &["make", "examples/example.txt"],
        &["draw", EXAMPLE, "-p", "2"],
        &["run", EXAMPLE, "-p", "2"],
    ] {
        let told = run(&[words, &["--raw", "-o", "no-such-directory/out"]].concat());
        assert_eq!((told.status, told.out.as_str(), told.err.lines().count()), (2, "", 1), "{}", told.err);
        assert!(told.err.starts_with("vempaldi: no-such-directory/out: No such file"), "{}", told.err);
    }
}

#[test]
fn what_would_stand_beside_the_answer_is_a_usage_error() {
    let file = "with --raw the standard output has the answer alone: -o OUT must name a file";
    let values = "with --raw the standard output has the answer alone: --values is not for it";
    for (words, said) in [
        (&["join", EXAMPLE, EXAMPLE][..], file),
        (&["join", EXAMPLE, EXAMPLE, "-o", "-"], file),
        (&["make", "examples/example.txt"], file),
        (&["make", "examples/example.txt", "-o", "-"], file),
        (&["draw", EXAMPLE, "-p", "2"], file),
        (&["draw", EXAMPLE, "-p", "2", "-o", "-"], file),
        (&["run", EXAMPLE, "-p", "2", "-o", "-"], file),
        (&["run", EXAMPLE, "-p", "2", "--values"], values),
        // And those that are errors without it.
        (&["check"], "no file"),
        (&["dump"], "no file"),
        (&["plan", EXAMPLE], "-p N is missing"),
        (&["run", EXAMPLE, EXAMPLE, "-p", "2", "-o", "out"], "one file, not 2"),
        (&["join", EXAMPLE, "-o", "out"], "join takes two files"),
        (&["check", EXAMPLE, "--raw=1"], "--raw has no value"),
        (&["check", EXAMPLE, "--raw"], "--raw is given twice"),
        (&["plan", EXAMPLE, "-p", "2", "-o", "."], "with --raw the standard output has the answers alone: -o DIR is not for it"),
        (&["plan", EXAMPLE, "-p", "2", "--json"], "with --raw the standard output has the answers alone: --json is not for it"),
    ] {
        let told = run(&[words, &["--raw"]].concat());
        let line = format!("vempaldi: {said} (vempaldi {} --help says how)\n", words[0]);
        assert_eq!((told.status, told.out.as_str(), told.err.as_str()), (2, "", line.as_str()), "{words:?}");
    }
    let told = run(&["--raw", "check", EXAMPLE]);
    assert_eq!((told.status, told.out.as_str()), (2, ""));
}

#[test]
fn help_says_the_forms() {
    let help = run(&["--help"]).out;
    for said in
        ["--raw", "refused NUMBER PLACE", "refused 9 LOOP LOWER HIGHER", "accepted", "idle N", "the count of bytes written"]
    {
        assert!(help.contains(said), "{said}");
    }
}
