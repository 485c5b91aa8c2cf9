//! Texts: every command takes them where it takes a table, their names stay, and what is wrong with one is told with line, column, token
//! and the line itself. What is expected is typed here.

mod common;

use common::{bytes, fed, out_name, run, EXAMPLE};
use vempaldi_checks::random::Random;
use vempaldi_command::{explain, explain_serial, make};

const RIVER: &str = "examples/river.txt";

/// What is printed of a text is what is printed of its table, but for the file's name.
#[test]
fn a_text_is_taken_as_its_table() {
    for name in ["boundary", "coast", "example", "jacobi", "ll18", "reach", "river"] {
        let (text, table) = (format!("examples/{name}.txt"), format!("examples/{name}.table"));
        let same = |words: &[&str]| {
            let (left, right) = (run(&[words, &[&text]].concat()), run(&[words, &[&table]].concat()));
            assert_eq!((left.status, left.err.replace(&text, &table)), (right.status, right.err), "{words:?}");
            assert_eq!(left.out.replace(&text, &table), right.out, "{words:?}");
            assert_eq!(fed(&[words, &["-"]].concat(), &bytes(&text)).out.replace("-: ", &format!("{table}: ")), right.out);
        };
        same(&["check"]);
        same(&["check", "--raw"]);
        same(&["plan", "-p3"]);
        same(&["plan", "-p", "64", "--raw"]);
        same(&["run", "-p3", "--order=random:3", "--memory=random:4"]);
        same(&["run", "-p3", "--raw"]);
        same(&["dump", "--raw"]);
        same(&["draw", "-p3", "--raw", "-o", "/dev/null"]);
    }
}

#[test]
fn texts_are_joined_as_their_tables() {
    let out = out_name("joined-texts");
    for files in [[RIVER, RIVER], [RIVER, "examples/river.table"], ["examples/river.table", RIVER]] {
        assert_eq!(run(&["join", files[0], files[1], "-o", &out]).status, 0);
        let table = bytes("examples/river.table");
        // Four arrays of 5 bytes, then the loops, then the end.
        let (loops, end) = (&table[20..table.len() - 1], &table[table.len() - 1..]);
        assert_eq!(std::fs::read(&out).expect("written"), [&table[..20], loops, loops, end].concat());
    }
    std::fs::remove_file(&out).expect("removed");
    let told = run(&["join", RIVER, "examples/jacobi.txt"]);
    let said =
        "examples/river.txt and examples/jacobi.txt: refused 14 unlike: array 0 is H with 200 elements, in the second table A with 400\n";
    assert_eq!((told.status, told.err.as_str()), (1, said));
}

#[test]
fn joined_tables_are_told_apart_by_what_differs() {
    let one = out_name("one-array");
    std::fs::write(&one, "array H 12\nloop 1 10 -> H[i]: 1\n").expect("written");
    let told = fed(&["join", &one, "-"], &bytes(EXAMPLE));
    assert_eq!(told.err, format!("{one} and -: refused 14 unlike: the first table has 1 array, the second one 3\n"));
    let nine = "loop 1 10 -> H[i]: 1\n".repeat(9);
    std::fs::write(&one, format!("array H 12\n{nine}")).expect("written");
    let told = fed(&["join", &one, "-"], format!("array H 12\n{nine}").as_bytes());
    assert_eq!(told.err, format!("{one} and -: refused 4 crowd: 9 and 9 loops are 18, at most 16 are allowed\n"));
    std::fs::remove_file(&one).expect("removed");
}

#[test]
fn names_stay_in_what_is_printed() {
    let values = run(&["run", RIVER, "-p2", "--values", "--memory=index"]).out;
    let lines: Vec<&str> = values.lines().collect();
    assert_eq!((lines.len(), lines[1], lines[200]), (801, "H[0] 0", "H[199] 199"));
    assert!(lines[201].starts_with("Q[0] ") && lines[401].starts_with("S[0] ") && lines[601].starts_with("D[0] "));
    let picture = run(&["draw", RIVER, "-p4"]).out;
    assert!(picture.contains("S[i] = (H[i-1] - H[i+1]) / 200") && !picture.contains("A0["));
    let dumped = run(&["dump", RIVER]).out;
    assert!(dumped.starts_with("array H 200\narray Q 200\narray S 200\narray D 200\n# loop 0: S[i] = (H[i-1] - H[i+1]) / 200\n"));
    assert!(dumped.contains("\nloop 1 198 -> S[i]: H[i-1] H[i+1] - 200 /\n"), "{dumped}");
    // The names of a table are the numbers of its arrays.
    assert!(run(&["dump", "examples/river.table"]).out.starts_with("array A0 200\n"));
    let out = out_name("dumped");
    assert_eq!(fed(&["make", "-", "-o", &out], dumped.as_bytes()).status, 0);
    assert_eq!(std::fs::read(&out).expect("written"), bytes("examples/river.table"));
    std::fs::remove_file(&out).expect("removed");
}

/// The first word outside comments decides, however far down it stands, and nothing else.
#[test]
fn what_is_a_text_is_settled_by_its_first_word() {
    let good = "array A 12\nloop 1 10 -> A[i]: 1\n";
    let comment = |length: usize| format!("#{}\n", "x".repeat(length));
    for head in ["", " ", "\n\n\t", "# array\n", "\r\n"].map(str::to_string).into_iter().chain((2_060..2_090).map(comment)) {
        let told = fed(&["check", "-"], format!("{head}{good}").as_bytes());
        assert_eq!((told.status, told.out.as_str()), (0, "-: accepted\n"), "{head:?}");
    }
    let long = format!("{good}{}loop 1 10 -> A[i]: 2\n", comment(9_000));
    assert_eq!(run_of(&["plan", "-p1", "-"], &long).1.lines().filter(|line| line.starts_with("loop")).count(), 2);
    for no_text in ["arrays A 12", "Array A 12", "x", "\u{1}", "# array\n", "#", "\n", "loops", "arra"] {
        let told = fed(&["check", "--raw", "-"], no_text.as_bytes());
        assert!(told.status == 1 && told.out.starts_with("refused ") && told.err.is_empty(), "{no_text:?}: {}", told.err);
    }
    assert_eq!(fed(&["check", "--raw", "-"], b"").out, "refused 1 0\n");
    // It is a text, and the library was not asked.
    assert_eq!(run_of(&["check", "--raw", "-"], "loop"), (1, String::new(), told_of("1:1", "loop", "^^^^", NO_COLON)));
}

fn run_of(words: &[&str], text: &str) -> (i32, String, String) {
    let told = fed(words, text.as_bytes());
    (told.status, told.out, told.err)
}

const NO_COLON: &str = "a ':' is missing: a loop is 'loop FIRST LAST -> NAME[i+OFFSET]: ITEMS'";

fn told_of(place: &str, line: &str, marks: &str, what: &str) -> String {
    format!("-:{place}: {what}\n  {line}\n  {marks}\n")
}

/// Wrong lines behind an array H: the line, the mark below it, what is said.
const WRONG: [(&str, &str, &str); 37] = [
    ("loop 1 10 -> H[i]: H[i] -1 +", "                        ^^", NEGATIVE_1),
    ("loop 1 10 -> H[i]: -20", "                   ^^^", NEGATIVE_20),
    (
        "loop 1 10 -> H[i]: H[i]+1",
        "                   ^^^^^^",
        "'H[i]+1' is no item: NAME[i+OFFSET], a whole number, or one of + - * / neg",
    ),
    (
        "loop 1 10 -> H[i]: 1 2 ++",
        "                       ^^",
        "'++' is no item: NAME[i+OFFSET], a whole number, or one of + - * / neg",
    ),
    ("loop 1 10 -> H[i]: 4294967296", "                   ^^^^^^^^^^", "'4294967296' is not a whole number up to 4294967295"),
    ("loop 1 10 -> H[i]: -99999999999", "                   ^^^^^^^^^^^^", TOO_NEGATIVE),
    ("loop 1 10 -> H[i]: -4294967295", "                   ^^^^^^^^^^^", MOST_NEGATIVE),
    ("loop 1 10 -> H[i]: -256", "                   ^^^^", NEGATIVE_256),
    (
        "loop 1 10 -> H[i]: .5",
        "                   ^^",
        "'.5' is not a whole number up to 4294967295; a fraction is a division: 1 2 /",
    ),
    ("loop 1 10 -> H[i]: -1.5", "                   ^^^^", MINUS_3_HALVES),
    (
        "loop 1 10 -> H[i]: 3.14",
        "                   ^^^^",
        "'3.14' is not a whole number up to 4294967295; a fraction is a division: 157 50 /",
    ),
    ("loop 1 10 -> H[i]: 2.0", "                   ^^^", "'2.0' is not a whole number up to 4294967295; write 2"),
    ("loop 1 10 -> H[i]: +7", "                   ^^", "'+7' is not a whole number up to 4294967295; write 7"),
    ("loop 1 10 -> H[i]: -255", "                   ^^^^", NEGATIVE_255),
    ("loop 1 10 -> H[i]: .00000000001", "                   ^^^^^^^^^^^^", NO_DIVISION),
    ("loop 1 10 -> H[i]: Q[i-1]", "                   ^", "no array 'Q'; there is H"),
    ("loop 1 10 -> Q[i]: 1", "             ^", "no array 'Q'; there is H"),
    ("loop 1 10 -> H: 1", "             ^", "'H' is not what a statement stores: NAME[i], NAME[i+3] or NAME[i-3]"),
    ("loop 1 10 -> H[i+99999]: 1", "                ^^^^^^", "'+99999' is not an offset, -255 to 255"),
    ("loop 1 10 -> H[i3]: 1", "                ^", "'3' is not an offset: +3 or -3"),
    ("loop -1 10 -> H[i]: 1", "     ^^", "'-1' is not an index, 0 to 131071 (it is not negative)"),
    ("loop 1 x -> H[i]: 1", "       ^", "'x' is not an index, 0 to 131071"),
    ("loop 1 2 3 -> H[i]: 1", "         ^", "a loop is 'loop FIRST LAST -> NAME[i+OFFSET]: ITEMS'"),
    ("loop 1 -> H[i]: 1", "^^^^", "a loop is 'loop FIRST LAST -> NAME[i+OFFSET]: ITEMS'"),
    ("loop 1 10 H[i]: 1", "^^^^", "a '->' is missing: a loop is 'loop FIRST LAST -> NAME[i+OFFSET]: ITEMS'"),
    ("loop 1 10 -> H[i] 1", "^^^^", NO_COLON),
    (
        "loop 1 10 -> H[i]: 1 -> H[i]: 2",
        "                     ^^",
        "'->' is no item: a further statement is '-> NAME[i+OFFSET]: ITEMS' in a line of its own",
    ),
    ("-> H[i] 1", "^^", "a ':' is missing: a further statement is '-> NAME[i+OFFSET]: ITEMS' in a line of its own"),
    ("  -> Q[i]: 1", "     ^", "no array 'Q'; there is H"),
    ("->H: 1", "  ^", "'H' is not what a statement stores: NAME[i], NAME[i+3] or NAME[i-3]"),
    ("array Q -5", "        ^^", "'-5' is not a length, 1 to 65536 (it is not negative)"),
    ("array Q 1e3", "        ^^^", "'1e3' is not a length, 1 to 65536"),
    ("array 2 10", "      ^", "'2' is not a name: a letter, then letters, digits or _"),
    ("array H 10", "      ^", "there is an array H already"),
    ("array Q", "^^^^^", "an array is 'array NAME LENGTH'"),
    ("array Q 10 11", "           ^^", "an array is 'array NAME LENGTH'"),
    ("1 +", "^", "'1' where a line begins with 'array' or 'loop'"),
];
const NEGATIVE_1: &str = "'-1' is no item: a whole number is not negative. Write '0 1 -' or '1 neg'; an offset is written H[i-1]";
const NEGATIVE_20: &str =
    "'-20' is no item: a whole number is not negative. Write '0 20 -' or '20 neg'; an offset is written H[i-20]";

const NEGATIVE_255: &str =
    "'-255' is no item: a whole number is not negative. Write '0 255 -' or '255 neg'; an offset is written H[i-255]";
const NEGATIVE_256: &str = "'-256' is no item: a whole number is not negative. Write '0 256 -' or '256 neg'";
const MOST_NEGATIVE: &str =
    "'-4294967295' is no item: a whole number is not negative. Write '0 4294967295 -' or '4294967295 neg'";
const TOO_NEGATIVE: &str = "'-99999999999' is no item: a whole number is not negative, and 4294967295 at most";
const MINUS_3_HALVES: &str = "'-1.5' is not a whole number up to 4294967295; a fraction is a division: 3 2 / neg";
const NO_DIVISION: &str = "'.00000000001' is not a whole number up to 4294967295; a fraction is a division of two such numbers";

/// The column of the first mark, from 1.
fn column(marks: &str) -> usize {
    marks.len() - marks.trim_start().len() + 1
}

/// Every command says the same.
#[test]
fn a_wrong_text_is_told_with_its_line_and_a_mark() {
    for (line, marks, what) in WRONG {
        let line = format!("{line}   # and so on");
        let said = told_of(&format!("2:{}", column(marks)), &line, marks, what);
        for words in [
            &["make", "-"][..],
            &["check", "-"],
            &["plan", "-p1", "-"],
            &["run", "-p1", "-"],
            &["dump", "-"],
            &["draw", "-p1", "-"],
            &["join", EXAMPLE, "-"],
        ] {
            assert_eq!(run_of(words, &format!("array H 12\n{line}\n")), (1, String::new(), said.clone()), "{words:?}");
        }
    }
}

/// Columns count characters, and a tab is one.
#[test]
fn columns_count_characters() {
    let text = "array H 12\nloop 1 10 -> H[i]:\t\u{e4}\u{4e2d} 1\n";
    let item = "'\u{e4}\u{4e2d}' is no item: NAME[i+OFFSET], a whole number, or one of + - * / neg";
    let said = told_of("2:20", "loop 1 10 -> H[i]: \u{e4}\u{4e2d} 1", "                   ^^", item);
    assert_eq!(run_of(&["make", "-"], text), (1, String::new(), said));
    // A wide blank is one character of three bytes.
    let told = fed(&["make", "-"], "array H 12\nloop 1 10 -> H[i]:\u{3000}1 oops\n".as_bytes());
    assert!(told.err.starts_with("-:2:22: 'oops' is no item"), "{}", told.err);
    assert!(told.err.ends_with(&format!("\n  {}^^^^\n", " ".repeat(21))), "{}", told.err);
    // Bytes that are no UTF-8 are one character each.
    let told = fed(&["make", "-"], b"array H 12\nloop 1 10 -> H[i]: \xff\xfe 1 x\n");
    assert!(told.err.starts_with("-:2:20: '"), "{}", told.err);
}

/// A long line is shown about the mark.
#[test]
fn long_lines_are_shown_in_part() {
    let line = format!("loop 1 10 -> H[i]: {}oops {}", "1 neg ".repeat(50), "neg ".repeat(50));
    let told = fed(&["make", "-"], format!("array H 12\n{line}\n").as_bytes());
    let lines: Vec<&str> = told.err.lines().collect();
    assert!(lines[0].starts_with("-:2:320: 'oops' is no item"), "{}", lines[0]);
    let at = lines[1].find("oops").expect("shown");
    assert_eq!(lines[2], format!("{}^^^^", " ".repeat(at)));
    assert!(lines.len() == 3 && lines[1].len() < 120 && lines[1].starts_with("  ..") && lines[1].ends_with(".."), "{}", lines[1]);
    let long = "x".repeat(5_000);
    assert!(fed(&["make", "-"], long.as_bytes()).err.lines().all(|line| line.len() < 120));
}

/// Refused texts: the line of the word in question, the mark below that line, what is said.
const REFUSED: [(&str, usize, &str, &str); 14] = [
    (
        "array H 12\narray Q 70000\n",
        2,
        "        ^^^^^",
        "3 field at record 1 (array), byte 5: length 70000, allowed are 1 to 65536",
    ),
    (
        "array H 12\nloop 1 131072 -> H[i]: 1\n",
        2,
        "       ^^^^^^",
        "3 field at record 1 (loop), byte 5: last 131072, allowed are 0 to 131071",
    ),
    (
        "array H 12\nloop 1 2 -> H[i-256]: 1\n",
        2,
        "               ^^^^",
        "3 field at record 1 (loop), byte 5: offset -256, allowed are -255 to 255",
    ),
    (
        "array H 12\nloop 1 12 -> H[i]: 1\n",
        2,
        "             ^^^^",
        "7 edge at record 1 (loop), byte 5: H[i] reaches elements 1 to 12 for i = 1 to 12, H has 0 to 11",
    ),
    (
        "array H 12\nloop 1 2 -> H[i]:\n  1 2\n  # no more\n\n",
        3,
        "    ^",
        "6 body at record 4 (end), byte 27: the body of loop 0 leaves 2 numbers, one must be left",
    ),
    (
        "array H 12\nloop 1 2 -> H[i]:\nloop 1 2 -> H[i]: 1\n",
        2,
        "^^^^",
        "6 body at record 2 (loop), byte 17: the body of loop 0 is empty, one number must be left",
    ),
    (
        "array H 12\nloop 1 2 -> H[i]: 1 2 3 4 5 6 7 8 H[i]\n",
        2,
        "                                  ^^^^",
        "6 body at record 10 (read), byte 57: a 9th waiting number, at most 8 may wait",
    ),
    (
        "array H 12\n-> H[i]: 1\n",
        2,
        "^^",
        "2 kind at record 1 (statement), byte 5: a statement before any loop, it is a further one of a loop",
    ),
    (
        "array H 12\nloop 1 2 -> H[i]: 1\n  -> H[i]:\n",
        3,
        "  ^^",
        "6 body at record 4 (end), byte 26: the body of statement 1 of loop 0 is empty, one number must be left",
    ),
    (
        "array H 12\nloop 1 2 -> H[i]: 1\n  -> H[i]: 1 2\n",
        3,
        "             ^",
        "6 body at record 6 (end), byte 36: the body of statement 1 of loop 0 leaves 2 numbers, one must be left",
    ),
    (
        "array H 12\nloop 1 2 -> H[i]: 1\n  -> H[i+300]: 2\n",
        3,
        "        ^^^^",
        "3 field at record 3 (statement), byte 22: offset 300, allowed are -255 to 255",
    ),
    (
        "array H 12\nloop 1 10 -> H[i]: 1\n  -> H[i+2]: 2\n",
        3,
        "     ^^^^^^",
        "7 edge at record 3 (statement), byte 22: H[i+2] reaches elements 3 to 12 for i = 1 to 10, H has 0 to 11",
    ),
    (
        "array H 12\nloop 1 2 -> H[i]: 1\n-> H[i]: 2\n-> H[i]: 3\n-> H[i]: 4\n-> H[i]: 5\n",
        6,
        "^^",
        "4 crowd at record 9 (statement), byte 49: a 5th statement of loop 0, at most 4 are allowed",
    ),
    ("array H 12\narray Q 12\n", 2, "^^^^^", "2 kind at record 2 (end), byte 10: the end comes before any loop"),
];

/// The library's refusals are led back to the word in question.
#[test]
fn refusals_are_told_with_their_word() {
    for (text, number, marks, said) in REFUSED {
        let line = text.lines().nth(number - 1).expect("a line");
        let said = told_of(&format!("{number}:{}", column(marks)), line, marks, &format!("refused {said}"));
        assert_eq!(run_of(&["make", "-"], text), (1, String::new(), said.clone()));
        assert_eq!(run_of(&["check", "-"], text), (1, said.clone(), String::new()));
        assert_eq!(run_of(&["plan", "-p2", "-"], text), (1, String::new(), said));
    }
}

/// The marked statement has the names too, and the column is that of the read in the text.
#[test]
fn meeting_iterations_are_told_with_names() {
    let text = "array Stage 12\narray Q 12\nloop 1 10 -> Stage[i]: Q[i]\n  Stage[i-1] +\n";
    let said = "\
-:4:3: refused 9 serial at loop 0, references 0 (record 2, byte 10) and 2 (record 4, byte 26): \
iteration 2 reads Stage[1], which iteration 1 stores
\x20 loop 0, i = 1 to 10: Stage[i] = Q[i] + Stage[i-1]
\x20                      ^^^^^^^^          ^^^^^^^^^^ iteration i reads the element that the earlier iteration i-1 stores (i = 2 to 10)
";
    assert_eq!(run_of(&["check", "-"], text), (1, said.to_string(), String::new()));
    assert_eq!(run_of(&["run", "-p2", "-"], text), (1, String::new(), said.to_string()));
}

/// A line for each further statement, and all of them in the comment.
#[test]
fn a_dump_has_a_line_for_each_statement() {
    let wanted = "\
array H 200
array Q 200
array HN 200
array QN 200
# loop 0: QN[i] = Q[i] * 9 / 10 + (H[i-1] - H[i+1]) / 5; HN[i] = H[i] + (Q[i-1] - QN[i]) / 50
loop 1 198 -> QN[i]: Q[i] 9 * 10 / H[i-1] H[i+1] - 5 / +
\x20 -> HN[i]: H[i] Q[i-1] QN[i] - 50 / +
# loop 1: Q[i] = QN[i]; H[i] = HN[i]
loop 1 198 -> Q[i]: QN[i]
\x20 -> H[i]: HN[i]
";
    assert_eq!(run_of(&["dump", "examples/reach.txt"], ""), (0, wanted.to_string(), String::new()));
    let numbered = run_of(&["dump", "examples/reach.table"], "").1;
    let named = [("A0", "H"), ("A1", "Q"), ("A2", "HN"), ("A3", "QN")];
    assert_eq!(named.iter().fold(numbered, |text, (number, name)| text.replace(number, name)), wanted);
}

/// A statement's items go on in further lines, as a loop's do, and blanks around the arrow are free.
#[test]
fn statements_may_be_written_in_several_ways() {
    let table = bytes("examples/reach.table");
    let text = String::from_utf8(bytes("examples/reach.txt")).expect("text");
    for changed in [
        text.replace("  -> ", "->"),
        text.replace("  -> ", "\t->  "),
        text.replace("HN[i]: H[i] Q[i-1]", "HN[i]:\n  H[i] # the stage\n\n  Q[i-1]"),
        text.replace("\n", "\r\n"),
    ] {
        assert_eq!(make(&changed).expect("a text").bytes, table, "{changed}");
    }
}

/// A wrong text counts as one that is refused, and the others are still done.
#[test]
fn a_wrong_text_among_others_is_counted() {
    let wrong = out_name("wrong.txt");
    std::fs::write(&wrong, "array H x\n").expect("written");
    let told = run(&["check", EXAMPLE, &wrong, RIVER]);
    assert_eq!((told.status, told.out.as_str()), (1, "examples/example.table: accepted\nexamples/river.txt: accepted\n"));
    let lines =
        format!("{wrong}:1:9: 'x' is not a length, 1 to 65536\n  array H x\n          ^\n3 files: 2 accepted, 1 refused\n");
    assert_eq!(told.err, lines);
    std::fs::remove_file(&wrong).expect("removed");
}

/// The examples with some characters changed, taken away or put in between, mostly ones that mean something in a text.
fn scribbled(random: &mut Random, text: &str) -> String {
    let mut all: Vec<char> = text.chars().collect();
    for _ in 0..random.between(1, 3) {
        let at = random.below(all.len());
        let one = random
            .pick(&[' ', '\n', '#', ':', '[', ']', '-', '>', '+', '9', '0', 'i', 'A', 'x', '\t', '\u{e4}', '\u{3000}', '\0']);
        match random.below(3) {
            0 => all[at] = one,
            1 => all.insert(at, one),
            _ => {
                all.remove(at);
            }
        }
    }
    all.into_iter().collect()
}

/// The token stands in the text at the line and column that are told.
fn stands(text: &str, line: usize, column: usize, token: &str) {
    let found: String = text.lines().nth(line - 1).unwrap_or("").chars().skip(column - 1).take(token.chars().count()).collect();
    assert_eq!(found, token, "{line}:{column}\n{text}");
}

#[test]
fn whatever_is_wrong_with_a_text_stands_where_it_is_told() {
    let mut random = Random::new(71);
    let examples = ["coast", "example", "reach", "river"]
        .map(|name| String::from_utf8(bytes(&format!("examples/{name}.txt"))).expect("text"));
    let (mut wrong, mut refused) = (0, 0);
    for round in 0..6_000 {
        let text = scribbled(&mut random, &examples[round % 4]);
        let made = match make(&text) {
            Ok(made) => made,
            Err(error) => {
                stands(&text, error.line, error.column, &error.token);
                assert!(error.to_string().lines().count() == 3, "{error}");
                wrong += 1;
                continue;
            }
        };
        if let Err(refusal) = vempaldi::check(&made.bytes) {
            let found = match refusal.references() {
                Some(pair) => explain_serial(&made.bytes, &made.names, refusal.place, pair),
                None => explain(&made.bytes, &made.names, &refusal),
            };
            let found = found.unwrap_or_else(|| panic!("no words for {refusal}\n{text}"));
            let told = made.place(found.record, found.field);
            stands(&text, told.line, told.column, &told.token);
            refused += 1;
        }
    }
    assert!(wrong > 1_000 && refused > 100, "{wrong} wrong, {refused} refused");
}
