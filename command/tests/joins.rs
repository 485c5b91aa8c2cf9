//! `join` of texts: arrays are joined by their place, so names that differ there are told, and nothing is written.

mod common;

use common::{bytes, out_name, run, EXAMPLE};
use std::fs;
use std::path::Path;

/// Two texts and the name of an output, which are not left behind.
struct Pair {
    left: String,
    right: String,
    out: String,
}

impl Pair {
    fn new(name: &str, left: &str, right: &str) -> Pair {
        let [a, b, out] = ["left", "right", "out"].map(|side| out_name(&format!("join-{name}-{side}")));
        fs::write(&a, left).expect("written");
        fs::write(&b, right).expect("written");
        Pair { left: a, right: b, out }
    }

    /// Status, standard output and standard error, the latter behind the files' names.
    fn told(&self, more: &[&str]) -> (i32, String, String) {
        let told = run(&[&["join", &self.left, &self.right], more].concat());
        let both = format!("{} and {}: ", self.left, self.right);
        (told.status, told.out, told.err.replace(&both, ""))
    }

    /// What is said of both, nothing being written.
    fn says(&self, said: &str) {
        assert_eq!(self.told(&["-o", &self.out]), (1, String::new(), format!("{said}\n")));
        assert_eq!(self.told(&[]), (1, String::new(), format!("{said}\n")));
        assert!(!Path::new(&self.out).exists());
    }
}

impl Drop for Pair {
    fn drop(&mut self) {
        for name in [&self.left, &self.right, &self.out] {
            fs::remove_file(name).ok();
        }
    }
}

const FLOW_FIRST: &str = "array Flow 10\narray Height 10\nloop 1 2 -> Flow[i]: 1\n";
const HEIGHT_FIRST: &str = "array Height 10\narray Flow 10\nloop 1 2 -> Flow[i]: 2\n";
const BY_PLACE: &str = "; joining goes by an array's place, not by its name";

#[test]
fn arrays_of_two_texts_that_change_places_are_not_joined() {
    let pair = Pair::new("swapped", FLOW_FIRST, HEIGHT_FIRST);
    let said = format!("array 0 is Flow in the first text, Height in the second{BY_PLACE}");
    pair.says(&said);
    // The library was not the one to refuse, so a script has no line of it.
    assert_eq!(pair.told(&["--raw", "-o", &pair.out]), (1, String::new(), format!("{said}\n")));
    assert!(!Path::new(&pair.out).exists());
    let other = Pair::new("renamed", FLOW_FIRST, &FLOW_FIRST.replace("Height", "Stage"));
    other.says(&format!("array 1 is Height in the first text, Stage in the second{BY_PLACE}"));
}

/// The names are no part of the table, and a table has none that could differ.
#[test]
fn equal_names_and_tables_are_joined() {
    let pair = Pair::new("equal", FLOW_FIRST, &FLOW_FIRST.replace(": 1", ": 2"));
    assert_eq!(pair.told(&["--raw", "-o", &pair.out]), (0, "45\n".to_string(), String::new()));
    let joined = fs::read(&pair.out).expect("written");
    assert_eq!((joined.len(), joined[23], joined[40]), (45, 1, 2));
    let table = out_name("join-of-table");
    assert_eq!(run(&["make", &pair.left, "-o", &table]).status, 0);
    let swapped = Pair::new("table", HEIGHT_FIRST, "");
    for files in [[&table, &swapped.left], [&swapped.left, &table], [&table, &table]] {
        assert_eq!(run(&["join", files[0], files[1], "-o", &pair.out]).status, 0);
    }
    fs::remove_file(&table).expect("removed");
}

/// What the library refuses is told as its answer, with the names.
#[test]
fn refusals_of_joining_have_the_names() {
    let long = HEIGHT_FIRST.replace("Height 10", "Height 20");
    let pair = Pair::new("longer", FLOW_FIRST, &long);
    pair.says("refused 14 unlike: array 0 is Flow with 10 elements, in the second table Height with 20");
    assert_eq!(pair.told(&["--raw", "-o", &pair.out]), (1, "refused 14 0\n".to_string(), String::new()));
    let same = Pair::new("unlike-same", FLOW_FIRST, &FLOW_FIRST.replace("Height 10", "Height 1"));
    same.says("refused 14 unlike: array 1 (Height) has 10 elements, in the second table 1");
    let one = "array Flow 10\nloop 1 2 -> Flow[i]: 1\n";
    let more = Pair::new("unlike-more", one, FLOW_FIRST);
    more.says("refused 14 unlike: the first table has 1 array, the second one 2; array 1 (Height) is in the second alone");
    let less = Pair::new("unlike-less", FLOW_FIRST, one);
    less.says("refused 14 unlike: the first table has 2 arrays, the second one 1; array 1 (Height) is in the first alone");
    let other = Pair::new("unlike-other", HEIGHT_FIRST, one);
    other.says(
        "refused 14 unlike: the first table has 2 arrays, the second one 1; array 0 is Height in the first, Flow in the second",
    );
}

/// Where one of the two is a table, the text's names are said.
#[test]
fn a_text_and_a_table_have_the_texts_names() {
    let text = Pair::new("with-table", FLOW_FIRST, "");
    for (files, said) in [
        ([text.left.as_str(), EXAMPLE], "array 0 (Flow) has 10 elements, in the second table 12"),
        ([EXAMPLE, text.left.as_str()], "array 0 (Flow) has 12 elements, in the second table 10"),
    ] {
        let told = run(&["join", files[0], files[1]]);
        let said = format!("{} and {}: refused 14 unlike: {said}\n", files[0], files[1]);
        assert_eq!((told.status, told.out.as_str(), told.err), (1, "", said));
    }
    // Three arrays of 12 elements, of which the text has two.
    let two = Pair::new("fewer", &FLOW_FIRST.replace("10\n", "12\n"), "");
    let told = run(&["join", &two.left, EXAMPLE]).err;
    assert!(told.ends_with(": refused 14 unlike: the first table has 2 arrays, the second one 3\n"), "{told}");
    assert_eq!(bytes(EXAMPLE)[..15], [1, 12, 0, 0, 0].repeat(3));
}
