//! `plan -o DIR`: what stands in the directory afterwards.

mod common;

use common::{bytes, fed, out_name, run, EXAMPLE};
use std::fs;

/// A directory of its own, removed at the end.
struct Directory(String);

impl Directory {
    fn new(name: &str) -> Directory {
        let name = out_name(name);
        fs::create_dir(&name).expect("made");
        Directory(name)
    }

    fn file(&self, name: &str) -> String {
        format!("{}/{name}", self.0)
    }

    fn put(&self, name: &str, text: &str) -> String {
        fs::write(self.file(name), text).expect("written");
        self.file(name)
    }

    fn names(&self) -> Vec<String> {
        let rows = fs::read_dir(&self.0).expect("there");
        let mut names: Vec<String> = rows.map(|row| row.expect("one").file_name().into_string().expect("text")).collect();
        names.sort();
        names
    }
}

impl Drop for Directory {
    fn drop(&mut self) {
        fs::remove_dir_all(&self.0).ok();
    }
}

#[test]
fn each_table_has_its_listing_there() {
    let out = Directory::new("listings");
    out.put("river.plan", "older");
    out.put("other.plan", "of no table here");
    let told = run(&["plan", "-p2", "-o", &out.0, EXAMPLE, "examples/river.txt", "examples/jacobi.table"]);
    assert_eq!((told.status, told.out.as_str(), told.err.as_str()), (0, "", "3 files: 3 accepted, 0 refused\n"));
    assert_eq!(out.names(), ["example.plan", "jacobi.plan", "other.plan", "river.plan"]);
    for (name, file) in [("example", EXAMPLE), ("river", "examples/river.table"), ("jacobi", "examples/jacobi.table")] {
        let listing = fs::read_to_string(out.file(&format!("{name}.plan"))).expect("written");
        assert_eq!(listing, run(&["plan", "-p2", file]).out);
    }
    assert_eq!(fs::read_to_string(out.file("other.plan")).expect("kept"), "of no table here");
}

/// What stands there is of this run: no older file stays for a table that is refused, wrong or cannot be read.
#[test]
fn refused_tables_leave_none() {
    let (out, texts) = (Directory::new("none"), Directory::new("none-texts"));
    let wrong = texts.put("wrong.txt", "array H x\n");
    for name in ["README.plan", "wrong.plan", "missing.plan", "example.plan"] {
        out.put(name, "older");
    }
    let told = run(&["plan", "-p2", "-o", &out.0, "README.md", &wrong, "missing.table", EXAMPLE]);
    assert_eq!((told.status, told.out.as_str()), (2, ""));
    assert!(told.err.ends_with("4 files: 1 accepted, 2 refused, 1 not read\n"), "{}", told.err);
    assert!(told.err.contains("README.md: refused 2 kind") && told.err.contains("wrong.txt:1:9: "), "{}", told.err);
    assert_eq!(out.names(), ["example.plan"]);
    // For six processors there is no plan.
    assert_eq!(run(&["plan", "-p6", "-o", &out.0, EXAMPLE]).status, 1);
    assert!(out.names().is_empty());
}

#[test]
fn the_standard_input_has_a_name_too() {
    let out = Directory::new("input");
    assert_eq!(fed(&["plan", "-p2", "-", "-o", &out.0], &bytes("examples/river.txt")).status, 0);
    assert_eq!(out.names(), ["stdin.plan"]);
}

/// Nothing is removed or written then.
#[test]
fn names_that_meet_are_a_usage_error() {
    let out = Directory::new("meeting");
    out.put("river.plan", "older");
    let own = out.put("own.plan", "array H 12\nloop 1 10 -> H[i]: 1\n");
    let missing = out.file("no-such-directory");
    for (words, said) in [
        (
            &["examples/river.table", "examples/river.txt", "-o", &out.0][..],
            "examples/river.table and examples/river.txt would both be ",
        ),
        (&[EXAMPLE, "examples/../examples/example.table", "-o", &out.0], "would both be "),
        (&["examples/river.table", &own, "-o", &out.0], "own.plan is one of the files to read"),
        (&["examples/river.table", "-o", &missing], "there is no such directory"),
        (&["examples/river.table", "-o", &own], "there is no such directory"),
        (&["examples/river.table", "-o", ""], "-o '': there is no such directory"),
        (&["-o", &out.0], "no file"),
    ] {
        let told = run(&[&["plan", "-p2"], words].concat());
        assert_eq!((told.status, told.out.as_str(), told.err.lines().count()), (2, "", 1), "{}", told.err);
        assert!(told.err.contains(said) && told.err.ends_with(" (vempaldi plan --help says how)\n"), "{}", told.err);
        assert_eq!(out.names(), ["own.plan", "river.plan"]);
        assert_eq!(fs::read_to_string(out.file("river.plan")).expect("kept"), "older");
    }
    assert_eq!(run(&["plan", "examples/river.table", "-o", &out.0]).status, 2);
    assert_eq!(out.names(), ["own.plan", "river.plan"]);
}
