//! What a later release may add to is marked so that callers still compile.

use std::fs;
use std::path::Path;

/// Structs that callers make, and so cannot be `non_exhaustive`.
const MADE_BY_CALLERS: [&str; 1] = ["State"];

/// Every public enum and every public struct with a public field: its name, and whether it is marked.
fn types_of(source: &str) -> Vec<(String, bool)> {
    let lines: Vec<&str> = source.lines().collect();
    let mut types = Vec::new();
    for (at, line) in lines.iter().enumerate() {
        let mut words = line.split([' ', '<', '(', ';']);
        let (Some("pub"), Some(kind), Some(name)) = (words.next(), words.next(), words.next()) else { continue };
        let fields = lines[at + 1..].iter().take_while(|line| !line.starts_with('}'));
        let open = kind == "enum" || kind == "struct" && fields.clone().any(|line| line.starts_with("    pub "));
        let mut above = lines[..at].iter().rev().take_while(|line| line.starts_with("#["));
        if open {
            types.push((name.to_string(), above.any(|line| *line == "#[non_exhaustive]")));
        }
    }
    types
}

#[test]
fn enums_and_what_calls_give_may_grow() {
    let directory = Path::new(env!("CARGO_MANIFEST_DIR")).join("src");
    let mut seen = Vec::new();
    for entry in fs::read_dir(directory).expect("the sources") {
        let source = fs::read_to_string(entry.expect("a file").path()).expect("a source");
        for (name, marked) in types_of(&source) {
            assert_eq!(marked, !MADE_BY_CALLERS.contains(&name.as_str()), "{name}: is it marked #[non_exhaustive]?");
            seen.push(name);
        }
    }
    for name in [
        "Ground",
        "Report",
        "Refusal",
        "Facts",
        "ArrayFacts",
        "LoopFacts",
        "Amounts",
        "Block",
        "Iteration",
        "Sweeps",
        "State",
        "Settings",
    ] {
        assert!(seen.iter().any(|one| one == name), "{name} was not found");
    }
}
