//! Runs the commands of docs/REFUSALS.md as they are printed there: what follows a command in its block is what it says. A section that
//! has a ground's number is about that refusal; that on names has a message of the command's own; the one for scripts has raw answers,
//! accepted ones too; that on JSON has objects.

use std::path::PathBuf;
use std::process::Command;

struct Example {
    /// The first word of its section's head.
    section: String,
    command: String,
    says: Vec<String>,
}

fn root() -> PathBuf {
    PathBuf::from(env!("CARGO_MANIFEST_DIR")).join("..")
}

fn examples(text: &str) -> Vec<Example> {
    let mut found: Vec<Example> = Vec::new();
    let (mut section, mut inside) = (String::new(), false);
    for line in text.lines() {
        if let Some(head) = line.strip_prefix("## ") {
            section = head.split(' ').next().unwrap_or("").to_string();
        }
        match line.strip_prefix("    ") {
            Some(code) if code.contains("bin/vempaldi ") => {
                found.push(Example { section: section.clone(), command: code.to_string(), says: Vec::new() });
                inside = true;
            }
            Some(said) if inside => found.last_mut().expect("inside").says.push(said.to_string()),
            _ => inside = false,
        }
    }
    found
}

fn document() -> Vec<Example> {
    examples(&std::fs::read_to_string(root().join("docs/REFUSALS.md")).expect("the document"))
}

/// Runs it and compares all that it prints. The result is the standard error alone.
fn run(example: &Example, status: i32) -> String {
    let line = example.command.replace("bin/vempaldi", env!("CARGO_BIN_EXE_vempaldi"));
    let output = Command::new("sh").args(["-c", &line]).current_dir(root()).output().expect("ran");
    let err = String::from_utf8_lossy(&output.stderr).into_owned();
    let said = String::from_utf8_lossy(&output.stdout).into_owned() + &err;
    assert_eq!(said.lines().collect::<Vec<_>>(), example.says, "{}", example.command);
    assert_eq!(output.status.code(), Some(status), "{}", example.command);
    err
}

/// The examples of sections that have a ground's number, in the head of the document, for scripts, on JSON.
fn of_section(wanted: impl Fn(&str) -> bool) -> Vec<Example> {
    document().into_iter().filter(|example| wanted(&example.section)).collect()
}

fn is_number(section: &str) -> bool {
    section.parse::<u64>().is_ok()
}

#[test]
fn every_refusal_says_what_is_printed_below_it() {
    let found = of_section(is_number);
    // Every ground but 13 and 15, which the command never meets; 16 and 18 are none.
    for ground in (1..=20).filter(|ground| ![13, 15, 16, 18].contains(ground)) {
        assert!(found.iter().any(|example| example.section == ground.to_string()), "{ground}");
    }
    for example in found {
        let number = format!(": refused {} ", example.section);
        assert!(example.says[0].contains(&number), "{}", example.command);
        run(&example, 1);
    }
}

#[test]
fn the_head_says_a_refusal_too() {
    let found = of_section(|section| section.is_empty());
    assert_eq!(found.len(), 1);
    run(&found[0], 1);
}

/// It is none of the library's, so no refusal is said.
#[test]
fn names_of_joined_texts_are_told_as_printed() {
    let found = of_section(|section| section == "Names");
    assert_eq!(found.len(), 1);
    assert!(!run(&found[0], 1).contains("refused"));
}

#[test]
fn every_raw_answer_is_what_is_printed_below_it() {
    let found = of_section(|section| section == "For");
    assert_eq!(found.len(), 14);
    for example in found {
        assert!(example.command.contains(" --raw "), "{}", example.command);
        let refused = example.says.iter().any(|line| line.starts_with("refused "));
        assert_eq!(run(&example, i32::from(refused)), "", "{}", example.command);
    }
}

#[test]
fn every_object_is_what_is_printed_below_it() {
    let found = of_section(|section| section == "JSON");
    assert_eq!(found.len(), 3);
    for example in found {
        assert_eq!(example.says.len(), 1, "{}", example.command);
        let accepted = example.says[0].contains("\"accepted\":true");
        assert_eq!(run(&example, i32::from(!accepted)), "", "{}", example.command);
    }
}
