//! Runs the command as a user does.

use std::io::Write;
use std::path::PathBuf;
use std::process::{Command, Stdio};

pub const EXAMPLE: &str = "examples/example.table";

pub struct Told {
    pub status: i32,
    pub out: String,
    pub err: String,
}

fn root() -> PathBuf {
    PathBuf::from(env!("CARGO_MANIFEST_DIR")).join("..")
}

/// Runs in the repository's directory with these bytes as the standard input.
pub fn fed(words: &[&str], input: &[u8]) -> Told {
    let mut command = Command::new(env!("CARGO_BIN_EXE_vempaldi"));
    let command = command.args(words).current_dir(root());
    let piped = command.stdin(Stdio::piped()).stdout(Stdio::piped()).stderr(Stdio::piped());
    let mut child = piped.spawn().expect("started");
    // A command that does not read its input closes it early.
    child.stdin.take().expect("piped").write_all(input).ok();
    let output = child.wait_with_output().expect("ended");
    Told {
        status: output.status.code().expect("a status"),
        out: String::from_utf8_lossy(&output.stdout).into_owned(),
        err: String::from_utf8_lossy(&output.stderr).into_owned(),
    }
}

pub fn run(words: &[&str]) -> Told {
    fed(words, &[])
}

pub fn bytes(name: &str) -> Vec<u8> {
    std::fs::read(root().join(name)).expect("an example")
}

/// A fresh name for an output.
pub fn out_name(name: &str) -> String {
    std::env::temp_dir().join(format!("vempaldi-{}-{name}", std::process::id())).display().to_string()
}
