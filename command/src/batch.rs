//! Several files, one after the other: reading, progress, the line that counts them.

use crate::answers;
use crate::input::Input;
use crate::options::Options;
use crate::outcome::{Failure, Outcome};
use crate::parse::TextError;
use std::fs::{self, File};
use std::io::{self, IsTerminal, Read, Write};
use std::sync::atomic::{AtomicBool, Ordering};
use vempaldi::DECIDING_BYTES;

/// From how many files on a terminal shows how far the work is.
const MANY: usize = 20;

/// Whether a line of progress stands on the terminal, which has to go before anything else is written there.
static SHOWN: AtomicBool = AtomicBool::new(false);

/// The words for what was counted.
pub struct Words {
    pub good: &'static str,
    pub bad: &'static str,
}

/// A file or the standard input.
pub fn open(name: &str) -> Result<Box<dyn Read>, Failure> {
    match name {
        "-" => Ok(Box::new(io::stdin().lock())),
        _ => Ok(Box::new(File::open(name).map_err(|error| Failure::Io(name.to_string(), error))?)),
    }
}

/// As many bytes as decide what the library answers to a table, so that no more is read of what is none.
pub fn some(name: &str, reader: &mut dyn Read) -> Result<Vec<u8>, Failure> {
    rest(name, &mut reader.take(DECIDING_BYTES as u64))
}

pub fn rest(name: &str, reader: &mut dyn Read) -> Result<Vec<u8>, Failure> {
    let mut bytes = Vec::new();
    reader.read_to_end(&mut bytes).map_err(|error| Failure::Io(name.to_string(), error))?;
    Ok(bytes)
}

pub fn read_whole(name: &str) -> Result<Vec<u8>, Failure> {
    rest(name, &mut open(name)?)
}

/// Writes to a file, or to the standard output for `-` and where none is named.
pub fn write(name: Option<&str>, bytes: &[u8]) -> Result<(), Failure> {
    match name {
        None | Some("-") => print(bytes),
        Some(name) => fs::write(name, bytes).map_err(|error| Failure::Io(name.to_string(), error)),
    }
}

/// A reader that goes away early, such as `head`, is no error.
pub fn print(bytes: &[u8]) -> Result<(), Failure> {
    clear_progress();
    let mut out = io::stdout().lock();
    match out.write_all(bytes).and_then(|()| out.flush()) {
        Err(error) if error.kind() != io::ErrorKind::BrokenPipe => Err(Failure::Io("output".to_string(), error)),
        _ => Ok(()),
    }
}

/// A line on the standard error.
pub fn say(line: &str) {
    clear_progress();
    eprintln!("{line}");
}

fn show_progress(line: &str) {
    clear_progress();
    eprint!("{line}");
    SHOWN.store(true, Ordering::Relaxed);
}

fn clear_progress() {
    if SHOWN.swap(false, Ordering::Relaxed) {
        eprint!("\r\x1b[K");
    }
}

/// Does the work for each table or text. What is wrong with a text is said.
pub fn each(
    options: &Options,
    words: &Words,
    mut work: impl FnMut(&Input) -> Result<Outcome, Failure>,
) -> Result<Outcome, Failure> {
    each_given(options, words, |name, given| match given {
        Ok(input) => work(&input),
        Err(error) => answers::wrong_text(name, &error),
    })
}

/// Does the work for each file, also for a text that is wrong. Of several files one that cannot be read is named, and the others are still
/// done; an output that cannot be written ends it. A script is told of no progress and no counts.
pub fn each_given(
    options: &Options,
    words: &Words,
    mut work: impl FnMut(&str, Result<Input, TextError>) -> Result<Outcome, Failure>,
) -> Result<Outcome, Failure> {
    let mut count = Count::default();
    let files = options.some_files()?;
    let told = files.len() > 1 && !options.for_scripts();
    let shown = told && files.len() >= MANY && io::stderr().is_terminal();
    for (at, name) in files.iter().enumerate() {
        if shown {
            show_progress(&format!("{} of {}, {} {}: {name}", at + 1, files.len(), count.bad, words.bad));
        }
        match Input::read(name) {
            Ok(given) => match work(name, given)? {
                Outcome::Good => count.good += 1,
                _ => count.bad += 1,
            },
            Err(failure) if files.len() == 1 => return Err(failure),
            Err(failure) => {
                say(&format!("vempaldi: {failure}"));
                count.unread += 1;
            }
        }
    }
    clear_progress();
    if told {
        say(&count.line(words));
    }
    Ok(count.outcome())
}

/// How many files came to what.
#[derive(Default)]
struct Count {
    good: usize,
    bad: usize,
    unread: usize,
}

impl Count {
    fn outcome(&self) -> Outcome {
        match (self.bad, self.unread) {
            (_, 1..) => Outcome::Unread,
            (1.., _) => Outcome::Bad,
            _ => Outcome::Good,
        }
    }

    fn line(&self, words: &Words) -> String {
        let Count { good, bad, unread } = self;
        let mut line = format!("{} files: {good} {}, {bad} {}", good + bad + unread, words.good, words.bad);
        if *unread > 0 {
            line += &format!(", {unread} not read");
        }
        line
    }
}
