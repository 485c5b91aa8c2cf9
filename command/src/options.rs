//! The words behind a command: files and options, in any order.

use crate::by_hand;
use crate::nearest::nearest;
use crate::outcome::Failure;
use crate::wording::quoted;
use vempaldi::{Settings, LONGEST_LINE, MOST_PROCESSORS};

#[derive(Default)]
pub struct Options {
    pub files: Vec<String>,
    /// An option's name and its value, empty for one that has none.
    given: Vec<(&'static str, String)>,
}

const WITH_VALUE: [&str; 7] = ["-p", "--line", "--plan", "--write-plan", "-o", "--order", "--memory"];
const ALONE: [&str; 4] = ["-q", "--values", "--raw", "--json"];

impl Options {
    pub fn read(words: &[String]) -> Result<Options, Failure> {
        let mut options = Options::default();
        let mut words = words.iter();
        while let Some(word) = words.next() {
            if word == "--" {
                options.files.extend(words.by_ref().cloned());
            } else if !word.starts_with('-') || word == "-" {
                options.files.push(word.clone());
            } else {
                let (name, attached) = apart(word)?;
                options.give(name, attached, &mut words)?;
            }
        }
        options.input_once()?;
        Ok(options)
    }

    fn give<'a>(
        &mut self,
        name: &'static str,
        attached: Option<&str>,
        words: &mut impl Iterator<Item = &'a String>,
    ) -> Result<(), Failure> {
        if self.has(name) {
            return Err(Failure::Usage(format!("{name} is given twice")));
        }
        let value = match (WITH_VALUE.contains(&name), attached) {
            (true, Some(value)) => value.to_string(),
            (true, None) => words.next().cloned().ok_or_else(|| Failure::Usage(format!("{name} needs a value")))?,
            (false, None) => String::new(),
            (false, Some(_)) => return Err(Failure::Usage(format!("{name} has no value"))),
        };
        self.given.push((name, value));
        Ok(())
    }

    /// The standard input has one table, plan, order or memory: a second reader would find nothing.
    fn input_once(&self) -> Result<(), Failure> {
        let files = self.files.iter().filter(|file| *file == "-").count();
        let values = self.given.iter().filter(|(name, value)| value == "@-" || *name == "--plan" && value == "-").count();
        match files + values {
            0 | 1 => Ok(()),
            _ => Err(Failure::Usage("the standard input can be read once only".to_string())),
        }
    }

    /// Refuses options that the command at hand does not have.
    pub fn only(self, names: &[&str]) -> Result<Options, Failure> {
        match self.given.iter().find(|(name, _)| !names.contains(name)) {
            Some((name, _)) => Err(Failure::Usage(format!("{name} is not for this command"))),
            None => Ok(self),
        }
    }

    pub fn value(&self, name: &str) -> Option<&str> {
        self.given.iter().find(|(given, _)| *given == name).map(|(_, value)| value.as_str())
    }

    pub fn has(&self, name: &str) -> bool {
        self.value(name).is_some()
    }

    /// Whether the answer alone is to be printed, for a script.
    pub fn raw(&self) -> bool {
        self.has("--raw")
    }

    /// Whether a script reads what is printed: it needs no progress and no counts.
    pub fn for_scripts(&self) -> bool {
        self.raw() || self.has("--json")
    }

    /// All that is read: the files, that of `--plan`, and those of `--order @FILE` and `--memory @FILE`.
    pub fn inputs(&self) -> impl Iterator<Item = &str> {
        let given = self.given.iter().filter(|(name, _)| ["--order", "--memory"].contains(name));
        let given = given.filter_map(|(_, value)| value.strip_prefix('@'));
        self.files.iter().map(String::as_str).chain(self.value("--plan")).chain(given)
    }

    /// What settles a plan beside the table: how many processors there are, how long a line is where that is said, and a plan by hand, which
    /// is of one table.
    pub fn settings(&self) -> Result<Settings, Failure> {
        let count = self.number("-p", "processors", MOST_PROCESSORS)?;
        let settings = Settings::new(count.ok_or_else(|| Failure::Usage("-p N is missing".to_string()))?);
        let line = self.number("--line", "iterations", LONGEST_LINE)?;
        let settings = line.map_or(settings, |line| settings.line(line));
        match (self.value("--plan"), self.files.len()) {
            (None, _) => Ok(settings),
            (Some(name), 0 | 1) => by_hand::with_plan(settings, name),
            (_, count) => Err(Failure::Usage(format!("--plan is for one file, not {count}"))),
        }
    }

    /// An option's value as a number. One that is outside its range is the library's to refuse.
    fn number(&self, name: &str, of: &str, most: u32) -> Result<Option<u32>, Failure> {
        let wrong = |value: &str| Failure::Usage(format!("{name} {} is not a number of {of}, 1 to {most}", quoted(value)));
        self.value(name).map(|value| value.parse().map_err(|_| wrong(value))).transpose()
    }

    /// At least one file.
    pub fn some_files(&self) -> Result<&[String], Failure> {
        match self.files.len() {
            0 => Err(Failure::Usage("no file".to_string())),
            _ => Ok(&self.files),
        }
    }

    pub fn one_file(&self) -> Result<&str, Failure> {
        match &self.files[..] {
            [file] => Ok(file),
            files => Err(Failure::Usage(format!("one file, not {}", files.len()))),
        }
    }
}

/// An option's name and the value that is written in the same word: `-p2`, `--order=turns`.
fn apart(word: &str) -> Result<(&'static str, Option<&str>), Failure> {
    let all = || WITH_VALUE.into_iter().chain(ALONE);
    let short = |name: &&str| name.len() == 2 && word.starts_with(*name) && WITH_VALUE.contains(name);
    let (long, value) = word.split_once('=').map_or((word, None), |(name, value)| (name, Some(value)));
    if let Some(name) = all().find(|name| *name == word) {
        Ok((name, None))
    } else if let Some(name) = all().find(short) {
        Ok((name, Some(&word[2..])))
    } else if let Some(name) = all().find(|name| name.starts_with("--") && *name == long) {
        Ok((name, value))
    } else {
        let names: Vec<&str> = all().filter(|name| name.starts_with("--")).collect();
        let meant = nearest(long, &names).map_or(String::new(), |name| format!("; is {name} meant?"));
        Err(Failure::Usage(format!("no option {}{meant}", quoted(word))))
    }
}
