//! A FILE of the command line: a table, or a text that is made into one.

use crate::batch;
use crate::names::Names;
use crate::outcome::Failure;
use crate::parse::{make, Made, TextError};
use crate::pieces::Piece;

pub struct Input {
    /// As given on the command line.
    pub name: String,
    pub table: Vec<u8>,
    pub names: Names,
    /// Where the table comes from a text: what its records were made from.
    pub made: Option<Made>,
}

/// What the first bytes of a file are.
#[derive(Debug, PartialEq, Eq)]
enum Form {
    Table,
    Text,
    /// Blanks and comments alone so far, or a word that may go on.
    Unsettled,
}

impl Input {
    /// Reads a file. What cannot be read is a failure, what is wrong with a text an error of its own.
    pub fn read(name: &str) -> Result<Result<Input, TextError>, Failure> {
        let mut reader = batch::open(name)?;
        let mut bytes = batch::some(name, &mut reader)?;
        if form(&bytes) != Form::Table {
            bytes.extend(batch::rest(name, &mut reader)?);
        }
        Ok(match form(&bytes) {
            Form::Text => Input::of_text(name, &bytes),
            _ => Ok(Input { name: name.to_string(), table: bytes, names: Names::default(), made: None }),
        })
    }

    /// Takes the bytes as a text whatever they are.
    pub fn of_text(name: &str, bytes: &[u8]) -> Result<Input, TextError> {
        let made = make(&String::from_utf8_lossy(bytes))?;
        Ok(Input { name: name.to_string(), table: made.bytes.clone(), names: made.names.clone(), made: Some(made) })
    }
}

/// The words that a text begins with.
const BEGIN: [&str; 2] = ["array", "loop"];

/// A text's first word outside comments is `array` or `loop`. No accepted table begins so, for its first byte is 1.
fn form(bytes: &[u8]) -> Form {
    match first_word(bytes).as_deref() {
        None if bytes.is_empty() => Form::Table,
        None => Form::Unsettled,
        Some(word) if BEGIN.contains(&word) => Form::Text,
        Some(word) if bytes.ends_with(word.as_bytes()) && BEGIN.iter().any(|whole| whole.starts_with(word)) => Form::Unsettled,
        Some(_) => Form::Table,
    }
}

/// The first word of what would be a text.
pub fn first_word(bytes: &[u8]) -> Option<String> {
    let text = String::from_utf8_lossy(bytes);
    let mut words = text.lines().filter_map(|line| Piece::of_line(line).words().next());
    words.next().map(|word| word.text.to_string())
}
