//! `--plan PLAN`: a plan by hand from a file, in bytes or as text; `--write-plan OUT`: a plan's shifts and peels as such a text.

use crate::batch;
use crate::infix::assignments;
use crate::input::Input;
use crate::options::Options;
use crate::outcome::Failure;
use crate::outputs;
use crate::pieces::Piece;
use crate::records::{decode, Loop};
use crate::wording::{counted, in_one_line, quoted};
use std::io::Read;
use vempaldi::{check_plan, facts, shifts_and_peels, Amounts, Refusal, Settings, MOST_AMOUNT};

/// No more of a file is read: 16 loops need far less, and what `--write-plan` writes leaves out what would not fit.
const MOST_BYTES: usize = 65_536;

/// The settings with the plan of a file.
pub fn with_plan(settings: Settings, name: &str) -> Result<Settings, Failure> {
    let bytes = batch::rest(name, &mut batch::open(name)?.take(MOST_BYTES as u64 + 1))?;
    match as_text(&bytes) {
        Some(text) => pairs(name, text).map(|pairs| settings.amounts(pairs)),
        None => Ok(settings.plan(&bytes)),
    }
}

/// What has no character but those of a text is one. Nothing that would be accepted as bytes is lost by that: of the four bytes of a number up
/// to 10,000 at least two are 0.
fn as_text(bytes: &[u8]) -> Option<&str> {
    let of_text = |one: char| !one.is_control() || "\t\n\r".contains(one);
    std::str::from_utf8(bytes).ok().filter(|text| !text.is_empty() && text.chars().all(of_text))
}

/// The pairs of a text: a line for each loop, but for blank ones and comments.
fn pairs(name: &str, text: &str) -> Result<Vec<(u32, u32)>, Failure> {
    if text.len() > MOST_BYTES {
        return Err(Failure::Usage(format!("{name}: more than {MOST_BYTES} bytes are no text of a plan")));
    }
    let mut found = Vec::new();
    for (number, line) in (1..).zip(text.lines()) {
        let words: Vec<&str> = Piece::of_line(line).words().map(|word| word.text).collect();
        let wrong = |what: String| Failure::Usage(format!("{name}:{number}: {what}; a line is SHIFT PEEL, two whole numbers"));
        match words[..] {
            [] => {}
            [shift, peel] => found.push((amount(shift).map_err(wrong)?, amount(peel).map_err(wrong)?)),
            _ => return Err(wrong(format!("{} in this line", counted(words.len(), "word")))),
        }
    }
    Ok(found)
}

/// A number that is above 10,000 is the library's to refuse, if its four bytes hold it.
fn amount(word: &str) -> Result<u32, String> {
    let digits = word.bytes().all(|one| one.is_ascii_digit());
    let number = word.parse().ok().filter(|_| digits);
    number.ok_or_else(|| match digits {
        true => format!("{} does not fit four bytes", quoted(word)),
        false => format!("{} is no whole number", quoted(word)),
    })
}

/// What is wrong with a plan that is refused with 19.
pub fn wrong_form(table: &[u8], settings: &Settings) -> Option<String> {
    let (loops, length) = (facts(table).ok()?.loops.len(), settings.plan_length()? as usize);
    if length != 8 * loops {
        let least = if length > MOST_BYTES { "at least " } else { "" };
        // A text has whole pairs, so of another length it was taken for bytes.
        let pairs = match length % 8 {
            0 if length > 0 => format!(" ({})", counted(length / 8, "pair")),
            0 => String::new(),
            _ => " (read as bytes: it is no text in UTF-8)".to_string(),
        };
        let need = if loops == 1 { "needs" } else { "need" };
        let needed = format!("{} {need} {} ({})", counted(loops, "loop"), 8 * loops, counted(loops, "pair"));
        return Some(format!("the plan has {least}{}{pairs}, {needed}", counted(length, "byte")));
    }
    let plan = settings.by_hand()?;
    let numbers = plan.iter().enumerate().flat_map(|(k, one)| [("shift", k, one.shift), ("peel", k, one.peel)]);
    let mut above = numbers.filter(|number| number.2 > MOST_AMOUNT);
    above.next().map(|(word, k, value)| format!("{word} {value} of loop {k}, allowed are 0 to {MOST_AMOUNT}"))
}

/// The shifts and peels that a plan goes by, its own or those by hand, and its threshold.
pub fn in_force(table: &[u8], settings: Settings) -> Result<(Vec<Amounts>, u32), Refusal> {
    let threshold = check_plan(table, settings)?;
    let amounts = settings.by_hand().map_or_else(|| shifts_and_peels(table), Ok)?;
    Ok((amounts, threshold))
}

/// `--write-plan` names a file that the command does not read, for one table.
pub fn may_write(options: &Options) -> Result<(), Failure> {
    let Some(out) = options.value("--write-plan") else { return Ok(()) };
    match options.files.len() {
        _ if out == "-" => Err(Failure::Usage("--write-plan OUT must name a file".to_string())),
        _ if options.has("-o") => Err(Failure::Usage("--write-plan is not for -o DIR".to_string())),
        0 | 1 => outputs::apart_from_inputs(options, Some(out)),
        count => Err(Failure::Usage(format!("--write-plan is for one file, not {count}"))),
    }
}

/// Writes the plan that an accepted call goes by, where that is asked for.
pub fn write(options: &Options, input: &Input, settings: Settings) -> Result<(), Failure> {
    match (options.value("--write-plan"), in_force(&input.table, settings)) {
        (Some(out), Ok((amounts, _))) => batch::write(Some(out), text(input, &amounts).as_bytes()),
        _ => Ok(()),
    }
}

/// A line for each loop, which a comment names, with its statements where all of it can be read again.
fn text(input: &Input, amounts: &[Amounts]) -> String {
    let loops = decode(&input.table).0.loops;
    let rows = |said: &dyn Fn(&Loop) -> String| -> String {
        let row = |(k, (one, own)): (usize, (&Loop, &Amounts))| {
            format!("{:<11} # loop {k}, i = {} to {}{}\n", format!("{} {}", own.shift, own.peel), one.first, one.last, said(one))
        };
        loops.iter().zip(amounts).enumerate().map(row).collect()
    };
    let whole = rows(&|one| assignments(one, &input.names).map_or(String::new(), |infix| format!(": {}", infix.text)));
    let head = format!("# SHIFT PEEL of each loop of {}, in table order\n", in_one_line(&input.name));
    match head.len() + whole.len() {
        0..=MOST_BYTES => head + &whole,
        _ => "# SHIFT PEEL of each loop, in table order\n".to_string() + &rows(&|_| String::new()),
    }
}

#[cfg(test)]
mod tests {
    use super::*;

    fn told(text: &str) -> Result<Vec<(u32, u32)>, String> {
        pairs("a.hand", text).map_err(|failure| failure.to_string())
    }

    #[test]
    fn a_text_has_a_line_for_each_loop() {
        assert_eq!(told("0 0\n1 1\n"), Ok(vec![(0, 0), (1, 1)]));
        assert_eq!(told("# a plan\n\n 0\t0 # loop 0\r\n\r\n007 4294967295"), Ok(vec![(0, 0), (7, u32::MAX)]));
        assert_eq!(told("# nothing\n"), Ok(vec![]));
        let form = "a line is SHIFT PEEL, two whole numbers";
        assert_eq!(told("0 0\n1\n"), Err(format!("a.hand:2: 1 word in this line; {form}")));
        assert_eq!(told("0 0 0"), Err(format!("a.hand:1: 3 words in this line; {form}")));
        assert_eq!(told("0 0\n\n1 -1"), Err(format!("a.hand:3: '-1' is no whole number; {form}")));
        assert_eq!(told("0 +1"), Err(format!("a.hand:1: '+1' is no whole number; {form}")));
        assert_eq!(told("0 4294967296"), Err(format!("a.hand:1: '4294967296' does not fit four bytes; {form}")));
    }

    #[test]
    fn what_has_a_zero_byte_is_no_text() {
        assert_eq!(as_text(b""), None);
        assert_eq!(as_text(&[0; 16]), None);
        assert_eq!(as_text(b"0 0\n1 1\n\0"), None);
        assert_eq!(as_text(&[0xff, 0xfe]), None);
        assert_eq!(as_text("0 0 # höher".as_bytes()), Some("0 0 # höher"));
    }
}
