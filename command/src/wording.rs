//! Words and counts in messages.

/// More of a word would hide the message.
const MOST: usize = 40;

/// A word of the input: cut where it is long, and without characters that a terminal would obey.
pub fn quoted(word: &str) -> String {
    let shown: String = word.chars().take(MOST).map(visible).collect();
    let cut = if word.chars().nth(MOST).is_some() { ".." } else { "" };
    format!("'{shown}{cut}'")
}

/// A file's name as it is, but quoted where it has characters that a line could not have.
pub fn in_one_line(name: &str) -> String {
    let escaped: String = name.chars().map(visible).collect();
    if escaped == name {
        escaped
    } else {
        format!("'{escaped}'")
    }
}

/// A character as it is; one that a terminal would obey, or not show, by its escape.
fn visible(one: char) -> String {
    match one {
        '\'' | '"' | '\\' => one.to_string(),
        other => other.escape_debug().to_string(),
    }
}

/// `1 processor`, `2 processors`, `2 indices`.
pub fn counted(count: usize, word: &str) -> String {
    match (count, word) {
        (1, _) => format!("1 {word}"),
        (_, "index") => format!("{count} indices"),
        _ => format!("{count} {word}s"),
    }
}

/// `9th`, `17th`, `33rd`.
pub fn ordinal(number: usize) -> String {
    let ending = match (number % 10, number % 100) {
        (_, 11..=13) => "th",
        (1, _) => "st",
        (2, _) => "nd",
        (3, _) => "rd",
        _ => "th",
    };
    format!("{number}{ending}")
}

#[cfg(test)]
mod tests {
    use super::*;

    #[test]
    fn what_can_be_printed_stands_as_it_is() {
        assert_eq!(quoted("\"H"), "'\"H'");
        assert_eq!(quoted("a\\b"), "'a\\b'");
        assert_eq!(quoted("a\u{1b}[1m"), "'a\\u{1b}[1m'");
        assert_eq!(in_one_line("it's.txt"), "it's.txt");
        assert_eq!(in_one_line("two\nlines"), "'two\\nlines'");
    }
}
