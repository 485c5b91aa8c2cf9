//! Words of a text that look like numbers but are no item: what they are, and what to write instead.

use crate::limits::OFFSETS;
use crate::wording::quoted;

/// Digits, with a sign or a point before or between them: whoever wrote it meant a number.
pub fn looks_like_number(word: &str) -> bool {
    let bare = word.strip_prefix(['+', '-']).unwrap_or(word);
    let begins = bare.strip_prefix('.').unwrap_or(bare).starts_with(|first: char| first.is_ascii_digit());
    begins && (bare.len() == word.len() || bare.chars().all(|one| one.is_ascii_digit() || one == '.'))
}

/// What is said of such a word. The array is one that an offset can be shown with.
pub fn no_item(word: &str, array: &str) -> String {
    match word.strip_prefix('-') {
        Some(digits) if !digits.contains('.') => format!("{} is no item: {}", quoted(word), no_negative(digits, array)),
        _ => format!("{} is not a whole number up to {}{}", quoted(word), u32::MAX, instead(word)),
    }
}

/// Only forms that would be taken are offered.
fn no_negative(digits: &str, array: &str) -> String {
    let Ok(value) = digits.parse::<u32>() else {
        return format!("a whole number is not negative, and {} at most", u32::MAX);
    };
    let offset = i16::try_from(value).ok().filter(|value| OFFSETS.contains(value));
    let offset = offset.map_or(String::new(), |_| format!("; an offset is written {array}[i-{digits}]"));
    format!("a whole number is not negative. Write '0 {digits} -' or '{digits} neg'{offset}")
}

/// A fraction as the division that gives it: both numbers are exact, so the quotient is what the decimals would be rounded to.
fn instead(word: &str) -> String {
    let bare = word.trim_start_matches(['+', '-']);
    let neg = if word.starts_with('-') { " neg" } else { "" };
    match fraction(bare) {
        Some((over, 1)) => format!("; write {over}{neg}"),
        Some((over, under)) => format!("; a fraction is a division: {over} {under} /{neg}"),
        None if word.contains('.') => "; a fraction is a division of two such numbers".to_string(),
        None if word.starts_with('+') && bare.parse::<u32>().is_ok() => format!("; write {bare}"),
        None => String::new(),
    }
}

/// The two numbers of a decimal fraction in its lowest terms, where both are items.
fn fraction(decimal: &str) -> Option<(u32, u32)> {
    let (whole, decimals) = decimal.split_once('.')?;
    let all = format!("{whole}{decimals}");
    if !all.chars().all(|one| one.is_ascii_digit()) {
        return None;
    }
    let over: u64 = all.parse().ok()?;
    let under = 10_u64.checked_pow(decimals.len().try_into().ok()?)?;
    let common = divisor(over, under);
    Some(((over / common).try_into().ok()?, (under / common).try_into().ok()?))
}

/// The greatest common divisor.
fn divisor(one: u64, other: u64) -> u64 {
    match other {
        0 => one,
        _ => divisor(other, one % other),
    }
}

#[cfg(test)]
mod tests {
    use super::*;

    #[test]
    fn fractions_are_in_lowest_terms_and_divide_to_the_decimals() {
        for (decimal, terms) in [
            ("1.5", Some((3, 2))),
            (".5", Some((1, 2))),
            ("0.1", Some((1, 10))),
            ("2.", Some((2, 1))),
            ("0.0", Some((0, 1))),
            ("00.250", Some((1, 4))),
            ("4294967295.0", Some((u32::MAX, 1))),
            ("4294967296.0", None),
            ("0.0000000001", None),
            ("1.2.3", None),
            ("1.5e3", None),
            ("99999999999999999999.5", None),
            ("0.50000000000000000000000000", None),
        ] {
            assert_eq!(fraction(decimal), terms, "{decimal}");
            let quotient = terms.map(|(over, under)| f64::from(over) / f64::from(under));
            assert!(quotient.is_none_or(|quotient| Ok(quotient) == decimal.parse()), "{decimal}");
        }
    }

    #[test]
    fn names_and_operations_do_not_look_like_numbers() {
        for word in ["-1", "1", ".5", "-.5", "+2.5", "-1.5", "1e3", "1.2.3", "4294967296", "+7"] {
            assert!(looks_like_number(word), "{word}");
        }
        for word in ["", "-", "+", ".", "-.", "..5", "--1", "-x", "H[i]", "x1", "-1x", "-1[i]", "neg"] {
            assert!(!looks_like_number(word), "{word}");
        }
    }
}
