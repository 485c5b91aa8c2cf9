//! The name that a mistyped word was most likely meant to be.

/// More than so many mistakes make another word.
const MOST_MISTAKES: usize = 2;

/// The name that fewest mistakes lead to, the first of several, and none where the word is too far from all.
pub fn nearest<'a>(word: &str, names: &[&'a str]) -> Option<&'a str> {
    let mistakes = |name: &str| distance(&word.chars().collect::<Vec<_>>(), &name.chars().collect::<Vec<_>>());
    let best = names.iter().copied().min_by_key(|name| mistakes(name))?;
    // Of a short word every letter would be a mistake.
    let most = MOST_MISTAKES.min(best.trim_start_matches('-').chars().count() / 2);
    (mistakes(best) <= most).then_some(best)
}

/// How many letters are missing, too many, other ones or in the wrong order.
fn distance(left: &[char], right: &[char]) -> usize {
    let mut rows: Vec<Vec<usize>> = vec![(0..=right.len()).collect()];
    for (i, a) in left.iter().enumerate() {
        let mut row = vec![i + 1];
        for (j, b) in right.iter().enumerate() {
            let other = rows[i][j] + usize::from(a != b);
            let mut least = other.min(rows[i][j + 1] + 1).min(row[j] + 1);
            if i > 0 && j > 0 && *a == right[j - 1] && left[i - 1] == *b {
                least = least.min(rows[i - 1][j - 1] + 1);
            }
            row.push(least);
        }
        rows.push(row);
    }
    rows[left.len()][right.len()]
}
