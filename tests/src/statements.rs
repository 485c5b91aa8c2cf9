//! Counts tables by their statements, and the grounds that were met at the
//! record of a further statement, so that a test can show that none was left
//! out.

use crate::outcome::Refusal;
use crate::reader::body_length;
use crate::table::MOST_STATEMENTS;

const STATEMENT: u8 = 7;
/// The grounds of a further statement, in the order of its tests.
const GROUNDS: [u64; 7] = [2, 6, 4, 1, 5, 3, 7];

#[derive(Default)]
pub struct Statements {
    /// By the most statements that a loop has; of a refused table, up to the
    /// record that met the ground.
    tables: [u64; MOST_STATEMENTS + 2],
    /// By the ground that was met at the record of a further statement.
    grounds: [u64; GROUNDS.len()],
}

impl Statements {
    pub fn new() -> Statements {
        Statements::default()
    }

    pub fn add(&mut self, bytes: &[u8], refusal: Option<&Refusal>) {
        let at_record = refusal.filter(|refusal| refusal.number < 8);
        let last = at_record.map_or(bytes.len(), |refusal| refusal.place as usize);
        let most = most_until(bytes, last).min(MOST_STATEMENTS + 1);
        self.tables[most] += 1;
        let met = at_record.filter(|_| bytes.get(last) == Some(&STATEMENT));
        let ground = met.and_then(|met| GROUNDS.iter().position(|&ground| ground == met.number));
        if let Some(ground) = ground {
            self.grounds[ground] += 1;
        }
    }

    /// Tables of which a loop has two statements or more.
    pub fn several(&self) -> u64 {
        self.tables[2..].iter().sum()
    }

    /// Prints the counts of tables alone.
    pub fn print_counts(&self, name: &str) {
        println!("{name}: {} tables of several statements in a loop", self.several());
        for (count, tables) in self.tables.iter().enumerate().skip(1) {
            println!("  {tables:7} of {count} at most");
        }
    }

    pub fn print(&self, name: &str) {
        self.print_counts(name);
        for (ground, count) in GROUNDS.iter().zip(self.grounds) {
            println!("  ground {ground} at a further statement: {count}");
        }
    }

    /// Ends the program where a count of statements was made or a ground met
    /// too seldom.
    pub fn require(&self, least: u64) {
        self.require_counts(MOST_STATEMENTS + 1, least);
        for (ground, count) in GROUNDS.iter().zip(self.grounds) {
            assert!(count >= least, "ground {ground} at a further statement: {count} times");
        }
    }

    /// The same of counts up to `most` statements alone.
    pub fn require_counts(&self, most: usize, least: u64) {
        for (count, &tables) in self.tables.iter().enumerate().take(most + 1).skip(1) {
            assert!(tables >= least, "{count} statements: {tables} tables, fewer than {least}");
        }
    }
}

/// The most statements of a loop among the records up to the one at `last`.
fn most_until(bytes: &[u8], last: usize) -> usize {
    let (mut at, mut open, mut most) = (0, 0, 0);
    while at <= last && at < bytes.len() {
        match bytes[at] {
            2 => open = 1,
            STATEMENT if open > 0 => open += 1,
            _ => {}
        }
        most = most.max(open);
        at += 1 + body_length(bytes[at]);
    }
    most
}

#[cfg(test)]
mod tests {
    use super::*;
    use crate::examples::{EXAMPLE, TWO_STATEMENTS};
    use crate::limits;

    #[test]
    fn statements_and_their_grounds_are_counted() {
        let mut statements = Statements::new();
        statements.add(&EXAMPLE, None);
        statements.add(&TWO_STATEMENTS, None);
        assert_eq!((statements.tables, statements.several()), ([0, 1, 1, 0, 0, 0], 1));
        // The record of the second statement stands at 33.
        statements.add(&TWO_STATEMENTS[..34], Some(&Refusal::new(1, 33)));
        statements.add(&TWO_STATEMENTS[..24], Some(&Refusal::new(1, 22)));
        assert_eq!(
            (statements.tables, statements.grounds),
            ([0, 2, 2, 0, 0, 0], [0, 0, 0, 1, 0, 0, 0])
        );
        assert!(std::panic::catch_unwind(|| statements.require(1)).is_err());
    }

    #[test]
    fn the_typed_cases_meet_every_ground() {
        let mut statements = Statements::new();
        for case in limits::cases() {
            let [number, place, ..] = case.answer;
            let refusal = Refusal { number, place, named: [0, 0] };
            statements.add(&case.bytes, (number > 0).then_some(&refusal));
        }
        statements.require(1);
    }
}
