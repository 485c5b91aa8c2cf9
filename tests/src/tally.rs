//! Counts how often each ground was met, so that a test can show that none
//! was left out.

#[derive(Default)]
pub struct Tally {
    /// By number; the highest is 20.
    counts: [u64; 21],
}

impl Tally {
    pub fn new() -> Tally {
        Tally::default()
    }

    /// Counts one answer; number 0 is an accepted call.
    pub fn add(&mut self, number: u64) {
        self.counts[number as usize] += 1;
    }

    /// Counts what another one counted.
    pub fn add_all(&mut self, other: &Tally) {
        for (count, more) in self.counts.iter_mut().zip(other.counts) {
            *count += more;
        }
    }

    pub fn total(&self) -> u64 {
        self.counts.iter().sum()
    }

    pub fn print(&self, name: &str) {
        println!("{name}: {} cases compared", self.total());
        for (number, count) in self.counts.iter().enumerate() {
            if *count > 0 {
                println!("  ground {number:2}: {count}");
            }
        }
    }

    /// Ends the program where one of the numbers was met too seldom.
    pub fn require(&self, numbers: &[usize], least: u64) {
        for &number in numbers {
            let count = self.counts[number];
            assert!(count >= least, "ground {number} was met {count} times, fewer than {least}");
        }
    }
}
