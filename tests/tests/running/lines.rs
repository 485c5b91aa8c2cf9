//! Counts plans by their lines, so that a test can show that blocks on whole
//! lines were among them.

use vempaldi_checks::blocks::{indices, plan, LONGEST_LINE};
use vempaldi_checks::settings::Settings;
use vempaldi_checks::stepping::Schedule;

/// Of plans for two processors or more, those with lines of two iterations or
/// more.
pub struct Lines {
    plans: u64,
    /// How many have lines of each length.
    lengths: [u64; LONGEST_LINE as usize + 1],
    /// Those with a last block that is cut, and with one shorter than all
    /// others.
    cut: u64,
    shorter: u64,
}

impl Default for Lines {
    fn default() -> Lines {
        Lines { plans: 0, lengths: [0; LONGEST_LINE as usize + 1], cut: 0, shorter: 0 }
    }
}

impl Lines {
    pub fn add(&mut self, schedule: &Schedule) {
        let Settings { processors, line, .. } = schedule.settings;
        if processors < 2 || line < 2 {
            return;
        }
        let indices = indices(&schedule.table);
        let blocks = plan(&schedule.table, schedule.settings).expect("planned").blocks;
        let (last, others) = blocks.split_last().expect("a plan has blocks");
        self.plans += 1;
        self.lengths[line as usize] += 1;
        self.cut += u64::from(indices.count() % i64::from(line) > 0);
        self.shorter += u64::from(others.iter().all(|block| last.count() < block.count()));
    }

    /// How many lengths were met.
    fn lengths(&self) -> usize {
        self.lengths.iter().filter(|&&plans| plans > 0).count()
    }

    pub fn print(&self) {
        let Lines { plans, cut, shorter, .. } = self;
        let lengths = self.lengths();
        println!("  {plans} for two processors and more with lines of two iterations and more,");
        println!("  of {lengths} lengths; {cut} cut their last block, {shorter} have it shortest");
    }

    /// Ends the program where there were too few of one kind, or where a
    /// length was never met.
    pub fn require(&self, least: u64) {
        for count in [self.plans, self.cut, self.shorter] {
            assert!(count >= least, "too few plans with lines of one kind");
        }
        assert!(self.lengths() as u32 == LONGEST_LINE - 1, "a length of lines was never met");
    }
}
