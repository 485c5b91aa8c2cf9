//! Counts plans by hand, so that a test can show that these were among them by
//! which it is seen whether the plan was gone by.

use crate::plans::Planned;
use vempaldi_checks::blocks::{indices, plan};
use vempaldi_checks::by_hand::MOST_AMOUNT;
use vempaldi_checks::stepping::Schedule;

/// Of plans by hand, so many are of each kind.
#[derive(Default)]
pub struct Hands {
    plans: u64,
    /// Those for two processors or more whose lists are not those of the own
    /// numbers, and of these those whose order before the barrier alone or
    /// what is peeled differs.
    other: u64,
    peeled: u64,
    /// Those for one processor whose list has another order.
    alone: u64,
    /// Those with a shift above the count of all indices, and with 10,000.
    beyond: u64,
    highest: u64,
}

impl Hands {
    pub fn add(&mut self, planned: &Planned) {
        let Planned { bytes, schedule } = planned;
        let own = Schedule::new(bytes, schedule.settings.own()).expect("the own has a plan");
        let amounts = plan(&schedule.table, schedule.settings).expect("planned").amounts;
        let (differs, parallel) = (own.lists != schedule.lists, schedule.processors() > 1);
        let both = own.lists.iter().zip(&schedule.lists);
        let peeled = both.clone().any(|(own, list)| own.peeled != list.peeled);
        let count = indices(&schedule.table).count();
        self.plans += 1;
        self.other += u64::from(parallel && differs);
        self.peeled += u64::from(peeled);
        self.alone += u64::from(!parallel && differs);
        self.beyond += u64::from(amounts.iter().any(|one| one.shift > count));
        let highest = |one: i64| one == MOST_AMOUNT;
        self.highest += u64::from(amounts.iter().any(|a| highest(a.shift) || highest(a.peel)));
    }

    pub fn print(&self) {
        let Hands { plans, other, peeled, alone, beyond, highest } = self;
        println!("  of {plans} plans by hand so many have other lists than the own numbers:");
        println!(
            "  {other} for two processors and more, {peeled} in what is peeled, {alone} for one"
        );
        println!("  {beyond} have a shift above all indices, {highest} a number of 10,000");
    }

    /// Ends the program where there were too few of one kind.
    pub fn require(&self, least: u64) {
        let Hands { other, peeled, alone, beyond, highest, .. } = self;
        for count in [other, peeled, alone, beyond, highest] {
            assert!(*count >= least, "too few plans by hand of one kind");
        }
    }
}
