//! Plans by hand for a table, from the second planner's dependences, and files that hold them.

use crate::common::out_name;
use vempaldi_checks::dependence::dependences;
use vempaldi_checks::random::Random;
use vempaldi_checks::table::Table;

pub type Pairs = Vec<(u32, u32)>;

/// A plan that meets every dependence: the least one, and now and then up to `more` higher, which later loops follow.
pub fn met(table: &Table, random: &mut Random, more: i64) -> Pairs {
    let mut plan: Pairs = Vec::new();
    for row in dependences(table) {
        let (mut shift, mut peel) = (0, 0);
        for one in &row {
            shift = shift.max(i64::from(plan[one.from].0) + one.backward());
            peel = peel.max(i64::from(plan[one.from].1) + one.forward());
        }
        let mut higher = || if random.chance(1, 2) { 0 } else { random.between(0, more) };
        plan.push(((shift + higher()) as u32, (peel + higher()) as u32));
    }
    plan
}

/// The same with all shifts and all peels higher by as much as they may be: 10,000 is the highest of both.
pub fn highest(plan: &[(u32, u32)]) -> Pairs {
    let most = |amount: fn(&(u32, u32)) -> u32| 10_000 - plan.iter().map(amount).max().expect("a loop");
    let (shift, peel) = (most(|one| one.0), most(|one| one.1));
    plan.iter().map(|one| (one.0 + shift, one.1 + peel)).collect()
}

/// The largest sum of shift and peel of one loop.
pub fn threshold(plan: &[(u32, u32)]) -> u32 {
    plan.iter().map(|one| one.0 + one.1).max().expect("a loop")
}

pub fn text(plan: &[(u32, u32)]) -> String {
    plan.iter().map(|(shift, peel)| format!("{shift} {peel}\n")).collect()
}

pub fn bytes(plan: &[(u32, u32)]) -> Vec<u8> {
    plan.iter().flat_map(|(shift, peel)| [shift.to_le_bytes(), peel.to_le_bytes()]).flatten().collect()
}

/// A file with a plan, which is not left behind.
pub struct PlanFile(pub String);

impl PlanFile {
    pub fn new(name: &str, bytes: impl AsRef<[u8]>) -> PlanFile {
        let name = out_name(name);
        std::fs::write(&name, bytes).expect("written");
        PlanFile(name)
    }
}

impl Drop for PlanFile {
    fn drop(&mut self) {
        std::fs::remove_file(&self.0).ok();
    }
}
