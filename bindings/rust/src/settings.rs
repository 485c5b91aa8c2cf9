//! What settles a table's lists beside the table itself.

use crate::lent::{numbers, pairs};
use crate::planning::Amounts;
use crate::sizes::AMOUNT_BYTES;
use std::fmt;

/// How many processors there are, how long a line is, and a plan by hand where there is one. Every call that plans takes it, or a number alone,
/// which is a count of processors with lines of one iteration and no plan by hand; all calls of a row of steps take the same.
///
/// ```
/// use vempaldi::Settings;
///
/// let table = std::fs::read("../../examples/example.table").unwrap();
/// let bounds = |settings| -> Result<Vec<(u32, u32)>, vempaldi::Refusal> {
///     Ok(vempaldi::blocks(&table, settings)?.iter().map(|block| (block.first, block.last)).collect())
/// };
/// assert_eq!(bounds(Settings::new(2))?, [(1, 5), (6, 10)]);
/// assert_eq!(bounds(Settings::new(2).line(4))?, [(1, 8), (9, 10)]); // three lines: 1 to 4, 5 to 8, and 9 to 10, which is cut
/// # Ok::<(), vempaldi::Refusal>(())
/// ```
///
/// A later version may add to it: numbers, and bytes, which a method then copies into an array of a fixed size, so that nothing is lent by it.
/// It is made with [`new`](Settings::new) and not as a literal, so what callers write today still compiles then and gives the same.
#[derive(Clone, Copy, PartialEq, Eq, Hash)]
#[non_exhaustive]
#[repr(C)]
pub struct Settings {
    /// P: 1 to 64, else every call is refused with [`Ground::Processors`](crate::Ground::Processors).
    pub processors: u32,
    /// W, how many iterations store into one cache line: 1 to 64, else every call is refused with [`Ground::Line`](crate::Ground::Line).
    /// Blocks begin on whole lines, which count from the least first of all loops.
    pub line: u32,
    // The plan by hand. Its bytes past the length, and all three where there is none, are 0, so that equal settings have equal fields.
    by_hand: u32,
    plan_length: u32,
    plan: [u8; AMOUNT_BYTES],
}

impl Settings {
    /// For so many processors, lines of one iteration, and nothing else.
    pub fn new(processors: u32) -> Self {
        Settings { processors, line: 1, by_hand: 0, plan_length: 0, plan: [0; AMOUNT_BYTES] }
    }

    /// The same with lines of so many iterations.
    pub fn line(self, line: u32) -> Self {
        Settings { line, ..self }
    }

    /// The same with a plan by hand in bytes: for each loop in table order its shift and its peel, four bytes each, the lowest first. They are
    /// copied, and whatever they are, it is for the library to refuse them: with [`Ground::Plan`](crate::Ground::Plan) where there are not 8
    /// for each loop (so also where there are none) or a number is above [`MOST_AMOUNT`](crate::MOST_AMOUNT), with
    /// [`Ground::Unmet`](crate::Ground::Unmet) where some dependence is not met.
    ///
    /// ```
    /// use vempaldi::{Ground, Settings};
    ///
    /// let table = std::fs::read("../../examples/example.table").unwrap();
    /// let plan = [0, 0, 0, 0, 0, 0, 0, 0, 2, 0, 0, 0, 1, 0, 0, 0];
    /// assert_eq!(Settings::new(2).plan(&plan), Settings::new(2).amounts([(0, 0), (2, 1)]));
    /// assert_eq!(vempaldi::fused_ranges(&table, Settings::new(2).plan(&plan), 0)?, [1..6, 1..4]);
    /// let refusal = vempaldi::fused_ranges(&table, Settings::new(2).plan(&plan[..8]), 0).unwrap_err();
    /// assert_eq!(refusal.ground, Ground::Plan); // the table has two loops
    /// # Ok::<(), vempaldi::Refusal>(())
    /// ```
    pub fn plan(self, bytes: &[u8]) -> Self {
        // No table has a plan of more bytes, so a longer one is refused by its length, and which bytes these are does not matter.
        let kept = bytes.len().min(AMOUNT_BYTES);
        let mut plan = [0; AMOUNT_BYTES];
        plan[..kept].copy_from_slice(&bytes[..kept]);
        Settings { by_hand: 1, plan_length: u32::try_from(bytes.len()).unwrap_or(u32::MAX), plan, ..self }
    }

    /// The same with a plan by hand in numbers: for each loop in table order its shift and its peel, as pairs or as
    /// [`shifts_and_peels`](crate::shifts_and_peels) gives them.
    pub fn amounts<T: Into<Amounts>>(self, amounts: impl IntoIterator<Item = T>) -> Self {
        let numbers = amounts.into_iter().map(T::into).flat_map(|one| [one.shift, one.peel]);
        self.plan(&numbers.flat_map(u32::to_le_bytes).collect::<Vec<u8>>())
    }

    /// The plan by hand, where there is one: its whole pairs, of 16 loops at most.
    ///
    /// ```
    /// let settings = vempaldi::Settings::new(2);
    /// assert_eq!(settings.by_hand(), None);
    /// assert_eq!(settings.plan(&[]).by_hand(), Some(vec![]));
    /// assert_eq!(settings.amounts([(0, 0), (2, 1)]).by_hand().map(|plan| plan[1].shift), Some(2));
    /// ```
    pub fn by_hand(&self) -> Option<Vec<Amounts>> {
        let kept = AMOUNT_BYTES.min(self.plan_length as usize);
        (self.by_hand != 0).then(|| pairs(&numbers(&self.plan[..kept])).map(Amounts::from).collect())
    }

    /// How many bytes the plan by hand has, where there is one.
    pub fn plan_length(&self) -> Option<u32> {
        (self.by_hand != 0).then_some(self.plan_length)
    }
}

/// Not all 128 bytes of a plan that may not be there.
impl fmt::Debug for Settings {
    fn fmt(&self, out: &mut fmt::Formatter<'_>) -> fmt::Result {
        let mut told = out.debug_struct("Settings");
        told.field("processors", &self.processors).field("line", &self.line);
        if let Some(plan) = self.by_hand() {
            let rows: Vec<(u32, u32)> = plan.iter().map(|one| (one.shift, one.peel)).collect();
            told.field("plan_length", &self.plan_length).field("plan", &rows);
        }
        told.finish()
    }
}

impl From<u32> for Settings {
    fn from(processors: u32) -> Self {
        Settings::new(processors)
    }
}
