//! What settles a table's lists beside the table itself.

use crate::outcome::hex;
use std::fmt;

/// The most bytes that a plan by hand has: shift and peel of sixteen loops.
pub const PLAN_BYTES: usize = 128;

/// The header's struct, given to a call by value: what a later version adds
/// stands here as one member more.
#[repr(C)]
#[derive(Clone, Copy, PartialEq, Eq)]
pub struct Settings {
    /// P, how many processors there are.
    pub processors: u32,
    /// W, how many iterations store into one cache line.
    pub line: u32,
    /// Whether shifts and peels are those of `plan`: any number but 0.
    pub by_hand: u32,
    /// How many bytes the plan by hand is said to have.
    pub plan_length: u32,
    pub plan: [u8; PLAN_BYTES],
}

impl Settings {
    pub const fn new(processors: u32, line: u32) -> Settings {
        Settings { processors, line, by_hand: 0, plan_length: 0, plan: [0; PLAN_BYTES] }
    }

    /// Lines of one iteration, as the listing program has them.
    pub const fn of(processors: u32) -> Settings {
        Settings::new(processors, 1)
    }

    /// The same with these bytes as a plan by hand.
    pub fn with_plan(self, bytes: &[u8]) -> Settings {
        let mut plan = [0; PLAN_BYTES];
        let kept = bytes.len().min(PLAN_BYTES);
        plan[..kept].copy_from_slice(&bytes[..kept]);
        Settings { by_hand: 1, plan_length: bytes.len() as u32, plan, ..self }
    }

    /// The same without a plan by hand.
    pub fn own(self) -> Settings {
        Settings::new(self.processors, self.line)
    }
}

/// For the report of a disagreement: a plan's bytes only where there are any.
impl fmt::Debug for Settings {
    fn fmt(&self, f: &mut fmt::Formatter) -> fmt::Result {
        write!(f, "P {}, W {}", self.processors, self.line)?;
        if self.by_hand == 0 && self.plan_length == 0 && self.plan == [0; PLAN_BYTES] {
            return Ok(());
        }
        let (by_hand, length) = (self.by_hand, self.plan_length);
        write!(f, ", by hand {by_hand}, a plan of {length} bytes: {}", hex(&self.plan))
    }
}
