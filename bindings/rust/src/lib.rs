//! Plans for a run of parallel loops made into one (shift-and-peel): safe calls into the proved library.
//!
//! A loop table is a row of bytes. Every call gives its result or a [`Refusal`], and a refused call leaves what it was lent as found.
//!
//! ```
//! let table = std::fs::read("../../examples/example.table").unwrap();
//! for (processor, block) in vempaldi::blocks(&table, 2)?.iter().enumerate() {
//!     println!("processor {processor}: indices {} to {}", block.first, block.last);
//! }
//! let refusal = vempaldi::blocks(&table, 6).unwrap_err();
//! assert_eq!(refusal.to_string(), "refused 11 short: fewer lines than processors, or a block below the threshold");
//! # Ok::<(), vempaldi::Refusal>(())
//! ```
//!
//! What settles the lists beside the table is a [`Settings`]. A number in its place is a count of processors, as above. With a line's length,
//! blocks begin on whole lines, so that before the barrier no two processors run iterations of one line:
//!
//! ```
//! use vempaldi::Settings;
//!
//! let table = std::fs::read("../../examples/river.table").unwrap();
//! let blocks = vempaldi::blocks(&table, Settings::new(4).line(8))?;
//! assert_eq!((blocks[1].first, blocks[1].last), (57, 104)); // 25 lines of 8 from 1 on: the first block has seven, the others have six
//! # Ok::<(), vempaldi::Refusal>(())
//! ```
//!
//! Shifts and peels can be given by hand instead of found. A plan that is accepted then stands wherever the table's own would:
//!
//! ```
//! use vempaldi::Settings;
//!
//! let table = std::fs::read("../../examples/example.table").unwrap();
//! let mut amounts = vempaldi::shifts_and_peels(&table)?;
//! amounts[1].shift += 2;
//! let settings = Settings::new(2).amounts(amounts);
//! assert_eq!(vempaldi::fused_ranges(&table, settings, 0)?, [1..6, 1..3]); // loop 1 stays three indices behind the block's end
//! # Ok::<(), vempaldi::Refusal>(())
//! ```
//!
//! Enums, and structs that calls give, are `non_exhaustive`: a later release may add to them, and callers still compile. So a match has an
//! arm for what is newer than the program:
//!
//! ```
//! fn word(report: vempaldi::Report) -> &'static str {
//!     match report {
//!         vempaldi::Report::Iteration { .. } => "an iteration",
//!         vempaldi::Report::Waiting => "waiting",
//!         vempaldi::Report::Finished => "finished",
//!         _ => "something that this program does not know",
//!     }
//! }
//! ```
//!
//! Without it, the match is an error even if it names every variant of today:
//!
//! ```compile_fail
//! fn word(report: vempaldi::Report) -> &'static str {
//!     match report {
//!         vempaldi::Report::Iteration { .. } => "an iteration",
//!         vempaldi::Report::Waiting => "waiting",
//!         vempaldi::Report::Finished => "finished",
//!         vempaldi::Report::Other(_) => "something that this program does not know",
//!     }
//! }
//! ```

mod builder;
mod facts;
mod foreign;
mod lent;
mod planning;
mod refusal;
mod running;
mod settings;
mod sizes;
mod version;

pub use builder::{BuildError, BuildFault, Builder, Operation, BODY_LENGTHS, BUILDER_BYTES};
pub use facts::{facts, ArrayFacts, Facts, LoopFacts};
pub use planning::{
    blocks, check, check_plan, fused_list, fused_ranges, join, join_into, listing, peeled_list, peeled_ranges, shifts_and_peels,
    sweeps, threshold, Amounts, Block, Iteration, Sweeps,
};
pub use refusal::{Ground, Refusal};
pub use running::{plain_run, run, step, Report, State};
pub use settings::Settings;
pub use sizes::*;
pub use version::{version, VERSION, VERSION_MAJOR, VERSION_MINOR, VERSION_PATCH};
