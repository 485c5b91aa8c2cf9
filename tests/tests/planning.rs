//! Compares the library's plans with the second planner's: listings, lists,
//! facts, ranges, plans by hand, and every entry with buffers that are exact, too short and
//! longer. Arguments name the parts to run; without any, all are.

#[path = "planning/by_hand.rs"]
mod by_hand;
#[path = "planning/entries.rs"]
mod entries;
#[path = "planning/large.rs"]
mod large;
#[path = "planning/lines.rs"]
mod lines;
#[path = "planning/listings.rs"]
mod listings;
#[path = "planning/meetings.rs"]
mod meetings;
#[path = "planning/numbers.rs"]
mod numbers;
#[path = "planning/version.rs"]
mod version;

use vempaldi_checks::parts;

fn main() {
    parts::run(&[
        ("version", version::compare),
        ("large", large::compare_all),
        ("meetings", meetings::compare_all),
        ("lines", lines::compare_all),
        ("by_hand", by_hand::compare_all),
        ("listings", listings::compare_all),
        ("entries", entries::compare_all),
        ("numbers", numbers::compare_all),
    ]);
}
