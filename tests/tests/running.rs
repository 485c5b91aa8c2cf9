//! Compares what the library does to a memory with what the second
//! interpreter does: the plain run, rows of steps, single steps from any
//! state, and runs in a caller's order. Arguments name the parts to run;
//! without any, all are.

#[path = "running/hands.rs"]
mod hands;
#[path = "running/large.rs"]
mod large;
#[path = "running/lines.rs"]
mod lines;
#[path = "running/nans.rs"]
mod nans;
#[path = "running/orders.rs"]
mod orders;
#[path = "running/plain.rs"]
mod plain;
#[path = "running/plans.rs"]
mod plans;
#[path = "running/rows.rs"]
mod rows;
#[path = "running/schedulers.rs"]
mod schedulers;
#[path = "running/states.rs"]
mod states;
#[path = "running/stop.rs"]
mod stop;

use vempaldi_checks::parts;

fn main() {
    parts::run(&[
        ("nans", nans::compare_all),
        ("plain", plain::compare_all),
        ("rows", rows::compare_all),
        ("states", states::compare_all),
        ("orders", orders::compare_all),
        ("large", large::compare_all),
    ]);
}
