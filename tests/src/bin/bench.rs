//! Measures the library beside the second implementation and prints, for each
//! kind of work, the time of both and their factor. It asserts nothing.

#[cfg(feature = "planning")]
#[path = "bench/by_hand.rs"]
mod by_hand;
#[cfg(feature = "planning")]
#[path = "bench/growth.rs"]
mod growth;
#[cfg(feature = "planning")]
#[path = "bench/planning.rs"]
mod planning;
#[path = "bench/reading.rs"]
mod reading;
#[cfg(feature = "running")]
#[path = "bench/running.rs"]
mod running;
#[path = "bench/statements.rs"]
mod statements;

fn main() {
    println!("factor: the library's time divided by the second implementation's\n");
    vempaldi_checks::measure::print_head();
    reading::measure();
    #[cfg(feature = "planning")]
    planning::measure();
    #[cfg(feature = "running")]
    running::measure();
    statements::measure();
    #[cfg(feature = "planning")]
    growth::measure();
    #[cfg(feature = "running")]
    running::growth();
}
