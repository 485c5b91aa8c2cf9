//! The check of a plan for 16 processors: of the loops' own numbers, which are
//! found, and of the same numbers given by hand, which are tested.

use std::hint::black_box;
use vempaldi_checks::by_hand::written;
use vempaldi_checks::encoder::encode;
use vempaldi_checks::library_planning as library;
use vempaldi_checks::measure::{self, Pair};
use vempaldi_checks::outcome::ACCEPTED;
use vempaldi_checks::outputs;
use vempaldi_checks::planner::amounts;
use vempaldi_checks::settings::Settings;
use vempaldi_checks::table::Table;

const ROUNDS: usize = 20;
/// A table takes microseconds, so each is checked several times a round.
const REPEATS: usize = 5;

/// A table with settings without a plan and with its own numbers by hand.
struct Made {
    bytes: Vec<u8>,
    own: Settings,
    by_hand: Settings,
}

pub fn measure(name: &str, tables: &[Table], settings: Settings) {
    let made: Vec<Made> = tables.iter().map(|table| make(table, settings)).collect();
    let units = REPEATS * made.len();
    let ours =
        |one: &Made, settings: Settings| library::check_plan(black_box(&one.bytes), settings);
    let theirs =
        |one: &Made, settings: Settings| outputs::check_plan(black_box(&one.bytes), settings);
    let print = |what: &str, pair: &Pair| measure::print(&format!("{what}, {name}"), "table", pair);
    let own = measure::beside(
        ROUNDS,
        units,
        || each(&made, |one| ours(one, one.own)),
        || each(&made, |one| theirs(one, one.own)),
    );
    print("check of the own plan", &own);
    let by_hand = measure::beside(
        ROUNDS,
        units,
        || each(&made, |one| ours(one, one.by_hand)),
        || each(&made, |one| theirs(one, one.by_hand)),
    );
    print("check of the same plan by hand", &by_hand);
    let both = measure::beside(
        ROUNDS,
        units,
        || each(&made, |one| ours(one, one.by_hand)),
        || each(&made, |one| ours(one, one.own)),
    );
    print("the library's check of that plan by hand (beside its check of the own)", &both);
}

fn make(table: &Table, own: Settings) -> Made {
    let by_hand = own.with_plan(&written(&amounts(table)));
    let bytes = encode(table);
    // A call that is refused would be done before its time.
    let (answer, threshold) = library::check_plan(&bytes, own);
    assert_eq!(answer, ACCEPTED, "the own plan is accepted");
    assert_eq!(library::check_plan(&bytes, by_hand), (answer, threshold), "and by hand as well");
    Made { bytes, own, by_hand }
}

fn each<T>(tables: &[Made], work: impl Fn(&Made) -> T) {
    for _ in 0..REPEATS {
        for one in tables {
            black_box(work(one));
        }
    }
}
