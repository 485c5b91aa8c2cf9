//! Measures two ways of doing the same work beside each other.

use std::time::Instant;

/// Nanoseconds for one unit of the work, the best of all rounds.
pub struct Pair {
    pub library: f64,
    pub second: f64,
}

impl Pair {
    pub fn factor(&self) -> f64 {
        self.library / self.second
    }
}

/// Runs both by turns, so that a slow moment of the machine meets both.
pub fn beside(
    rounds: usize,
    units: usize,
    mut library: impl FnMut(),
    mut second: impl FnMut(),
) -> Pair {
    let mut best = Pair { library: f64::INFINITY, second: f64::INFINITY };
    for _ in 0..rounds {
        best.library = best.library.min(nanoseconds(units, &mut library));
        best.second = best.second.min(nanoseconds(units, &mut second));
    }
    best
}

fn nanoseconds(units: usize, work: &mut impl FnMut()) -> f64 {
    let start = Instant::now();
    work();
    start.elapsed().as_nanos() as f64 / units as f64
}

/// The head of the benchmark's table.
pub fn print_head() {
    println!("| what | library | second | factor |");
    println!("|---|---|---|---|");
}

/// One line of the benchmark.
pub fn print(name: &str, unit: &str, pair: &Pair) {
    let (library, second) = (time(pair.library), time(pair.second));
    println!("| {name}, per {unit} | {library} | {second} | {:.2} |", pair.factor());
}

/// One line for a row of growing sizes.
pub fn print_growth(name: &str, unit: &str, pairs: &[Pair]) {
    let row =
        |each: fn(&Pair) -> String| pairs.iter().map(each).collect::<Vec<String>>().join(", ");
    let library = row(|pair| time(pair.library));
    let second = row(|pair| time(pair.second));
    let factors = row(|pair| format!("{:.2}", pair.factor()));
    println!("| {name}, per {unit} | {library} | {second} | {factors} |");
}

fn time(nanoseconds: f64) -> String {
    if nanoseconds < 1_000.0 {
        format!("{nanoseconds:.1} ns")
    } else {
        format!("{:.1} µs", nanoseconds / 1_000.0)
    }
}
