//! `--order`: the processors in the order in which they step.

use crate::batch;
use crate::outcome::Failure;
use crate::wording::quoted;

pub enum Order {
    Turns,
    Falling,
    None,
    Random(u64),
    Bytes(Vec<u8>),
}

impl Order {
    pub fn read(word: &str) -> Result<Order, Failure> {
        match word {
            "turns" => Ok(Order::Turns),
            "falling" => Ok(Order::Falling),
            "none" => Ok(Order::None),
            _ => Order::of_value(word),
        }
    }

    fn of_value(word: &str) -> Result<Order, Failure> {
        let forms = "turns, falling, none, random:SEED, numbers from 0 to 255 with commas between, or @FILE";
        let unknown = || Failure::Usage(format!("--order {} is not one of {forms}", quoted(word)));
        if let Some(seed) = word.strip_prefix("random:") {
            seed.parse().map(Order::Random).map_err(|_| unknown())
        } else if let Some(file) = word.strip_prefix('@') {
            batch::read_whole(file).map(Order::Bytes)
        } else {
            let numbers: Result<Vec<u8>, _> = word.split(',').map(str::parse).collect();
            numbers.map(Order::Bytes).map_err(|_| unknown())
        }
    }

    /// As many bytes as there are iterations, where the order itself has no end.
    pub fn bytes(&self, processors: u32, iterations: usize) -> Vec<u8> {
        let count = u64::from(processors).max(1);
        let rising = |at: usize| at as u64 % count;
        match self {
            Order::Turns => (0..iterations).map(|at| rising(at) as u8).collect(),
            Order::Falling => (0..iterations).map(|at| (count - 1 - rising(at)) as u8).collect(),
            Order::None => Vec::new(),
            Order::Random(seed) => {
                let mut drawn = Draw(*seed);
                (0..iterations).map(|_| (drawn.next() % count) as u8).collect()
            }
            Order::Bytes(bytes) => bytes.clone(),
        }
    }
}

/// A small generator of numbers (splitmix64), the same row for the same seed.
pub struct Draw(pub u64);

impl Draw {
    pub fn next(&mut self) -> u64 {
        self.0 = self.0.wrapping_add(0x9E37_79B9_7F4A_7C15);
        let mixed = (self.0 ^ (self.0 >> 30)).wrapping_mul(0xBF58_476D_1CE4_E5B9);
        let mixed = (mixed ^ (mixed >> 27)).wrapping_mul(0x94D0_49BB_1331_11EB);
        mixed ^ (mixed >> 31)
    }
}
