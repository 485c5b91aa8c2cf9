//! `--memory`: the numbers before a run.

use crate::batch;
use crate::orders::Draw;
use crate::outcome::Failure;
use crate::wording::{counted, quoted};
use vempaldi::Facts;

pub enum Memory {
    Index,
    Zero,
    Random(u64),
    Numbers(Vec<f64>),
}

impl Memory {
    pub fn read(word: &str) -> Result<Memory, Failure> {
        let unknown = || Failure::Usage(format!("--memory {} is not one of index, zero, random:SEED or @FILE", quoted(word)));
        match word {
            "index" => Ok(Memory::Index),
            "zero" => Ok(Memory::Zero),
            _ => match (word.strip_prefix("random:"), word.strip_prefix('@')) {
                (Some(seed), _) => seed.parse().map(Memory::Random).map_err(|_| unknown()),
                (_, Some(file)) => numbers(file, &batch::read_whole(file)?).map(Memory::Numbers),
                _ => Err(unknown()),
            },
        }
    }

    /// A file's numbers are taken as they are: a wrong count is the library's to refuse.
    pub fn numbers(&self, table: &Facts) -> Vec<f64> {
        match self {
            Memory::Index => table.arrays.iter().flat_map(|array| (0..array.length).map(f64::from)).collect(),
            Memory::Zero => vec![0.0; table.elements as usize],
            Memory::Random(seed) => {
                let mut drawn = Draw(*seed);
                (0..table.elements).map(|_| any(&mut drawn)).collect()
            }
            Memory::Numbers(numbers) => numbers.clone(),
        }
    }
}

/// Mostly numbers of a common size, now and then any bits at all.
fn any(drawn: &mut Draw) -> f64 {
    let bits = drawn.next();
    match bits % 8 {
        0 => f64::from_bits(drawn.next()),
        1 => [0.0, -0.0, f64::INFINITY, f64::NEG_INFINITY, f64::NAN][(drawn.next() % 5) as usize],
        _ => (bits >> 3) as f64 / (1u64 << 50) as f64 - 1_024.0,
    }
}

/// A file whose last number is cut short is no memory: neither without that number nor with a part of it.
fn numbers(file: &str, bytes: &[u8]) -> Result<Vec<f64>, Failure> {
    let whole = bytes.chunks_exact(8);
    if !whole.remainder().is_empty() {
        let count = counted(bytes.len(), "byte");
        return Err(Failure::Usage(format!("--memory @{file}: {count}, not a whole count of numbers of 8 bytes")));
    }
    Ok(whole.map(|eight| f64::from_le_bytes(eight.try_into().expect("eight bytes"))).collect())
}

pub fn bytes(memory: &[f64]) -> Vec<u8> {
    memory.iter().flat_map(|number| number.to_le_bytes()).collect()
}
