//! Refusals, and how an answer of the library is compared with one.

/// The four numbers that the library writes: the ground (0 where accepted),
/// the place, and the two that the refusal names.
pub type Answer = [u64; 4];

pub const ACCEPTED: Answer = [0; 4];

const SERIAL: u64 = 9;
const UNMET: u64 = 20;

#[derive(Clone, Copy, Debug, PartialEq, Eq)]
pub struct Refusal {
    pub number: u64,
    pub place: u64,
    /// For ground 9 two references of the loop, the lower number first; for 20
    /// the later loop and 0; for the others 0 and 0.
    pub named: [u64; 2],
}

impl Refusal {
    /// A ground that names nothing.
    pub fn new(number: u64, place: usize) -> Refusal {
        Refusal { number, place: place as u64, named: [0, 0] }
    }

    /// A ground that always carries place 0.
    pub fn whole(number: u64) -> Refusal {
        Refusal::new(number, 0)
    }

    /// Ground 9, with its loop and two references of that loop.
    pub fn serial(place: usize, (lower, higher): (usize, usize)) -> Refusal {
        Refusal { named: [lower as u64, higher as u64], ..Refusal::new(SERIAL, place) }
    }

    /// Ground 20, with the earlier loop and the later one.
    pub fn unmet(earlier: usize, later: usize) -> Refusal {
        Refusal { named: [later as u64, 0], ..Refusal::new(UNMET, earlier) }
    }

    pub fn answer(&self) -> Answer {
        [self.number, self.place, self.named[0], self.named[1]]
    }
}

/// Whether the answer is the one expected, in all four numbers.
pub fn agrees(answer: &Answer, refusal: Option<&Refusal>) -> bool {
    *answer == refusal.map_or(ACCEPTED, Refusal::answer)
}

/// The bytes as hexadecimal digits, for the report of a disagreement.
pub fn hex(bytes: &[u8]) -> String {
    bytes.iter().map(|byte| format!("{byte:02x}")).collect()
}
