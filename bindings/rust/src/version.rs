//! The version of this crate, and that of the library that is linked.

use crate::foreign::vempaldi_version;

pub const VERSION_MAJOR: u32 = decimal(env!("CARGO_PKG_VERSION_MAJOR"));
pub const VERSION_MINOR: u32 = decimal(env!("CARGO_PKG_VERSION_MINOR"));
pub const VERSION_PATCH: u32 = decimal(env!("CARGO_PKG_VERSION_PATCH"));

/// The version of this crate, its three numbers as one. It is that of the header which the crate was written for.
pub const VERSION: u32 = VERSION_MAJOR * 10_000 + VERSION_MINOR * 100 + VERSION_PATCH;

/// The version of the library that is linked. While its first number is 0, another second number than this crate's may mean something else.
///
/// ```
/// assert_eq!(vempaldi::version(), vempaldi::VERSION);
/// ```
pub fn version() -> u32 {
    // SAFETY: it takes nothing, and only gives a number.
    unsafe { vempaldi_version() }
}

/// Cargo gives the numbers as text.
const fn decimal(text: &str) -> u32 {
    let digits = text.as_bytes();
    let (mut value, mut at) = (0, 0);
    while at < digits.len() {
        assert!(digits[at].is_ascii_digit());
        value = value * 10 + (digits[at] - b'0') as u32;
        at += 1;
    }
    value
}
