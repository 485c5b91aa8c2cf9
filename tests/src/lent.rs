//! Lends an output buffer to a call and looks at what the call did to it.

use crate::outcome::{agrees, hex, Answer};
use crate::outputs::Output;

/// How many bytes behind the lent ones are watched.
const GUARD: usize = 32;

/// Calls with a buffer of `room` bytes. The answer, the count of bytes
/// written, the bytes themselves and everything behind them have to be what
/// `expected` says; the text of the error says what differs.
pub fn compare(
    room: usize,
    expected: &Output,
    call: impl FnOnce(&mut [u8]) -> (Answer, u64),
) -> Result<Answer, String> {
    let mut wanted: Vec<u8> = (0..room + GUARD).map(|at| (at * 7 + 13) as u8).collect();
    let mut found = wanted.clone();
    let (answer, written) = call(&mut found[..room]);
    let count = expected.as_ref().map_or(0, |bytes| bytes.len());
    if let Ok(bytes) = expected {
        wanted[..count].copy_from_slice(bytes);
    }
    let refusal = expected.as_ref().err();
    if agrees(&answer, refusal) && written == count as u64 && found == wanted {
        return Ok(answer);
    }
    Err(format!(
        "  room     {room}\n\
         \x20 library  {answer:?}, {written} bytes written\n\
         \x20 expected {refusal:?}, {count} bytes written\n\
         \x20 buffer   {}\n\
         \x20 wanted   {}",
        hex(&found),
        hex(&wanted)
    ))
}
