//! Calls into the static library: reading and joining.

use crate::outcome::Answer;

extern "C" {
    fn vempaldi_version() -> u32;
    fn vempaldi_check(table: *const u8, table_len: usize, answer: *mut Answer);
    fn vempaldi_join(
        left: *const u8,
        left_len: usize,
        right: *const u8,
        right_len: usize,
        out: *mut u8,
        out_len: usize,
        answer: *mut Answer,
    ) -> u64;
}

/// What stands in an answer before the call. No call may leave it there.
pub const UNWRITTEN: Answer = [u64::MAX; 4];

pub fn version() -> u32 {
    // SAFETY: the call takes nothing.
    unsafe { vempaldi_version() }
}

pub fn check(table: &[u8]) -> Answer {
    let mut answer = UNWRITTEN;
    // SAFETY: the pointer and length are those of a live slice, and the
    // answer is lent for this call alone.
    unsafe { vempaldi_check(table.as_ptr(), table.len(), &mut answer) };
    answer
}

/// The answer, and the count of bytes written.
pub fn join(left: &[u8], right: &[u8], out: &mut [u8]) -> (Answer, u64) {
    let mut answer = UNWRITTEN;
    // SAFETY: every pointer and length is that of a live slice, and no two
    // of the lent ones overlap.
    let written = unsafe {
        vempaldi_join(
            left.as_ptr(),
            left.len(),
            right.as_ptr(),
            right.len(),
            out.as_mut_ptr(),
            out.len(),
            &mut answer,
        )
    };
    (answer, written)
}
