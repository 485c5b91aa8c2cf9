//! Calls into the static library: the plain run, a step, and a run in a
//! caller's order.

use crate::library::UNWRITTEN;
use crate::outcome::Answer;
use crate::settings::Settings;
use crate::stepping::Counts;

extern "C" {
    fn vempaldi_plain_run(
        table: *const u8,
        table_len: usize,
        memory: *mut f64,
        memory_len: usize,
        answer: *mut Answer,
    );
    fn vempaldi_step(
        table: *const u8,
        table_len: usize,
        settings: Settings,
        processor: u32,
        counts: *mut Counts,
        memory: *mut f64,
        memory_len: usize,
        report: *mut [u32; 3],
        answer: *mut Answer,
    );
    fn vempaldi_run(
        table: *const u8,
        table_len: usize,
        settings: Settings,
        order: *const u8,
        order_len: usize,
        memory: *mut f64,
        memory_len: usize,
        answer: *mut Answer,
    ) -> u64;
}

pub fn plain_run(table: &[u8], memory: &mut [f64]) -> Answer {
    let mut answer = UNWRITTEN;
    // SAFETY: every pointer and length is that of a live slice, and no two
    // of the lent ones overlap.
    unsafe {
        vempaldi_plain_run(
            table.as_ptr(),
            table.len(),
            memory.as_mut_ptr(),
            memory.len(),
            &mut answer,
        )
    };
    answer
}

pub fn step(
    table: &[u8],
    settings: Settings,
    processor: u32,
    counts: &mut Counts,
    memory: &mut [f64],
    report: &mut [u32; 3],
) -> Answer {
    let mut answer = UNWRITTEN;
    // SAFETY: as in `plain_run`; counts and report are lent for this call
    // alone.
    unsafe {
        vempaldi_step(
            table.as_ptr(),
            table.len(),
            settings,
            processor,
            counts,
            memory.as_mut_ptr(),
            memory.len(),
            report,
            &mut answer,
        )
    };
    answer
}

/// The answer and the idle count.
pub fn run(table: &[u8], settings: Settings, order: &[u8], memory: &mut [f64]) -> (Answer, u64) {
    let mut answer = UNWRITTEN;
    // SAFETY: as in `plain_run`.
    let idle = unsafe {
        vempaldi_run(
            table.as_ptr(),
            table.len(),
            settings,
            order.as_ptr(),
            order.len(),
            memory.as_mut_ptr(),
            memory.len(),
            &mut answer,
        )
    };
    (answer, idle)
}
