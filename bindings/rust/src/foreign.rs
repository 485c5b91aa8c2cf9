//! The exported functions as include/vempaldi.h declares them.

use crate::settings::Settings;

/// Number, place, and the two numbers that a refusal names.
pub type Answer = [u64; 4];

/// Bytes in, bytes out.
pub type OfTable = unsafe extern "C" fn(*const u8, usize, *mut u8, usize, *mut Answer) -> u64;
pub type OfPlan = unsafe extern "C" fn(*const u8, usize, Settings, *mut u8, usize, *mut Answer) -> u64;
pub type OfProcessor = unsafe extern "C" fn(*const u8, usize, Settings, u32, *mut u8, usize, *mut Answer) -> u64;

extern "C" {
    pub fn vempaldi_version() -> u32;
    pub fn vempaldi_check(table: *const u8, length: usize, answer: *mut Answer);
    pub fn vempaldi_join(
        left: *const u8,
        left_length: usize,
        right: *const u8,
        right_length: usize,
        out: *mut u8,
        out_length: usize,
        answer: *mut Answer,
    ) -> u64;
    pub fn vempaldi_facts(t: *const u8, n: usize, out: *mut u8, room: usize, answer: *mut Answer) -> u64;
    pub fn vempaldi_shifts_and_peels(t: *const u8, n: usize, out: *mut u8, room: usize, answer: *mut Answer) -> u64;
    pub fn vempaldi_threshold(t: *const u8, n: usize, out: *mut u8, room: usize, answer: *mut Answer) -> u64;
    pub fn vempaldi_check_plan(t: *const u8, n: usize, s: Settings, answer: *mut Answer) -> u64;
    pub fn vempaldi_sweeps(t: *const u8, n: usize, out: *mut u8, room: usize, answer: *mut Answer) -> u64;
    pub fn vempaldi_blocks(t: *const u8, n: usize, s: Settings, out: *mut u8, room: usize, answer: *mut Answer) -> u64;
    pub fn vempaldi_listing(t: *const u8, n: usize, s: Settings, out: *mut u8, room: usize, answer: *mut Answer) -> u64;
    pub fn vempaldi_fused_list(
        t: *const u8,
        n: usize,
        s: Settings,
        processor: u32,
        out: *mut u8,
        room: usize,
        answer: *mut Answer,
    ) -> u64;
    pub fn vempaldi_peeled_list(
        t: *const u8,
        n: usize,
        s: Settings,
        processor: u32,
        out: *mut u8,
        room: usize,
        answer: *mut Answer,
    ) -> u64;
    pub fn vempaldi_fused_ranges(
        t: *const u8,
        n: usize,
        s: Settings,
        processor: u32,
        out: *mut u8,
        room: usize,
        answer: *mut Answer,
    ) -> u64;
    pub fn vempaldi_peeled_ranges(
        t: *const u8,
        n: usize,
        s: Settings,
        processor: u32,
        out: *mut u8,
        room: usize,
        answer: *mut Answer,
    ) -> u64;
    pub fn vempaldi_plain_run(t: *const u8, n: usize, memory: *mut f64, numbers: usize, answer: *mut Answer);
    pub fn vempaldi_step(
        t: *const u8,
        n: usize,
        s: Settings,
        processor: u32,
        counts: *mut [u32; 64],
        memory: *mut f64,
        numbers: usize,
        report: *mut [u32; 3],
        answer: *mut Answer,
    );
    pub fn vempaldi_run(
        t: *const u8,
        n: usize,
        s: Settings,
        order: *const u8,
        order_length: usize,
        memory: *mut f64,
        numbers: usize,
        answer: *mut Answer,
    ) -> u64;
}
