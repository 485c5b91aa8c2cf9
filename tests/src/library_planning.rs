//! Calls into the static library: shifts, blocks, lists and the listing.

use crate::library::UNWRITTEN;
use crate::outcome::Answer;
use crate::settings::Settings;

extern "C" {
    fn vempaldi_facts(
        table: *const u8,
        table_len: usize,
        out: *mut u8,
        out_len: usize,
        answer: *mut Answer,
    ) -> u64;
    fn vempaldi_shifts_and_peels(
        table: *const u8,
        table_len: usize,
        out: *mut u8,
        out_len: usize,
        answer: *mut Answer,
    ) -> u64;
    fn vempaldi_threshold(
        table: *const u8,
        table_len: usize,
        out: *mut u8,
        out_len: usize,
        answer: *mut Answer,
    ) -> u64;
    fn vempaldi_sweeps(
        table: *const u8,
        table_len: usize,
        out: *mut u8,
        out_len: usize,
        answer: *mut Answer,
    ) -> u64;
    fn vempaldi_check_plan(
        table: *const u8,
        table_len: usize,
        settings: Settings,
        answer: *mut Answer,
    ) -> u64;
    fn vempaldi_blocks(
        table: *const u8,
        table_len: usize,
        settings: Settings,
        out: *mut u8,
        out_len: usize,
        answer: *mut Answer,
    ) -> u64;
    fn vempaldi_listing(
        table: *const u8,
        table_len: usize,
        settings: Settings,
        out: *mut u8,
        out_len: usize,
        answer: *mut Answer,
    ) -> u64;
    fn vempaldi_fused_list(
        table: *const u8,
        table_len: usize,
        settings: Settings,
        processor: u32,
        out: *mut u8,
        out_len: usize,
        answer: *mut Answer,
    ) -> u64;
    fn vempaldi_peeled_list(
        table: *const u8,
        table_len: usize,
        settings: Settings,
        processor: u32,
        out: *mut u8,
        out_len: usize,
        answer: *mut Answer,
    ) -> u64;
    fn vempaldi_fused_ranges(
        table: *const u8,
        table_len: usize,
        settings: Settings,
        processor: u32,
        out: *mut u8,
        out_len: usize,
        answer: *mut Answer,
    ) -> u64;
    fn vempaldi_peeled_ranges(
        table: *const u8,
        table_len: usize,
        settings: Settings,
        processor: u32,
        out: *mut u8,
        out_len: usize,
        answer: *mut Answer,
    ) -> u64;
}

type OfTable = unsafe extern "C" fn(*const u8, usize, *mut u8, usize, *mut Answer) -> u64;
type OfPlan = unsafe extern "C" fn(*const u8, usize, Settings, *mut u8, usize, *mut Answer) -> u64;
type OfProcessor =
    unsafe extern "C" fn(*const u8, usize, Settings, u32, *mut u8, usize, *mut Answer) -> u64;

pub fn facts(table: &[u8], out: &mut [u8]) -> (Answer, u64) {
    of_table(vempaldi_facts, table, out)
}

pub fn shifts_and_peels(table: &[u8], out: &mut [u8]) -> (Answer, u64) {
    of_table(vempaldi_shifts_and_peels, table, out)
}

pub fn threshold(table: &[u8], out: &mut [u8]) -> (Answer, u64) {
    of_table(vempaldi_threshold, table, out)
}

pub fn sweeps(table: &[u8], out: &mut [u8]) -> (Answer, u64) {
    of_table(vempaldi_sweeps, table, out)
}

/// The answer, and the threshold of the plan in force.
pub fn check_plan(table: &[u8], settings: Settings) -> (Answer, u64) {
    let mut answer = UNWRITTEN;
    // SAFETY: the pointer and length are those of a live slice, and the
    // answer is lent for this call alone.
    let threshold =
        unsafe { vempaldi_check_plan(table.as_ptr(), table.len(), settings, &mut answer) };
    (answer, threshold)
}

pub fn blocks(table: &[u8], settings: Settings, out: &mut [u8]) -> (Answer, u64) {
    of_plan(vempaldi_blocks, table, settings, out)
}

pub fn listing(table: &[u8], settings: Settings, out: &mut [u8]) -> (Answer, u64) {
    of_plan(vempaldi_listing, table, settings, out)
}

pub fn fused_list(
    table: &[u8],
    settings: Settings,
    processor: u32,
    out: &mut [u8],
) -> (Answer, u64) {
    of_processor(vempaldi_fused_list, table, settings, processor, out)
}

pub fn peeled_list(
    table: &[u8],
    settings: Settings,
    processor: u32,
    out: &mut [u8],
) -> (Answer, u64) {
    of_processor(vempaldi_peeled_list, table, settings, processor, out)
}

pub fn fused_ranges(
    table: &[u8],
    settings: Settings,
    processor: u32,
    out: &mut [u8],
) -> (Answer, u64) {
    of_processor(vempaldi_fused_ranges, table, settings, processor, out)
}

pub fn peeled_ranges(
    table: &[u8],
    settings: Settings,
    processor: u32,
    out: &mut [u8],
) -> (Answer, u64) {
    of_processor(vempaldi_peeled_ranges, table, settings, processor, out)
}

fn of_table(entry: OfTable, table: &[u8], out: &mut [u8]) -> (Answer, u64) {
    let mut answer = UNWRITTEN;
    // SAFETY: every pointer and length is that of a live slice, and no two
    // of the lent ones overlap.
    let written =
        unsafe { entry(table.as_ptr(), table.len(), out.as_mut_ptr(), out.len(), &mut answer) };
    (answer, written)
}

fn of_plan(entry: OfPlan, table: &[u8], settings: Settings, out: &mut [u8]) -> (Answer, u64) {
    let mut answer = UNWRITTEN;
    // SAFETY: as in `of_table`.
    let written = unsafe {
        entry(table.as_ptr(), table.len(), settings, out.as_mut_ptr(), out.len(), &mut answer)
    };
    (answer, written)
}

fn of_processor(
    entry: OfProcessor,
    table: &[u8],
    settings: Settings,
    processor: u32,
    out: &mut [u8],
) -> (Answer, u64) {
    let mut answer = UNWRITTEN;
    // SAFETY: as in `of_table`.
    let written = unsafe {
        entry(
            table.as_ptr(),
            table.len(),
            settings,
            processor,
            out.as_mut_ptr(),
            out.len(),
            &mut answer,
        )
    };
    (answer, written)
}
