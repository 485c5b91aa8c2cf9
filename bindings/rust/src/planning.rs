//! Reading, joining and planning.

use crate::foreign::*;
use crate::lent::{numbers, of_plan, of_processor, of_table, pairs};
use crate::refusal::Refusal;
use crate::settings::Settings;
use crate::sizes::{AMOUNT_BYTES, BLOCK_BYTES, LISTING_BYTES, RANGE_BYTES, TABLE_BYTES};
use std::ops::Range;

/// What a loop has in a plan: as the library finds it, or as [`Settings::amounts`] takes it.
#[derive(Clone, Copy, Debug, PartialEq, Eq)]
#[non_exhaustive]
pub struct Amounts {
    pub shift: u32,
    pub peel: u32,
}

/// Shift and peel.
impl From<(u32, u32)> for Amounts {
    fn from((shift, peel): (u32, u32)) -> Self {
        Amounts { shift, peel }
    }
}

/// First and last index of a processor's block.
#[derive(Clone, Copy, Debug, PartialEq, Eq)]
#[non_exhaustive]
pub struct Block {
    pub first: u32,
    pub last: u32,
}

#[derive(Clone, Copy, Debug, PartialEq, Eq)]
#[non_exhaustive]
pub struct Iteration {
    pub loop_number: u32,
    pub index: u32,
}

#[derive(Clone, Copy, Debug, PartialEq, Eq)]
#[non_exhaustive]
pub struct Sweeps {
    pub before: u32,
    pub after: u32,
}

/// Whether a table is accepted.
///
/// ```
/// use vempaldi::Ground;
///
/// let table = std::fs::read("../../examples/example.table").unwrap();
/// assert_eq!(vempaldi::check(&table), Ok(()));
/// let refusal = vempaldi::check(&table[..60]).unwrap_err();
/// assert_eq!((refusal.ground, refusal.place), (Ground::Torn, 60));
/// ```
pub fn check(table: &[u8]) -> Result<(), Refusal> {
    let mut answer = [0; 4];
    // SAFETY: the pointer and length are those of a live slice, and the answer is lent for this call alone.
    unsafe { vempaldi_check(table.as_ptr(), table.len(), &mut answer) };
    Refusal::of_answer(&answer)
}

/// Left's arrays, left's loops, right's loops.
pub fn join(left: &[u8], right: &[u8]) -> Result<Vec<u8>, Refusal> {
    let mut out = vec![0; TABLE_BYTES];
    let written = join_into(left, right, &mut out)?;
    out.truncate(written);
    Ok(out)
}

/// The same into lent bytes; the result is how many were written.
pub fn join_into(left: &[u8], right: &[u8], out: &mut [u8]) -> Result<usize, Refusal> {
    let mut answer = [0; 4];
    let (lent, room) = (out.as_mut_ptr(), out.len());
    // SAFETY: every pointer and length is that of a live slice, and the lent ones are borrowed apart from each other.
    let written = unsafe { vempaldi_join(left.as_ptr(), left.len(), right.as_ptr(), right.len(), lent, room, &mut answer) };
    Refusal::of_answer(&answer).map(|()| written as usize)
}

/// Shift and peel of each loop. Two references to one array, one of them storing, count only where some iterations of their two loops meet
/// there, so the numbers hold for the bounds in this table.
///
/// ```
/// use vempaldi::Builder;
///
/// // Loop 0 from 1 on stores A0[i], loop 1 from 5 to 9 reads A0[i+2].
/// fn shift_of_loop_1(last_of_loop_0: u32) -> Result<u32, Box<dyn std::error::Error>> {
///     let mut b = Builder::new();
///     let [a0, a1] = [12, 12].map(|length| b.array(length));
///     b.open_loop(1, last_of_loop_0, a0, 0);
///     b.constant(1);
///     b.open_loop(5, 9, a1, 0);
///     b.read(a0, 2);
///     Ok(vempaldi::shifts_and_peels(&b.end()?)?[1].shift)
/// }
/// assert_eq!(shift_of_loop_1(6)?, 0); // A0[7] is the first element read, A0[6] the last one stored
/// assert_eq!(shift_of_loop_1(7)?, 2); // iteration 7 stores what iteration 5 reads
/// # Ok::<(), Box<dyn std::error::Error>>(())
/// ```
pub fn shifts_and_peels(table: &[u8]) -> Result<Vec<Amounts>, Refusal> {
    let numbers = of_table(vempaldi_shifts_and_peels, table, AMOUNT_BYTES)?;
    Ok(pairs(&numbers).map(Amounts::from).collect())
}

/// The largest sum of shift and peel of one loop, of the table's own shifts and peels. [`check_plan`] gives that of a plan by hand.
pub fn threshold(table: &[u8]) -> Result<u32, Refusal> {
    Ok(of_table(vempaldi_threshold, table, 4)?[0])
}

/// Whether a plan is accepted: the one by hand that the settings have, or else that of the table's own shifts and peels. The result is its
/// threshold, the largest sum of its shift and peel of one loop.
///
/// ```
/// use vempaldi::{Ground, Settings};
///
/// let table = std::fs::read("../../examples/example.table").unwrap();
/// assert_eq!(vempaldi::check_plan(&table, 2)?, 2); // its own: 0 and 0, 1 and 1
/// assert_eq!(vempaldi::check_plan(&table, Settings::new(2).amounts([(0, 0), (2, 1)]))?, 3);
///
/// // Loop 1 reads A0[i-1] and A0[i+1], which loop 0 stores: its shift and its peel are each at least one more than those of loop 0.
/// let refusal = vempaldi::check_plan(&table, Settings::new(2).amounts([(3, 0), (3, 1)])).unwrap_err();
/// assert_eq!((refusal.ground, refusal.loops()), (Ground::Unmet, Some((0, 1))));
/// # Ok::<(), vempaldi::Refusal>(())
/// ```
pub fn check_plan(table: &[u8], settings: impl Into<Settings>) -> Result<u32, Refusal> {
    let mut answer = [0; 4];
    // SAFETY: the pointer and length are those of a live slice, and the answer is lent for this call alone.
    let threshold = unsafe { vempaldi_check_plan(table.as_ptr(), table.len(), settings.into(), &mut answer) };
    // Two numbers of a plan are 20,000 at most.
    Refusal::of_answer(&answer).map(|()| threshold as u32)
}

pub fn sweeps(table: &[u8]) -> Result<Sweeps, Refusal> {
    let numbers = of_table(vempaldi_sweeps, table, 8)?;
    Ok(Sweeps { before: numbers[0], after: numbers[1] })
}

/// The blocks of a plan, one for each processor. Each but the last has a whole number of lines.
pub fn blocks(table: &[u8], settings: impl Into<Settings>) -> Result<Vec<Block>, Refusal> {
    let numbers = numbers(&of_plan(vempaldi_blocks, table, settings.into(), BLOCK_BYTES)?);
    Ok(pairs(&numbers).map(|(first, last)| Block { first, last }).collect())
}

/// The plan as text, line by line.
pub fn listing(table: &[u8], settings: impl Into<Settings>) -> Result<String, Refusal> {
    let bytes = of_plan(vempaldi_listing, table, settings.into(), LISTING_BYTES)?;
    Ok(String::from_utf8_lossy(&bytes).into_owned())
}

/// What a processor runs before the barrier, as a range of each loop, `0..0` where it is empty. Its fused list has these iterations and
/// no others, in rising order of index plus the loop's shift, equal sums in loop order.
///
/// ```
/// use vempaldi::Settings;
///
/// let table = std::fs::read("../../examples/example.table").unwrap();
/// assert_eq!(vempaldi::fused_ranges(&table, 2, 0)?, [1..6, 1..5]);
/// assert_eq!(vempaldi::peeled_ranges(&table, 2, 0)?, [0..0, 5..7]);
/// assert_eq!(vempaldi::fused_ranges(&table, Settings::new(2).line(4), 0)?, [1..9, 1..8]);
/// # Ok::<(), vempaldi::Refusal>(())
/// ```
pub fn fused_ranges(table: &[u8], settings: impl Into<Settings>, processor: u32) -> Result<Vec<Range<u32>>, Refusal> {
    ranges(vempaldi_fused_ranges, table, settings.into(), processor)
}

/// What a processor runs past the barrier, as a range of each loop, `0..0` where it is empty. Its peeled list has them loop by loop.
pub fn peeled_ranges(table: &[u8], settings: impl Into<Settings>, processor: u32) -> Result<Vec<Range<u32>>, Refusal> {
    ranges(vempaldi_peeled_ranges, table, settings.into(), processor)
}

/// What a processor runs before the barrier, in its order.
pub fn fused_list(table: &[u8], settings: impl Into<Settings>, processor: u32) -> Result<Vec<Iteration>, Refusal> {
    let settings = settings.into();
    let ranges = fused_ranges(table, settings, processor)?;
    list(vempaldi_fused_list, table, settings, processor, &ranges)
}

/// What a processor runs past the barrier, in its order.
pub fn peeled_list(table: &[u8], settings: impl Into<Settings>, processor: u32) -> Result<Vec<Iteration>, Refusal> {
    let settings = settings.into();
    let ranges = peeled_ranges(table, settings, processor)?;
    list(vempaldi_peeled_list, table, settings, processor, &ranges)
}

fn ranges(entry: OfProcessor, table: &[u8], settings: Settings, processor: u32) -> Result<Vec<Range<u32>>, Refusal> {
    let numbers = of_processor(entry, table, settings, processor, RANGE_BYTES)?;
    Ok(pairs(&numbers).map(|(first, past)| first..past).collect())
}

/// A list has the iterations of its ranges, so a buffer for so many is never too short.
fn list(
    entry: OfProcessor,
    table: &[u8],
    settings: Settings,
    processor: u32,
    ranges: &[Range<u32>],
) -> Result<Vec<Iteration>, Refusal> {
    let room = 8 * ranges.iter().map(ExactSizeIterator::len).sum::<usize>();
    let numbers = of_processor(entry, table, settings, processor, room)?;
    Ok(pairs(&numbers).map(|(loop_number, index)| Iteration { loop_number, index }).collect())
}
