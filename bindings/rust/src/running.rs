//! The plain run, a step, and a run in a caller's order. A memory is one run of numbers, the arrays in order without gaps.

use crate::foreign::*;
use crate::refusal::Refusal;
use crate::settings::Settings;
use crate::sizes::MOST_PROCESSORS;

/// The count of iterations done, for each processor. A row of steps begins with [`State::new`].
#[derive(Clone, Debug, PartialEq, Eq)]
pub struct State {
    pub counts: [u32; MOST_PROCESSORS as usize],
}

impl State {
    /// Every count 0.
    pub fn new() -> State {
        State { counts: [0; MOST_PROCESSORS as usize] }
    }
}

impl Default for State {
    fn default() -> State {
        State::new()
    }
}

/// What a step did.
#[derive(Clone, Copy, Debug, PartialEq, Eq)]
#[non_exhaustive]
pub enum Report {
    #[non_exhaustive]
    Iteration { loop_number: u32, index: u32 },
    /// The processor's fused list is used up, another's is not.
    Waiting,
    /// Both lists are used up and the barrier is open.
    Finished,
    /// A number that this wrapper does not know: the library is of another version. It is no iteration.
    Other(u32),
}

impl Report {
    /// What the three numbers of a report in C say.
    ///
    /// ```
    /// use vempaldi::Report;
    ///
    /// assert!(matches!(Report::of_numbers([1, 0, 6]), Report::Iteration { loop_number: 0, index: 6, .. }));
    /// assert_eq!(Report::of_numbers([0, 0, 6]), Report::Other(0));
    /// ```
    pub fn of_numbers(report: [u32; 3]) -> Report {
        match report {
            [1, loop_number, index] => Report::Iteration { loop_number, index },
            [2, _, _] => Report::Waiting,
            [3, _, _] => Report::Finished,
            [other, _, _] => Report::Other(other),
        }
    }
}

/// The loops in table order, each from first to last, with no plan.
pub fn plain_run(table: &[u8], memory: &mut [f64]) -> Result<(), Refusal> {
    let mut answer = [0; 4];
    // SAFETY: every pointer and length is that of a live slice, and the lent ones are borrowed apart from each other.
    unsafe { vempaldi_plain_run(table.as_ptr(), table.len(), memory.as_mut_ptr(), memory.len(), &mut answer) };
    Refusal::of_answer(&answer)
}

/// One step of one processor. All steps of a row are given the same table and settings. Once they have reported every iteration, the memory
/// is what [`plain_run`] leaves from the same start, whatever processors were named in whatever order.
///
/// ```
/// use vempaldi::{Report, State};
///
/// let table = std::fs::read("../../examples/example.table").unwrap();
/// let (mut state, mut memory) = (State::new(), vec![0.0; 36]);
/// while let Report::Iteration { loop_number, index, .. } = vempaldi::step(&table, 2, 1, &mut state, &mut memory)? {
///     println!("processor 1 performed iteration {index} of loop {loop_number}");
/// }
/// assert_eq!(state.counts[1], 9);
/// # Ok::<(), vempaldi::Refusal>(())
/// ```
pub fn step(
    table: &[u8],
    settings: impl Into<Settings>,
    processor: u32,
    state: &mut State,
    memory: &mut [f64],
) -> Result<Report, Refusal> {
    let mut answer = [0; 4];
    let mut report = [0; 3];
    let (numbers, count) = (memory.as_mut_ptr(), memory.len());
    // SAFETY: as in `plain_run`; counts and report are lent for this call alone.
    unsafe {
        vempaldi_step(
            table.as_ptr(),
            table.len(),
            settings.into(),
            processor,
            &mut state.counts,
            numbers,
            count,
            &mut report,
            &mut answer,
        )
    };
    Refusal::of_answer(&answer).map(|()| Report::of_numbers(report))
}

/// A step for each byte of the order, then the lowest-numbered processor that can step until all are finished. The result is how many
/// bytes named a processor with nothing to do.
///
/// ```
/// let table = std::fs::read("../../examples/example.table").unwrap();
/// let (mut fused, mut plain) = (vec![2.5; 36], vec![2.5; 36]);
/// assert_eq!(vempaldi::run(&table, 2, &[1; 12], &mut fused)?, 3);
/// vempaldi::plain_run(&table, &mut plain)?;
/// assert_eq!(fused, plain);
/// # Ok::<(), vempaldi::Refusal>(())
/// ```
pub fn run(table: &[u8], settings: impl Into<Settings>, order: &[u8], memory: &mut [f64]) -> Result<u64, Refusal> {
    let mut answer = [0; 4];
    let settings = settings.into();
    let (numbers, count) = (memory.as_mut_ptr(), memory.len());
    // SAFETY: as in `plain_run`.
    let idle =
        unsafe { vempaldi_run(table.as_ptr(), table.len(), settings, order.as_ptr(), order.len(), numbers, count, &mut answer) };
    Refusal::of_answer(&answer).map(|()| idle)
}
