//! Series of intervals in which contacts hold: the last outputs of one interval are the last inputs
//! of the next, by a plan or by a fabric table with a program.

use crate::fault::{answer, Fault};
use crate::plan::Plan;
use crate::raw;

/// The most intervals of a series.
pub const MAX_INTERVALS: u32 = 4_096;

/// What a series is given. In each interval the last h outputs become the state, which is the last h
/// inputs of the next.
///
/// Interval t, from 0, has as its row the u - h entries of `fresh` from place t (u - h) on, then the
/// state. With 0 intervals the end state is `start`.
#[derive(Clone, Copy, Debug, PartialEq, Eq)]
pub struct Series<'a> {
    /// h, the hold count: not above u and v.
    pub hold: u32,
    /// n, the number of intervals: 0 to [`MAX_INTERVALS`].
    pub intervals: u32,
    /// The fresh entries, each 0 or 1: u - h an interval, n (u - h) in all.
    pub fresh: &'a [u8],
    /// The state before the first interval: h entries, each 0 or 1.
    pub start: &'a [u8],
}

/// Evaluates a plan over a series of intervals: each interval's v outputs, those of
/// [`evaluate`](crate::evaluate) on its row, go to the next v entries of `results`, and the state
/// after the last one to the first h of `end`.
///
/// Stated lengths: n v for `results`, h for `end`; entries past them are unchanged. A series of n
/// intervals and then one of m, which starts with the state that the first left and has the fresh
/// entries that follow, give what one series of n + m gives, if that is not refused.
///
/// # Errors
///
/// In this order: the plan faults, see [`check`](crate::check); hold if h is above u or v, or n above
/// [`MAX_INTERVALS`]; contact if `fresh` or `start` has another length or an entry that is not 0 or
/// 1; short if `results` or `end` is below its stated length, with 0 intervals too. Both are then
/// unchanged.
///
/// ```
/// use mukdalis::{evaluate_series, read, Fault, Series};
///
/// // A latch: inputs 1 and 2 are a fault and a reset, input 3 is whether the interval before shed.
/// // Gate 1 is input 3 OR input 1, gate 2 is gate 1 and not input 2, and is held.
/// let latch = read(&[3, 0, 2, 0, 1, 0, 6, 1, 0, 14, 6, 2, 0, 4, 5, 0])?;
///
/// // A fault comes and goes, then a reset comes, then another fault.
/// let fresh = [0, 0, 1, 0, 0, 0, 0, 1, 1, 0];
/// let series = Series { hold: 1, intervals: 5, fresh: &fresh, start: &[0] };
/// let (mut shed, mut end) = ([9; 5], [9]);
/// evaluate_series(&latch, series, &mut shed, &mut end)?;
/// assert_eq!((shed, end), ([0, 1, 1, 0, 1], [1]));
///
/// // It goes on from there.
/// let more = Series { hold: 1, intervals: 2, fresh: &[0, 0, 0, 1], start: &end };
/// let mut last = [9];
/// evaluate_series(&latch, more, &mut shed, &mut last)?;
/// assert_eq!((shed, last), ([1, 0, 1, 0, 1], [0]));
///
/// // It has one output.
/// let above = Series { hold: 2, intervals: 2, fresh: &[0, 0], start: &[0, 0] };
/// let refused = evaluate_series(&latch, above, &mut shed, &mut [9; 2]);
/// assert_eq!(refused, Err(Fault::Hold));
/// # Ok::<(), Box<dyn std::error::Error>>(())
/// ```
pub fn evaluate_series(
    plan: &Plan,
    series: Series<'_>,
    results: &mut [u8],
    end: &mut [u8],
) -> Result<(), Fault> {
    let Series { fresh, start, .. } = series;
    // SAFETY: the plan goes by value, and every value of its fields is allowed; the pointers and
    // lengths are slices', of which the two written overlap no other since they are borrowed for
    // writing; the call stays within them and keeps no pointer.
    answer(unsafe {
        raw::mkd_plan_series(
            *plan,
            series.hold,
            series.intervals,
            fresh.as_ptr(),
            fresh.len(),
            start.as_ptr(),
            start.len(),
            results.as_mut_ptr(),
            results.len(),
            end.as_mut_ptr(),
            end.len(),
        )
    })
}

/// Runs a fabric table with a program over a series of intervals: results and end state are those of
/// [`evaluate_series`], with the outputs that [`run_fabric`](crate::run_fabric) gives on each
/// interval's row and the table's u and v. Every wire's bit in the last interval goes to the first
/// entries of `work`; with 0 intervals it is unchanged.
///
/// Stated lengths: one entry a wire, [`Size::work_len`](crate::Size::work_len), for `work`, n v for
/// `results`, h for `end`; entries past them are unchanged. With the table and the program of a plan
/// results and end state are the plan's.
///
/// # Errors
///
/// In this order: fabric and program as in [`run_fabric`](crate::run_fabric); hold and contact as in
/// [`evaluate_series`]; short if `work`, `results` or `end` is below its stated length, with 0
/// intervals too. All three are then unchanged.
///
/// ```
/// use mukdalis::{count_fabric, program_plan, read, run_series, write_fabric, Series};
///
/// // The latch of `evaluate_series` in the fabric of its counts.
/// let latch = read(&[3, 0, 2, 0, 1, 0, 6, 1, 0, 14, 6, 2, 0, 4, 5, 0])?;
/// let [u, k, v] = latch.counts();
/// let size = count_fabric(u, k, v)?;
/// let mut table = vec![0; size.table_len(v)];
/// let mut program = vec![0; size.program_len()];
/// write_fabric(u, k, v, &mut table)?;
/// program_plan(&latch, &mut program)?;
///
/// let fresh = [0, 0, 1, 0, 0, 0, 0, 1, 1, 0];
/// let series = Series { hold: 1, intervals: 5, fresh: &fresh, start: &[0] };
/// let mut work = vec![9; size.work_len()];
/// let (mut shed, mut end) = ([9; 5], [9]);
/// run_series(&table, &program, series, &mut work, &mut shed, &mut end)?;
/// assert_eq!((shed, end), ([0, 1, 1, 0, 1], [1]));
///
/// // The last row: a fault, no reset, and nothing was shed before.
/// assert_eq!(work[..4], [0, 1, 0, 0]);
/// # Ok::<(), Box<dyn std::error::Error>>(())
/// ```
pub fn run_series(
    table: &[u16],
    program: &[u8],
    series: Series<'_>,
    work: &mut [u8],
    results: &mut [u8],
    end: &mut [u8],
) -> Result<(), Fault> {
    let Series { fresh, start, .. } = series;
    // SAFETY: the pointers and lengths are slices', of which the three written overlap no other
    // since they are borrowed for writing; the call stays within them and keeps no pointer.
    answer(unsafe {
        raw::mkd_run_series(
            table.as_ptr(),
            table.len(),
            program.as_ptr(),
            program.len(),
            series.hold,
            series.intervals,
            fresh.as_ptr(),
            fresh.len(),
            start.as_ptr(),
            start.len(),
            work.as_mut_ptr(),
            work.len(),
            results.as_mut_ptr(),
            results.len(),
            end.as_mut_ptr(),
            end.len(),
        )
    })
}
