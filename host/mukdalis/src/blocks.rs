//! The block library: the permutation network P(n) and the selection network S(m, n).
//!
//! Their rows and how they are programmed stand in `include/mukdalis.h`.

use crate::fault::{answer, Fault};
use crate::raw;

/// The largest n of P, m of S and n of S.
pub const MAX_SIZE: u32 = 512;

/// The rows of a block and the wires that they make.
///
/// ```
/// use mukdalis::count_permutation;
///
/// let size = count_permutation(4)?;
/// assert_eq!((size.rows, size.wires), (5, 10));
/// assert_eq!((size.rows_len(), size.program_len()), (15, 1));
/// # Ok::<(), mukdalis::Fault>(())
/// ```
#[derive(Clone, Copy, Debug, PartialEq, Eq)]
pub struct BlockSize {
    /// Rows, one program bit each.
    pub rows: u32,
    /// Wires that the rows make. After the block the next unmade wire is as many higher.
    pub wires: u32,
}

impl BlockSize {
    /// What counting answered.
    fn of(counts: raw::Counts) -> Result<BlockSize, Fault> {
        answer(counts.number)?;
        Ok(BlockSize {
            rows: counts.rows,
            wires: counts.wires,
        })
    }

    /// Entries of the rows: three each.
    pub const fn rows_len(self) -> usize {
        3 * self.rows as usize
    }

    /// Bytes of the program: the bits divided by 8, rounded up.
    pub const fn program_len(self) -> usize {
        self.rows.div_ceil(8) as usize
    }
}

/// The size of P(n): n log n - n + 1 rows, log to base 2.
///
/// # Errors
///
/// Inputs if n is not a power of two from 1 to 512.
///
/// ```
/// use mukdalis::{count_permutation, Fault};
///
/// assert_eq!(count_permutation(512)?.rows, 4_097);
/// assert_eq!(count_permutation(3), Err(Fault::Inputs));
/// # Ok::<(), Fault>(())
/// ```
pub fn count_permutation(n: u32) -> Result<BlockSize, Fault> {
    BlockSize::of(raw::count_permutation(n))
}

/// Writes P(n) on these input wires: its rows, three entries each, to the first of `rows`, and its
/// n output wires to the first of `outputs`.
///
/// `inputs` are n made wires, `next` is the next unmade one; wire 0 and repeated wires are allowed.
/// Stated lengths: [`BlockSize::rows_len`] for `rows`, n for `outputs`; entries past them are
/// unchanged.
///
/// # Errors
///
/// In this order: inputs if n is not a power of two from 1 to 512; contact if `inputs` has another
/// length than n; fabric if an input wire is not below `next`, or a wire that a row makes would
/// pass 65,535; short if `rows` or `outputs` is below its stated length. Both are then unchanged.
///
/// ```
/// use mukdalis::write_permutation;
///
/// let (mut rows, mut outputs) = ([0; 3], [0; 2]);
/// write_permutation(2, &[1, 2], 3, &mut rows, &mut outputs)?;
/// assert_eq!(rows, [1, 1, 2]);
/// assert_eq!(outputs, [3, 4]);
/// # Ok::<(), mukdalis::Fault>(())
/// ```
pub fn write_permutation(
    n: u32,
    inputs: &[u16],
    next: u32,
    rows: &mut [u16],
    outputs: &mut [u16],
) -> Result<(), Fault> {
    // SAFETY: the pointers and lengths are slices', of which none overlaps another since two are
    // borrowed for writing; the call stays within them and keeps no pointer.
    answer(unsafe {
        raw::mkd_permutation_write(
            n,
            inputs.as_ptr(),
            inputs.len(),
            next,
            rows.as_mut_ptr(),
            rows.len(),
            outputs.as_mut_ptr(),
            outputs.len(),
        )
    })
}

/// Programs P(n): with this program output i carries input `wanted[i - 1]`, i from 1.
///
/// `wanted` has each of 1 to n once. The program goes to the first bytes of `program`; its stated
/// length is [`BlockSize::program_len`]. Bit p lies in byte p / 8 at place p % 8, place 0 lowest;
/// spare bits are 0, bytes past the stated length unchanged. The library's call holds at most 2,560
/// bytes of arrays at one time.
///
/// # Errors
///
/// In this order: inputs if n is not a power of two from 1 to 512; contact if `wanted` has another
/// length than n; source if a wanted input is not in 1 to n or comes twice; short if `program` is
/// below its stated length. It is then unchanged.
///
/// ```
/// use mukdalis::program_permutation;
///
/// // Bits 1 0 1 0 0.
/// let mut program = [0];
/// program_permutation(4, &[3, 1, 2, 4], &mut program)?;
/// assert_eq!(program, [0b00101]);
/// # Ok::<(), mukdalis::Fault>(())
/// ```
pub fn program_permutation(n: u32, wanted: &[u16], program: &mut [u8]) -> Result<(), Fault> {
    // SAFETY: both pointers and lengths are slices', which do not overlap since one is borrowed
    // for writing; the call stays within them and keeps no pointer.
    answer(unsafe {
        raw::mkd_permutation_program(
            n,
            wanted.as_ptr(),
            wanted.len(),
            program.as_mut_ptr(),
            program.len(),
        )
    })
}

/// The size of S(m, n): 2 N log N - N + 1 rows, log to base 2, where N is the smallest power of two
/// not below m and n.
///
/// # Errors
///
/// In this order: inputs if m is not 1 to 512; outputs if n is not 1 to 512.
///
/// ```
/// use mukdalis::{count_selection, Fault};
///
/// let size = count_selection(1, 2)?;
/// assert_eq!((size.rows, size.wires), (3, 5));
/// assert_eq!(count_selection(512, 513), Err(Fault::Outputs));
/// # Ok::<(), Fault>(())
/// ```
pub fn count_selection(m: u32, n: u32) -> Result<BlockSize, Fault> {
    BlockSize::of(raw::count_selection(m, n))
}

/// Writes S(m, n) on these input wires: its rows, three entries each, to the first of `rows`, and
/// its n output wires to the first of `outputs`.
///
/// `inputs` are m made wires, `next` is the next unmade one; wire 0 and repeated wires are allowed.
/// Stated lengths: [`BlockSize::rows_len`] for `rows`, n for `outputs`; entries past them are
/// unchanged.
///
/// # Errors
///
/// In this order: inputs if m is not 1 to 512; outputs if n is not 1 to 512; contact if `inputs` has
/// another length than m; fabric if an input wire is not below `next`, or a wire that a row makes
/// would pass 65,535; short if `rows` or `outputs` is below its stated length. Both are then
/// unchanged.
///
/// ```
/// use mukdalis::write_selection;
///
/// let (mut rows, mut outputs) = ([0; 9], [0; 2]);
/// write_selection(1, 2, &[1], 2, &mut rows, &mut outputs)?;
/// assert_eq!(rows, [1, 1, 0, 2, 2, 3, 1, 2, 4]);
/// assert_eq!(outputs, [5, 6]);
/// # Ok::<(), mukdalis::Fault>(())
/// ```
pub fn write_selection(
    m: u32,
    n: u32,
    inputs: &[u16],
    next: u32,
    rows: &mut [u16],
    outputs: &mut [u16],
) -> Result<(), Fault> {
    // SAFETY: the pointers and lengths are slices', of which none overlaps another since two are
    // borrowed for writing; the call stays within them and keeps no pointer.
    answer(unsafe {
        raw::mkd_selection_write(
            m,
            n,
            inputs.as_ptr(),
            inputs.len(),
            next,
            rows.as_mut_ptr(),
            rows.len(),
            outputs.as_mut_ptr(),
            outputs.len(),
        )
    })
}

/// Programs S(m, n): with this program output i carries input `wanted[i - 1]`, i from 1.
///
/// `wanted` has n of 1 to m, any of them any number of times. The program goes to the first bytes of
/// `program`; its stated length is [`BlockSize::program_len`], and its bits lie as P's do. Bytes
/// past the stated length are unchanged.
///
/// # Errors
///
/// In this order: inputs if m is not 1 to 512; outputs if n is not 1 to 512; contact if `wanted` has
/// another length than n; source if a wanted input is not in 1 to m; short if `program` is below its
/// stated length. It is then unchanged.
///
/// ```
/// use mukdalis::program_selection;
///
/// // Bits 1 0 0, then 0 1 1.
/// let mut program = [0];
/// program_selection(2, 2, &[2, 2], &mut program)?;
/// assert_eq!(program, [0b001]);
/// program_selection(2, 2, &[2, 1], &mut program)?;
/// assert_eq!(program, [0b110]);
/// # Ok::<(), mukdalis::Fault>(())
/// ```
pub fn program_selection(m: u32, n: u32, wanted: &[u16], program: &mut [u8]) -> Result<(), Fault> {
    // SAFETY: both pointers and lengths are slices', which do not overlap since one is borrowed
    // for writing; the call stays within them and keeps no pointer.
    answer(unsafe {
        raw::mkd_selection_program(
            m,
            n,
            wanted.as_ptr(),
            wanted.len(),
            program.as_mut_ptr(),
            program.len(),
        )
    })
}
