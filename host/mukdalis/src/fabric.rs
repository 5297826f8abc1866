//! The fabric of three counts: its size, its rows by kind and its table; a plan's program for it; and
//! the run of a table.
//!
//! The rows and how a plan is programmed stand in `include/mukdalis.h`.

use crate::fault::{answer, Fault};
use crate::plan::Plan;
use crate::raw;

/// A fabric's numbers of rows, wires and program bits, and the stated lengths that follow.
///
/// ```
/// use mukdalis::{count_fabric, Size};
///
/// let size = count_fabric(1, 1, 1)?;
/// assert_eq!((size.table_len(1), size.program_len(), size.work_len()), (16, 1, 8));
///
/// // Room for every fabric.
/// let table = [0u16; Size::LARGEST.table_len(64)];
/// assert_eq!((table.len(), Size::LARGEST.program_len()), (94_534, 4_033));
/// # Ok::<(), mukdalis::Fault>(())
/// ```
#[derive(Clone, Copy, Debug, PartialEq, Eq)]
pub struct Size {
    /// Rows of the table.
    pub rows: u32,
    /// All wires: wire 0, the inputs, and those that the rows make.
    pub wires: u32,
    /// Program bits.
    pub bits: u32,
}

impl Size {
    /// The size of the largest fabric, that of 64 inputs, 256 gates and 64 outputs.
    pub const LARGEST: Size = Size {
        rows: 31_489,
        wires: 58_180,
        bits: 32_257,
    };

    /// Entries of the table of a fabric of v outputs: 3 + 3R + v, where R is its rows.
    pub const fn table_len(self, v: u32) -> usize {
        3 + 3 * self.rows as usize + v as usize
    }

    /// Bytes of a program: the bits divided by 8, rounded up.
    pub const fn program_len(self) -> usize {
        self.bits.div_ceil(8) as usize
    }

    /// Entries of a run's work: one a wire.
    pub const fn work_len(self) -> usize {
        self.wires as usize
    }
}

/// The size of the fabric of u inputs, k gates and v outputs.
///
/// # Errors
///
/// In this order: inputs, gates, outputs.
///
/// ```
/// use mukdalis::{count_fabric, Fault, Size};
///
/// assert_eq!(count_fabric(1, 1, 1), Ok(Size { rows: 4, wires: 8, bits: 7 }));
/// assert_eq!(count_fabric(2, 2, 1), Ok(Size { rows: 23, wires: 40, bits: 29 }));
/// assert_eq!(count_fabric(3, 3, 2), Ok(Size { rows: 85, wires: 147, bits: 97 }));
/// assert_eq!(count_fabric(64, 256, 64), Ok(Size::LARGEST));
/// assert_eq!(count_fabric(64, 257, 65), Err(Fault::Gates));
/// ```
pub fn count_fabric(u: u32, k: u32, v: u32) -> Result<Size, Fault> {
    let counts = raw::count(u, k, v);
    answer(counts.number)?;
    Ok(Size {
        rows: counts.rows,
        wires: counts.wires,
        bits: counts.bits,
    })
}

/// Rows by kind: of a part of a fabric's table, or of all of it.
#[repr(C)]
#[derive(Clone, Copy, Debug, PartialEq, Eq)]
pub struct Kinds {
    /// Rows of kind 1, X.
    pub x: u32,
    /// Rows of kind 2, Y.
    pub y: u32,
    /// Rows of kind 3, G.
    pub g: u32,
    /// The three together.
    pub total: u32,
}

/// The rows by kind of a fabric's three parts, which stand in its table one after another, and of
/// the whole table. K is the smallest power of two not below the number of gates.
#[derive(Clone, Copy, Debug, PartialEq, Eq)]
pub struct Sheet {
    /// S(u, 2K), which gives the gates' pins.
    pub input: Kinds,
    /// U(K), the universal block.
    pub block: Kinds,
    /// S(K, v), which gives the outputs.
    pub output: Kinds,
    /// The whole table.
    pub sum: Kinds,
}

/// Counts the rows of each kind in the table of the fabric of u inputs, k gates and v outputs.
///
/// # Errors
///
/// In this order: inputs, gates, outputs.
///
/// ```
/// use mukdalis::{count_kinds, Fault, Kinds};
///
/// let sheet = count_kinds(2, 2, 1)?;
/// assert_eq!(sheet.input, Kinds { x: 10, y: 3, g: 0, total: 13 });
/// assert_eq!(sheet.block, Kinds { x: 2, y: 3, g: 2, total: 7 });
/// assert_eq!(sheet.output, Kinds { x: 2, y: 1, g: 0, total: 3 });
/// assert_eq!(sheet.sum, Kinds { x: 14, y: 7, g: 2, total: 23 });
/// assert_eq!(count_kinds(2, 2, 0), Err(Fault::Outputs));
/// # Ok::<(), Fault>(())
/// ```
pub fn count_kinds(u: u32, k: u32, v: u32) -> Result<Sheet, Fault> {
    let counted = raw::count_kinds(u, k, v);
    answer(counted.number)?;
    Ok(Sheet {
        input: counted.input,
        block: counted.block,
        output: counted.output,
        sum: counted.sum,
    })
}

/// Writes the table of the fabric of u inputs, k gates and v outputs: u, v, R (its rows); then kind,
/// left wire, right wire per row; then the v output wires.
///
/// Stated length: [`Size::table_len`]; entries past it are unchanged.
///
/// # Errors
///
/// In this order: inputs, gates, outputs; short if `table` is below its stated length. It is then
/// unchanged.
///
/// ```
/// use mukdalis::write_fabric;
///
/// let mut table = [0; 16];
/// write_fabric(1, 1, 1, &mut table)?;
/// assert_eq!(table, [1, 1, 4, 1, 1, 0, 2, 2, 3, 1, 2, 4, 3, 5, 6, 7]);
/// # Ok::<(), mukdalis::Fault>(())
/// ```
pub fn write_fabric(u: u32, k: u32, v: u32, table: &mut [u16]) -> Result<(), Fault> {
    // SAFETY: the pointer and length are a slice's that is borrowed for writing; the call stays
    // within it and keeps no pointer.
    answer(unsafe { raw::mkd_fabric(u, k, v, table.as_mut_ptr(), table.len()) })
}

/// Programs the fabric of a plan's counts: run with this program, its outputs on every input row
/// are the plan's.
///
/// The program goes to the first bytes of `program`. Stated length: [`Size::program_len`]; bytes
/// past it are unchanged.
///
/// # Errors
///
/// In this order: the plan faults, see [`check`](crate::check); short if `program` is below its
/// stated length. It is then unchanged.
///
/// ```
/// use mukdalis::{program_plan, read};
///
/// let not = read(&[1, 0, 1, 0, 1, 0, 4, 1, 2, 0])?;
/// let mut program = [0];
/// program_plan(&not, &mut program)?;
/// assert_eq!(program, [0x08]);
/// # Ok::<(), Box<dyn std::error::Error>>(())
/// ```
pub fn program_plan(plan: &Plan, program: &mut [u8]) -> Result<(), Fault> {
    // SAFETY: the plan goes by value, and every value of its fields is allowed; the pointer and
    // length are a slice's that is borrowed for writing; the call stays within it and keeps no
    // pointer.
    answer(unsafe { raw::mkd_program(*plan, program.as_mut_ptr(), program.len()) })
}

/// Runs a fabric table with a program on an input row: `row[i - 1]` is the bit of input i. Every
/// wire's bit, 0 or 1, goes to the first entries of `work`, that of wire w at place w, and the bits
/// of the v output wires to those of `result`.
///
/// Any table of the form that [`write_fabric`] writes is run. Table, program and row have exact
/// lengths. Stated lengths: one entry a wire, [`Size::work_len`], for `work`, v for `result`;
/// entries past them are unchanged.
///
/// # Errors
///
/// In this order: fabric if the table is malformed, that is, has less than 3 entries, u or v not 1
/// to 64, another length than 3 + 3R + v, a kind not 1 to 3, a row's wire that is not made before
/// that row, an output wire that is not made, or more than 65,536 wires; program if the program is
/// not of its exact length, or a spare bit is set; contact if the row is not of length u, or an
/// entry is not 0 or 1; short if `work` or `result` is below its stated length. Both are then
/// unchanged.
///
/// ```
/// use mukdalis::run_fabric;
///
/// // The fabric (1, 1, 1) with the program of NOT.
/// let table = [1, 1, 4, 1, 1, 0, 2, 2, 3, 1, 2, 4, 3, 5, 6, 7];
/// for (input, output) in [(0, 1), (1, 0)] {
///     let (mut work, mut result) = ([0; 8], [0; 1]);
///     run_fabric(&table, &[0x08], &[input], &mut work, &mut result)?;
///     assert_eq!(result, [output]);
///     assert_eq!((work[0], work[1], work[7]), (0, input, output));
/// }
/// # Ok::<(), mukdalis::Fault>(())
/// ```
pub fn run_fabric(
    table: &[u16],
    program: &[u8],
    row: &[u8],
    work: &mut [u8],
    result: &mut [u8],
) -> Result<(), Fault> {
    // SAFETY: the pointers and lengths are slices', of which the two written overlap no other
    // since they are borrowed for writing; the call stays within them and keeps no pointer.
    answer(unsafe {
        raw::mkd_run(
            table.as_ptr(),
            table.len(),
            program.as_ptr(),
            program.len(),
            row.as_ptr(),
            row.len(),
            work.as_mut_ptr(),
            work.len(),
            result.as_mut_ptr(),
            result.len(),
        )
    })
}
