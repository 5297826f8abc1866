//! The run of any fabric table with any program.

use mukdalis::{Fault, Plan};

use super::elements::{bit, run_rows, Kind, BYTE_BITS, LAST_WIRE, ROW_ENTRIES};
use super::plan::{gate_bit, is_count, is_row};

/// Runs a table's rows with a program's bits on an input row. Every wire's bit goes to `work`, at
/// the wire's number, and those of the v output wires to `result`.
///
/// Entries past the stated lengths are unchanged, and a refusal changes none. Checks: 13, 14, 12,
/// 11.
pub fn run(
    table: &[u16],
    program: &[u8],
    row: &[u8],
    work: &mut [u8],
    result: &mut [u8],
) -> Result<(), Fault> {
    let fabric = Fabric::of(table).ok_or(Fault::Fabric)?;
    if !fabric.has_program(program) {
        return Err(Fault::Program);
    }
    if !is_row(row, fabric.inputs) {
        return Err(Fault::Contact);
    }
    if work.len() < fabric.wires || result.len() < fabric.outputs.len() {
        return Err(Fault::Short);
    }
    fabric.run(program, row, work, result);
    Ok(())
}

/// The parts of a table, and what its rows have in all.
pub(super) struct Fabric<'a> {
    pub(super) inputs: usize,
    rows: &'a [u16],
    pub(super) outputs: &'a [u16],
    pub(super) wires: usize,
    bits: usize,
}

impl<'a> Fabric<'a> {
    /// None of a malformed table.
    pub(super) fn of(table: &'a [u16]) -> Option<Fabric<'a>> {
        let (&counts, rest) = table.split_first_chunk()?;
        let [inputs, output_count, row_count] = counts.map(usize::from);
        if !is_count(inputs, Plan::MAX_INPUTS) || !is_count(output_count, Plan::MAX_OUTPUTS) {
            return None;
        }
        if rest.len() != ROW_ENTRIES * row_count + output_count {
            return None;
        }
        let (rows, outputs) = rest.split_at(ROW_ENTRIES * row_count);
        let (mut wires, mut bits) = (1 + inputs, 0);
        for row in rows.chunks_exact(ROW_ENTRIES) {
            let kind = Kind::from_number(row[0])?;
            if !are_made(&row[1..], wires) {
                return None;
            }
            wires += kind.outputs();
            bits += kind.bits();
        }
        if !are_made(outputs, wires) || wires - 1 > LAST_WIRE {
            return None;
        }
        Some(Fabric {
            inputs,
            rows,
            outputs,
            wires,
            bits,
        })
    }

    /// Whether the program has its exact length and no spare bit set.
    pub(super) fn has_program(&self, program: &[u8]) -> bool {
        program.len() == self.bits.div_ceil(BYTE_BITS)
            && (self.bits..BYTE_BITS * program.len()).all(|p| !bit(program, p))
    }

    /// The run with a good program and row, in buffers that have room.
    pub(super) fn run(&self, program: &[u8], row: &[u8], work: &mut [u8], result: &mut [u8]) {
        let first_made = 1 + self.inputs;
        work[0] = 0;
        work[1..first_made].copy_from_slice(row);
        run_rows(self.rows, program, work, first_made, gate_bit);
        for (entry, &wire) in result.iter_mut().zip(self.outputs) {
            *entry = work[usize::from(wire)];
        }
    }
}

/// Whether the wires are among the first so many.
fn are_made(wires: &[u16], made: usize) -> bool {
    wires.iter().all(|&wire| usize::from(wire) < made)
}

#[cfg(test)]
mod tests {
    use super::*;

    /// The bench sheet's fabric (1,1,1).
    const TABLE: [u16; 16] = [1, 1, 4, 1, 1, 0, 2, 2, 3, 1, 2, 4, 3, 5, 6, 7];

    /// An answer with the work and the result of exact lengths.
    fn answer(table: &[u16], program: &[u8], row: &[u8]) -> Result<(Vec<u8>, Vec<u8>), Fault> {
        let (mut work, mut result) = (vec![9; 8], vec![9; 1]);
        run(table, program, row, &mut work, &mut result)?;
        Ok((work, result))
    }

    /// Hex 08 is NOT: wires 5 and 6 both carry the input.
    #[test]
    fn the_not_program() {
        let done = |work: [u8; 8], result| Ok((work.to_vec(), vec![result]));
        let work = [0, 0, 0, 0, 0, 0, 0, 1];
        assert_eq!(answer(&TABLE, &[0x08], &[0]), done(work, 1));
        let work = [0, 1, 1, 0, 1, 1, 1, 0];
        assert_eq!(answer(&TABLE, &[0x08], &[1]), done(work, 0));
    }

    /// The second row's bit gives the gate the operands 1 and 0, the third row's exchanges them.
    #[test]
    fn the_left_operand_has_the_higher_place() {
        let result = |table: u8, third: u8| {
            let program = table << 3 | third << 2 | 1 << 1;
            answer(&TABLE, &[program], &[1]).map(|(_, result)| result[0])
        };
        assert_eq!(result(1 << 2, 0), Ok(1));
        assert_eq!(result(1 << 1, 0), Ok(0));
        assert_eq!(result(1 << 2, 1), Ok(0));
        assert_eq!(result(1 << 1, 1), Ok(1));
    }

    #[test]
    fn a_table_without_rows_gives_its_inputs() {
        let (mut work, mut result) = ([9; 4], [9; 4]);
        let table = [2, 3, 0, 2, 0, 1];
        let done = run(&table, &[], &[0, 1], &mut work, &mut result);
        assert_eq!(done, Ok(()));
        assert_eq!(work, [0, 0, 1, 9]);
        assert_eq!(result, [1, 0, 0, 9]);
        assert_eq!(answer(&table, &[0], &[0, 1]), Err(Fault::Program));
    }

    #[test]
    fn malformed_tables() {
        let changed = |at: usize, entry| {
            let mut table = TABLE;
            table[at] = entry;
            answer(&table, &[0x08], &[0])
        };
        let malformed = [
            (0, 0),
            (0, 65),
            (1, 0),
            (1, 2),
            (2, 3),
            (2, 5),
            (3, 0),
            (3, 4),
            (4, 2),
            (8, 4),
            (14, 7),
            (15, 8),
        ];
        for (at, entry) in malformed {
            assert_eq!(changed(at, entry), Err(Fault::Fabric), "{entry} at {at}");
        }
        for len in 0..TABLE.len() {
            let cut = answer(&TABLE[..len], &[0x08], &[0]);
            assert_eq!(cut, Err(Fault::Fabric));
        }
        let longer = [&TABLE[..], &[0]].concat();
        assert_eq!(answer(&longer, &[0x08], &[0]), Err(Fault::Fabric));
    }

    /// A table of so many rows of one kind on wire 0, with the output wire 0.
    fn uniform_table(kind: u16, rows: u16) -> Vec<u16> {
        let mut table = vec![1, 1, rows];
        table.extend([kind, 0, 0].repeat(rows.into()));
        table.push(0);
        table
    }

    #[test]
    fn no_more_than_65_536_wires() {
        let mut work = vec![9; 1 << 16];
        let mut answer = |kind, rows: u16| {
            let program = vec![0; usize::from(rows).div_ceil(8)];
            let table = uniform_table(kind, rows);
            run(&table, &program, &[1], &mut work, &mut [9])
        };
        assert_eq!(answer(1, 32_767), Ok(()));
        assert_eq!(answer(1, 32_768), Err(Fault::Fabric));
        assert_eq!(answer(2, 65_534), Ok(()));
        assert_eq!(answer(2, 65_535), Err(Fault::Fabric));
        assert_eq!(work[..3], [0, 1, 0]);
    }

    #[test]
    fn checks_come_in_order() {
        let (mut work, mut result) = ([9; 8], [9; 1]);
        let mut answer = |table: &[u16], program: &[u8], row: &[u8], work_len, result_len| {
            run(
                table,
                program,
                row,
                &mut work[..work_len],
                &mut result[..result_len],
            )
        };
        assert_eq!(answer(&TABLE[1..], &[], &[], 0, 0), Err(Fault::Fabric));
        for program in [&[][..], &[0x80], &[0, 0]] {
            assert_eq!(answer(&TABLE, program, &[], 0, 0), Err(Fault::Program));
        }
        for row in [&[][..], &[2], &[255], &[0, 0]] {
            assert_eq!(answer(&TABLE, &[0x7f], row, 0, 0), Err(Fault::Contact));
        }
        assert_eq!(answer(&TABLE, &[0x7f], &[1], 7, 1), Err(Fault::Short));
        assert_eq!(answer(&TABLE, &[0x7f], &[1], 8, 0), Err(Fault::Short));
        assert_eq!((work, result), ([9; 8], [9]));
    }
}
