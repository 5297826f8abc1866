//! Document 02, W5: saving a plan in its shortest file.

use mukdalis::{Fault, Gate, Plan};

use super::plan::{fault, used_gates, used_outputs, ABSENT_TABLE};

/// The lines of a table for operand bits that differ, which a table byte of two lines lacks.
const MIDDLE_LINES: u16 = 0b0110;

/// Writes a plan's shortest file to the front of `file`, and gives its length.
///
/// Bytes past it are unchanged, and a refusal changes none. Checks: plan faults, 11.
pub fn save(plan: &Plan, file: &mut [u8]) -> Result<usize, Fault> {
    if let Some(fault) = fault(plan) {
        return Err(fault);
    }
    let mut saved = Writer::EMPTY;
    saved.plan(plan);
    let bytes = saved.written();
    let Some(front) = file.get_mut(..bytes.len()) else {
        return Err(Fault::Short);
    };
    front.copy_from_slice(bytes);
    Ok(bytes.len())
}

/// A file as far as it is written.
struct Writer {
    file: [u8; Plan::MAX_FILE_LEN],
    at: usize,
}

impl Writer {
    const EMPTY: Writer = Writer {
        file: [0; Plan::MAX_FILE_LEN],
        at: 0,
    };

    fn written(&self) -> &[u8] {
        &self.file[..self.at]
    }

    /// An accepted plan.
    fn plan(&mut self, plan: &Plan) {
        for count in [plan.inputs, plan.gate_count, plan.output_count] {
            self.number(count);
        }
        for (own, gate) in (plan.inputs + 1..).zip(used_gates(plan)) {
            self.gate(own, gate);
        }
        for &wire in used_outputs(plan) {
            self.number(wire);
        }
    }

    /// The gate whose wire is `own`: its map byte, then the fields that differ from their defaults.
    /// The second operand stands too where two lines cannot say the table.
    fn gate(&mut self, own: u16, gate: &Gate) {
        let first = gate.first != own - 1;
        let second = gate.second != gate.first || gate.table & MIDDLE_LINES != 0;
        let table = gate.table != ABSENT_TABLE;
        self.byte(u16::from(first) | u16::from(second) << 1 | u16::from(table) << 2);
        if first {
            self.number(gate.first);
        }
        if second {
            self.number(gate.second);
        }
        if table && second {
            self.byte(gate.table);
        } else if table {
            self.byte(two_lines(gate.table));
        }
    }

    /// A field of two bytes, low byte first.
    fn number(&mut self, number: u16) {
        self.field(number.to_le_bytes());
    }

    /// A field of one byte.
    fn byte(&mut self, byte: u16) {
        self.field([byte as u8]);
    }

    fn field<const N: usize>(&mut self, bytes: [u8; N]) {
        self.file[self.at..self.at + N].copy_from_slice(&bytes);
        self.at += N;
    }
}

/// The table byte of a gate of one operand: the table's lines for operand bits 0, 0 and 1, 1.
fn two_lines(table: u16) -> u16 {
    table & 1 | (table >> 3) << 1
}

#[cfg(test)]
mod tests {
    use super::super::plan::read;
    use super::*;

    /// The plan of u inputs, these gates and the last gate as the output.
    fn plan(u: u16, gates: &[(u16, u16, u16)]) -> Plan {
        let k = gates.len() as u16;
        let mut plan = Plan {
            inputs: u,
            gate_count: k,
            output_count: 1,
            ..Plan::ZERO
        };
        for (place, &(first, second, table)) in plan.gates.iter_mut().zip(gates) {
            *place = Gate {
                first,
                second,
                table,
            };
        }
        plan.outputs[0] = u + k;
        plan.settle_figures();
        plan
    }

    /// The plan's file, which is read as the plan.
    fn saved(plan: &Plan) -> Vec<u8> {
        let mut file = vec![0xa5; Plan::MAX_FILE_LEN];
        let len = save(plan, &mut file).expect("the plan is accepted");
        assert!(file[len..].iter().all(|&byte| byte == 0xa5));
        file.truncate(len);
        assert_eq!(read(&file), Ok(*plan));
        file
    }

    /// The bytes of the one gate of three inputs.
    fn gate_bytes(gate: (u16, u16, u16)) -> Vec<u8> {
        let file = saved(&plan(3, &[gate]));
        let (header, rest) = file.split_at(6);
        let (gate, output) = rest.split_at(rest.len() - 2);
        assert_eq!((header, output), (&[3, 0, 1, 0, 1, 0][..], &[4, 0][..]));
        gate.to_vec()
    }

    /// The two files of document 01, which have no needless field.
    #[test]
    fn files_of_the_bench_sheet() {
        let not = [1, 0, 1, 0, 1, 0, 4, 1, 2, 0];
        assert_eq!(saved(&plan(1, &[(1, 1, 1)])), not);
        let example = [2, 0, 2, 0, 1, 0, 3, 1, 0, 2, 0, 6, 1, 0, 6, 4, 0];
        assert_eq!(saved(&plan(2, &[(1, 2, 8), (3, 1, 6)])), example);
    }

    /// The wire before the gate is 3.
    #[test]
    fn only_fields_that_differ_from_their_defaults_stand() {
        assert_eq!(gate_bytes((3, 3, 8)), [0]);
        assert_eq!(gate_bytes((1, 1, 8)), [1, 1, 0]);
        assert_eq!(gate_bytes((3, 1, 8)), [2, 1, 0]);
        assert_eq!(gate_bytes((1, 3, 8)), [3, 1, 0, 3, 0]);
        assert_eq!(gate_bytes((3, 3, 9)), [4, 3]);
        assert_eq!(gate_bytes((2, 2, 0)), [5, 2, 0, 0]);
        assert_eq!(gate_bytes((3, 2, 14)), [6, 2, 0, 14]);
        assert_eq!(gate_bytes((2, 1, 6)), [7, 2, 0, 1, 0, 6]);
    }

    /// Bits 0 and 3 of a table are the lines of equal operand bits.
    #[test]
    fn an_equal_second_operand_stands_where_bit_1_or_2_of_the_table_does() {
        let of_two_lines = [(0b0000, 0), (0b0001, 1), (0b1001, 3)];
        for (table, byte) in of_two_lines {
            assert_eq!(gate_bytes((3, 3, table)), [4, byte]);
            assert_eq!(gate_bytes((1, 1, table)), [5, 1, 0, byte]);
        }
        for table in [2, 3, 4, 5, 6, 7, 10, 11, 12, 13, 14, 15] {
            assert_eq!(gate_bytes((3, 3, table)), [6, 3, 0, table as u8]);
            assert_eq!(gate_bytes((1, 1, table)), [7, 1, 0, 1, 0, table as u8]);
        }
    }

    #[test]
    fn another_second_operand_keeps_four_lines() {
        for table in [0, 1, 9] {
            assert_eq!(gate_bytes((3, 1, table)), [6, 1, 0, table as u8]);
        }
    }

    /// The last gate, wire 320, is hex 140; the others are the wire before, of both operands.
    #[test]
    fn wires_have_two_bytes() {
        let mut gates: Vec<(u16, u16, u16)> = (64..319).map(|wire| (wire, wire, 8)).collect();
        gates.push((256, 319, 8));
        let header = [64, 0, 0, 1, 1, 0];
        let last = [3, 0x00, 0x01, 0x3f, 0x01, 0x40, 0x01];
        let file = [&header[..], &[0; 255], &last].concat();
        assert_eq!(saved(&plan(64, &gates)), file);
    }

    #[test]
    fn the_longest_file_has_every_field() {
        let mut longest = plan(2, &[(1, 2, 6); 256]);
        longest.output_count = 64;
        longest.outputs = [3; 64];
        longest.settle_figures();
        let file = saved(&longest);
        let header = [2, 0, 0, 1, 64, 0];
        let gate = [7, 1, 0, 2, 0, 6];
        assert_eq!(
            file,
            [&header[..], &gate.repeat(256), &[3, 0].repeat(64)].concat()
        );
    }

    #[test]
    fn unused_places_are_not_saved() {
        let mut filled = plan(3, &[(3, 3, 8)]);
        let file = saved(&filled);
        filled.gates[1].table = 99;
        filled.outputs[1] = 99;
        filled.uses[4] = 99;
        let mut found = [0; 9];
        assert_eq!(save(&filled, &mut found), Ok(9));
        assert_eq!(found[..], file);
    }

    #[test]
    fn a_file_fills_its_bytes_alone() {
        let plan = plan(3, &[(3, 3, 8)]);
        let file = [3, 0, 1, 0, 1, 0, 0, 4, 0];
        for len in 0..9 {
            let mut short = vec![7; len];
            assert_eq!(save(&plan, &mut short), Err(Fault::Short));
            assert_eq!(short, vec![7; len]);
        }
        for len in [9, 10, 80] {
            let mut found = vec![7; len];
            assert_eq!(save(&plan, &mut found), Ok(9));
            assert_eq!(found, [&file[..], &vec![7; len - 9]].concat());
        }
    }

    /// Plan faults come before 11, and change nothing.
    #[test]
    fn a_faulty_plan_is_not_saved() {
        let mut plan = plan(3, &[(3, 3, 8)]);
        let mut refused = |change: fn(&mut Plan), fault| {
            change(&mut plan);
            for len in [0, 9] {
                let mut file = vec![7; len];
                assert_eq!(save(&plan, &mut file), Err(fault));
                assert_eq!(file, vec![7; len]);
            }
        };
        refused(|plan| plan.uses[3] = 0, Fault::Tally);
        refused(|plan| plan.outputs[0] = 3, Fault::Source);
        refused(|plan| plan.gates[0].table = 16, Fault::Table);
        refused(|plan| plan.gates[0].second = 4, Fault::Operand);
        refused(|plan| plan.output_count = 0, Fault::Outputs);
        refused(|plan| plan.gate_count = 0, Fault::Gates);
        refused(|plan| plan.inputs = 65, Fault::Inputs);
    }
}
