//! Plans: reading a plan file, the faults of a plan in memory, its figures, evaluation.
//!
//! Wires and gates are numbered from 1, as in document 01; a plan's arrays count from 0.

use mukdalis::{Fault, Gate, Plan, Refusal};

/// Bytes of u, k and v at the start of a plan file.
pub(super) const HEADER: usize = 6;

/// The highest map byte: one bit for each of a gate's three fields.
const LAST_MAP: u16 = 7;

/// The highest table: one line for each pair of operand bits.
const LAST_TABLE: u16 = 15;

/// The highest table byte of a gate whose file leaves the second operand out (document 02, W4): one
/// line for each bit of the first.
const LAST_TWO_LINES: u16 = 3;

/// The table of a gate whose file leaves it out: AND.
pub(super) const ABSENT_TABLE: u16 = 8;

/// Places for the wires of the largest plan, and place 0.
pub(super) const WIRES: usize = 1 + Plan::MAX_INPUTS + Plan::MAX_GATES;

/// Reads a plan file. The plan's figures are counted, its unused places are zero.
pub fn read(file: &[u8]) -> Result<Plan, Refusal> {
    let mut plan = read_whole(file, |_, own| own)?;
    count_figures(&mut plan);
    Ok(plan)
}

/// Reads a file whose operands are wires below `bound`, which is given the counts and the gate's
/// own wire. The figures are not counted.
pub(super) fn read_whole(file: &[u8], bound: impl Fn(&Plan, u16) -> u16) -> Result<Plan, Refusal> {
    if file.len() < HEADER {
        return Err(refusal(Fault::Stub, 0));
    }
    let mut reader = Reader { file, at: 0 };
    let mut plan = Plan::ZERO;
    plan.inputs = reader.count(Plan::MAX_INPUTS, Fault::Inputs)?;
    plan.gate_count = reader.count(Plan::MAX_GATES, Fault::Gates)?;
    plan.output_count = reader.count(Plan::MAX_OUTPUTS, Fault::Outputs)?;
    for g in 1..=plan.gate_count {
        let own = plan.inputs + g;
        plan.gates[usize::from(g) - 1] = reader.gate(own, bound(&plan, own))?;
    }
    for j in 1..=plan.output_count {
        plan.outputs[usize::from(j) - 1] = reader.output(&plan)?;
    }
    reader.end()?;
    Ok(plan)
}

/// The first plan fault of a plan in memory. Unused places have none.
pub fn fault(plan: &Plan) -> Option<Fault> {
    count_fault(plan)
        .or_else(|| first_gate_fault(plan))
        .or_else(|| first_output_fault(plan))
        .or_else(|| figure_fault(plan))
}

/// Plan evaluation: writes the bits of the v wires that the outputs name to `result`.
///
/// Entries past v are unchanged, and a refusal changes none. Checks: plan faults, 12, 11.
pub fn evaluate(plan: &Plan, row: &[u8], result: &mut [u8]) -> Result<(), Fault> {
    if let Some(fault) = fault(plan) {
        return Err(fault);
    }
    if !is_row(row, plan.inputs.into()) {
        return Err(Fault::Contact);
    }
    if result.len() < usize::from(plan.output_count) {
        return Err(Fault::Short);
    }
    write_outputs(plan, row, result);
    Ok(())
}

/// The outputs of an accepted plan on a good row.
pub(super) fn write_outputs(plan: &Plan, row: &[u8], result: &mut [u8]) {
    let bits = wire_bits(plan, row);
    for (entry, &wire) in result.iter_mut().zip(used_outputs(plan)) {
        *entry = bits[usize::from(wire)];
    }
}

/// A plan file and the place of its next field.
struct Reader<'a> {
    file: &'a [u8],
    at: usize,
}

impl Reader<'_> {
    /// The next field, of `N` bytes; 5 if the file ends inside or before it.
    fn field<const N: usize>(&mut self) -> Result<[u8; N], Refusal> {
        match self.file[self.at..].first_chunk::<N>() {
            Some(&bytes) => {
                self.at += N;
                Ok(bytes)
            }
            None => Err(refusal(Fault::Cut, self.at)),
        }
    }

    /// A field of one byte; `fault` at its place if it is above `most`.
    fn byte(&mut self, most: u16, fault: Fault) -> Result<u16, Refusal> {
        let at = self.at;
        let [byte] = self.field()?;
        let byte = u16::from(byte);
        if byte > most {
            return Err(refusal(fault, at));
        }
        Ok(byte)
    }

    /// A field of two bytes, low byte first; `fault` at its place if it is not a `good` one.
    fn number(&mut self, good: impl Fn(u16) -> bool, fault: Fault) -> Result<u16, Refusal> {
        let at = self.at;
        let number = u16::from_le_bytes(self.field()?);
        if !good(number) {
            return Err(refusal(fault, at));
        }
        Ok(number)
    }

    /// One of u, k and v.
    fn count(&mut self, most: usize, fault: Fault) -> Result<u16, Refusal> {
        self.number(|count| is_count(count.into(), most), fault)
    }

    /// The gate whose wire is `own`, with operands below `bound`: its map byte, then the fields
    /// whose map bit stands. Left as a call in the two readings' loops, it takes almost three times as
    /// long.
    #[inline(always)]
    fn gate(&mut self, own: u16, bound: u16) -> Result<Gate, Refusal> {
        let map = self.byte(LAST_MAP, Fault::Map)?;
        let stands = |bit: u8| map >> bit & 1 == 1;
        let first = if stands(0) {
            self.operand(bound)?
        } else {
            own - 1
        };
        let second = if stands(1) {
            self.operand(bound)?
        } else {
            first
        };
        let table = if !stands(2) {
            ABSENT_TABLE
        } else if stands(1) {
            self.byte(LAST_TABLE, Fault::Table)?
        } else {
            four_lines(self.byte(LAST_TWO_LINES, Fault::Table)?)
        };
        Ok(Gate {
            first,
            second,
            table,
        })
    }

    /// An operand, which is to be below `bound`.
    fn operand(&mut self, bound: u16) -> Result<u16, Refusal> {
        self.number(|wire| is_operand(wire, bound), Fault::Operand)
    }

    /// An output wire of a plan whose counts are read.
    fn output(&mut self, plan: &Plan) -> Result<u16, Refusal> {
        self.number(|wire| is_gate_wire(wire, plan), Fault::Source)
    }

    /// The end of the file.
    fn end(&self) -> Result<(), Refusal> {
        if self.at < self.file.len() {
            return Err(refusal(Fault::Tail, self.at));
        }
        Ok(())
    }
}

/// The table that has these two lines for operand bits 0, 0 and 1, 1. For bits that differ, which
/// equal operands never have, its lines are 0.
fn four_lines(two_lines: u16) -> u16 {
    two_lines & 1 | (two_lines >> 1) << 3
}

pub(super) fn refusal(fault: Fault, at: usize) -> Refusal {
    Refusal {
        fault,
        at: at as u64,
    }
}

pub fn is_count(count: usize, most: usize) -> bool {
    (1..=most).contains(&count)
}

/// An operand is a wire below a bound, in a plan the gate's own.
fn is_operand(wire: u16, bound: u16) -> bool {
    (1..bound).contains(&wire)
}

/// An output names a gate wire, u + 1 to u + k.
pub(super) fn is_gate_wire(wire: u16, plan: &Plan) -> bool {
    (plan.inputs + 1..=plan.inputs + plan.gate_count).contains(&wire)
}

/// A row of input contacts is u entries, each 0 or 1.
pub fn is_row(row: &[u8], inputs: usize) -> bool {
    row.len() == inputs && row.iter().all(|&entry| entry <= 1)
}

/// 2, 3 or 4.
fn count_fault(plan: &Plan) -> Option<Fault> {
    [
        (plan.inputs, Plan::MAX_INPUTS, Fault::Inputs),
        (plan.gate_count, Plan::MAX_GATES, Fault::Gates),
        (plan.output_count, Plan::MAX_OUTPUTS, Fault::Outputs),
    ]
    .into_iter()
    .find(|&(count, most, _)| !is_count(count.into(), most))
    .map(|(_, _, fault)| fault)
}

/// 7 or 8, whichever comes first over the gates of a plan whose counts are good.
fn first_gate_fault(plan: &Plan) -> Option<Fault> {
    (plan.inputs + 1..)
        .zip(used_gates(plan))
        .find_map(|(own, gate)| gate_fault(gate, own))
}

/// 7 for both operands, then 8.
pub(super) fn gate_fault(gate: &Gate, own: u16) -> Option<Fault> {
    if !is_operand(gate.first, own) || !is_operand(gate.second, own) {
        Some(Fault::Operand)
    } else if gate.table > LAST_TABLE {
        Some(Fault::Table)
    } else {
        None
    }
}

/// 9, of a plan whose counts are good.
fn first_output_fault(plan: &Plan) -> Option<Fault> {
    used_outputs(plan)
        .iter()
        .find(|&&wire| !is_gate_wire(wire, plan))
        .map(|_| Fault::Source)
}

/// 17, of a plan without other faults.
fn figure_fault(plan: &Plan) -> Option<Fault> {
    let wires = wire_count(plan);
    let are_counted =
        plan.gate_places == gate_places(plan) && plan.uses[..wires] == uses(plan)[..wires];
    (!are_counted).then_some(Fault::Tally)
}

/// Document 02, W7: stores K and the uses of the plan's wires as they are counted. The figures past
/// them stay as they were.
pub(super) fn count_figures(plan: &mut Plan) {
    let (wires, uses) = (wire_count(plan), uses(plan));
    plan.gate_places = gate_places(plan);
    plan.uses[..wires].copy_from_slice(&uses[..wires]);
}

/// K, the smallest power of two not below k.
fn gate_places(plan: &Plan) -> u16 {
    plan.gate_count.next_power_of_two()
}

/// How many operand places and outputs name each wire, wire w at w - 1.
fn uses(plan: &Plan) -> [u16; Plan::MAX_WIRES] {
    let mut uses = [0; Plan::MAX_WIRES];
    let mut name = |wire: u16| uses[usize::from(wire) - 1] += 1;
    for gate in used_gates(plan) {
        name(gate.first);
        name(gate.second);
    }
    for &wire in used_outputs(plan) {
        name(wire);
    }
    uses
}

/// The inputs and the gates: wires 1 to u + k.
fn wire_count(plan: &Plan) -> usize {
    usize::from(plan.inputs) + usize::from(plan.gate_count)
}

pub fn used_gates(plan: &Plan) -> &[Gate] {
    &plan.gates[..usize::from(plan.gate_count)]
}

pub fn used_outputs(plan: &Plan) -> &[u16] {
    &plan.outputs[..usize::from(plan.output_count)]
}

/// The bit of every plan wire, at the wire's number; place 0 is no wire's.
fn wire_bits(plan: &Plan, row: &[u8]) -> [u8; WIRES] {
    let mut bits = [0; WIRES];
    let first_gate = 1 + row.len();
    bits[1..first_gate].copy_from_slice(row);
    for (wire, gate) in (first_gate..).zip(used_gates(plan)) {
        let a = bits[usize::from(gate.first)];
        let b = bits[usize::from(gate.second)];
        bits[wire] = gate_bit(gate.table, a, b);
    }
    bits
}

/// A gate's bit from its table and its operands' bits.
pub fn gate_bit(table: u16, a: u8, b: u8) -> u8 {
    (table >> (2 * a + b) & 1) as u8
}

#[cfg(test)]
mod tests {
    use super::*;

    const NOT: [u8; 10] = [1, 0, 1, 0, 1, 0, 4, 1, 2, 0];
    const EXAMPLE: [u8; 17] = [2, 0, 2, 0, 1, 0, 3, 1, 0, 2, 0, 6, 1, 0, 6, 4, 0];

    fn header(inputs: u16, gates: u16, outputs: u16) -> Vec<u8> {
        [inputs, gates, outputs]
            .iter()
            .flat_map(|count| count.to_le_bytes())
            .collect()
    }

    /// The file's refusal as number and offset.
    fn refused(file: &[u8]) -> (u32, u64) {
        let refusal = read(file).expect_err("the file is no plan");
        (refusal.fault.number(), refusal.at)
    }

    fn outputs(file: &[u8], row: &[u8]) -> Vec<u8> {
        let plan = read(file).expect("the file is a plan");
        let mut result = vec![9; usize::from(plan.output_count) + 1];
        evaluate(&plan, row, &mut result).expect("the row is good");
        assert_eq!(result.pop(), Some(9));
        result
    }

    /// A header that passes is a file cut before its first map byte.
    #[test]
    fn header_figures() {
        let passes = (5, 6);
        assert_eq!(refused(&header(0, 1, 1)), (2, 0));
        assert_eq!(refused(&header(64, 1, 1)), passes);
        assert_eq!(refused(&header(65, 1, 1)), (2, 0));
        assert_eq!(refused(&header(1, 256, 1)), passes);
        assert_eq!(refused(&header(1, 257, 1)), (3, 2));
        assert_eq!(refused(&header(1, 1, 64)), passes);
        assert_eq!(refused(&header(1, 1, 65)), (4, 4));
        assert_eq!(refused(&header(1, 1, 1)[..5]), (1, 0));
    }

    #[test]
    fn map_figures() {
        let with_map = |map| [header(1, 1, 1), vec![map]].concat();
        assert_eq!(refused(&with_map(7)), (5, 7));
        assert_eq!(refused(&with_map(8)), (6, 6));
    }

    #[test]
    fn header_faults_come_in_order() {
        assert_eq!(refused(&header(0, 0, 0)), (2, 0));
        assert_eq!(refused(&header(1, 0, 0)), (3, 2));
        assert_eq!(refused(&header(1, 1, 0)), (4, 4));
    }

    #[test]
    fn a_cut_field_is_refused_at_its_first_byte() {
        let starts = [6, 7, 7, 9, 9, 11, 12, 12, 14, 15, 15];
        for (end, start) in (6..EXAMPLE.len()).zip(starts) {
            assert_eq!(refused(&EXAMPLE[..end]), (5, start), "{end} bytes");
        }
    }

    #[test]
    fn a_longer_file_has_a_tail() {
        let longer = [&NOT[..], &[0, 0]].concat();
        assert_eq!(refused(&longer), (10, 10));
    }

    #[test]
    fn a_field_is_refused_where_it_begins() {
        let changed = |at: usize, value: u8| {
            let mut file = EXAMPLE;
            file[at] = value;
            refused(&file)
        };
        assert_eq!(changed(7, 0), (7, 7));
        assert_eq!(changed(7, 3), (7, 7));
        assert_eq!(changed(9, 3), (7, 9));
        assert_eq!(changed(10, 1), (7, 9));
        assert_eq!(changed(12, 4), (7, 12));
        assert_eq!(changed(14, 16), (8, 14));
        assert_eq!(changed(15, 2), (9, 15));
        assert_eq!(changed(15, 5), (9, 15));
    }

    #[test]
    fn absent_fields_take_their_defaults() {
        let file = [header(2, 2, 1), vec![0, 1, 1, 0, 4, 0]].concat();
        let plan = read(&file).expect("the file is a plan");
        let gate = |first, second| Gate {
            first,
            second,
            table: 8,
        };
        assert_eq!(plan.gates[..2], [gate(2, 2), gate(1, 1)]);
        assert_eq!(plan.gates[2..], [Gate::ZERO; 254]);
        assert_eq!(plan.outputs[0], 4);
        assert_eq!(plan.outputs[1..], [0; 63]);
    }

    /// The file of one input and one gate, which has these bytes.
    fn with_gate(gate: &[u8]) -> Vec<u8> {
        [&header(1, 1, 1)[..], gate, &[2, 0]].concat()
    }

    /// The gate that the file of these bytes is read as.
    fn gate_of(gate: &[u8]) -> (u16, u16, u16) {
        let plan = read(&with_gate(gate)).expect("the file is a plan");
        let Gate {
            first,
            second,
            table,
        } = plan.gates[0];
        (first, second, table)
    }

    /// A gate of one operand up to its table: with the operand absent, and standing.
    const ONE_OPERAND: [&[u8]; 2] = [&[4], &[5, 1, 0]];

    /// The same with a second operand that stands and equals the first.
    const EQUAL_OPERANDS: [&[u8]; 2] = [&[6, 1, 0], &[7, 1, 0, 1, 0]];

    #[test]
    fn a_table_of_one_operand_has_two_lines() {
        for gate in ONE_OPERAND {
            for (byte, table) in (0..).zip([0, 1, 8, 9]) {
                assert_eq!(gate_of(&[gate, &[byte]].concat()), (1, 1, table));
            }
            for byte in [4, 8, 15, 16, 255] {
                let file = with_gate(&[gate, &[byte]].concat());
                assert_eq!(refused(&file), (8, 6 + gate.len() as u64), "byte {byte}");
            }
        }
    }

    #[test]
    fn a_standing_second_operand_keeps_four_lines() {
        for gate in EQUAL_OPERANDS {
            for table in 0..=15 {
                assert_eq!(gate_of(&[gate, &[table]].concat()), (1, 1, table.into()));
            }
            for byte in [16, 255] {
                let file = with_gate(&[gate, &[byte]].concat());
                assert_eq!(refused(&file), (8, 6 + gate.len() as u64), "byte {byte}");
            }
        }
    }

    #[test]
    fn a_file_cut_before_a_table_is_refused_at_it() {
        for gate in ONE_OPERAND.into_iter().chain(EQUAL_OPERANDS) {
            let cut = [&header(1, 1, 1)[..], gate].concat();
            assert_eq!(refused(&cut), (5, cut.len() as u64));
        }
    }

    #[test]
    fn an_absent_table_is_8_with_one_operand_and_with_two() {
        for gate in [&[0][..], &[1, 1, 0], &[2, 1, 0], &[3, 1, 0, 1, 0]] {
            assert_eq!(gate_of(gate), (1, 1, 8));
        }
    }

    #[test]
    fn a_gate_of_one_operand_gives_the_line_of_its_bit() {
        for gate in ONE_OPERAND {
            for byte in 0..=3 {
                let file = with_gate(&[gate, &[byte]].concat());
                for bit in [0, 1] {
                    assert_eq!(outputs(&file, &[bit]), [byte >> bit & 1], "byte {byte}");
                }
            }
        }
    }

    #[test]
    fn not_plan() {
        assert_eq!(read(&NOT).map(|plan| plan.gates[0].table), Ok(1));
        assert_eq!(outputs(&NOT, &[0]), [1]);
        assert_eq!(outputs(&NOT, &[1]), [0]);
    }

    #[test]
    fn five_line_example() {
        let column = [([0, 0], 0), ([1, 0], 1), ([0, 1], 0), ([1, 1], 0)];
        for (row, output) in column {
            assert_eq!(outputs(&EXAMPLE, &row), [output], "row {row:?}");
        }
    }

    #[test]
    fn plan_faults_come_in_order() {
        let good = read(&EXAMPLE).expect("the file is a plan");
        let mut plan = good;
        assert_eq!(fault(&plan), None);
        plan.gate_places = 4;
        assert_eq!(fault(&plan), Some(Fault::Tally));
        plan.outputs[0] = 2;
        assert_eq!(fault(&plan), Some(Fault::Source));
        plan.gates[1].second = 4;
        assert_eq!(fault(&plan), Some(Fault::Operand));
        plan.gates[0].table = 16;
        assert_eq!(fault(&plan), Some(Fault::Table));
        plan.gates[0].second = 0;
        assert_eq!(fault(&plan), Some(Fault::Operand));
        plan.output_count = 65;
        assert_eq!(fault(&plan), Some(Fault::Outputs));
        plan.gate_count = 257;
        assert_eq!(fault(&plan), Some(Fault::Gates));
        plan.inputs = 0;
        assert_eq!(fault(&plan), Some(Fault::Inputs));
    }

    #[test]
    fn a_table_in_memory_has_four_lines_whatever_the_operands() {
        let mut plan = read(&NOT).expect("the file is a plan");
        for table in 0..=15 {
            plan.gates[0].table = table;
            assert_eq!(fault(&plan), None, "table {table}");
        }
        plan.gates[0].table = 16;
        assert_eq!(fault(&plan), Some(Fault::Table));
    }

    #[test]
    fn unused_places_have_no_fault() {
        let mut plan = read(&EXAMPLE).expect("the file is a plan");
        plan.gates[2].table = 99;
        plan.outputs[1] = 0;
        plan.uses[4] = 99;
        assert_eq!(fault(&plan), None);
    }

    /// Gate 1 of the example uses wires 1 and 2, gate 2 wires 3 and 1, the output wire 4. NOT uses its
    /// input twice.
    #[test]
    fn figures_by_hand() {
        let plan = read(&EXAMPLE).expect("the file is a plan");
        assert_eq!((plan.gate_places, &plan.uses[..4]), (2, &[2, 1, 1, 1][..]));
        assert_eq!(plan.uses[4..], [0; 316]);
        let not = read(&NOT).expect("the file is a plan");
        assert_eq!((not.gate_places, &not.uses[..3]), (1, &[2, 1, 0][..]));
    }

    #[test]
    fn places_are_the_next_power_of_two() {
        let mut plan = Plan::ZERO;
        for (k, places) in [
            (1, 1),
            (2, 2),
            (3, 4),
            (4, 4),
            (5, 8),
            (129, 256),
            (256, 256),
        ] {
            plan.gate_count = k;
            assert_eq!(gate_places(&plan), places, "{k} gates");
        }
    }

    #[test]
    fn a_figure_that_is_not_the_counted_one_is_a_fault() {
        let good = read(&EXAMPLE).expect("the file is a plan");
        for places in [0, 1, 3, 4] {
            let mut plan = good;
            plan.gate_places = places;
            assert_eq!(fault(&plan), Some(Fault::Tally), "{places} places");
        }
        for wire in 0..4 {
            let mut plan = good;
            plan.uses[wire] += 1;
            assert_eq!(fault(&plan), Some(Fault::Tally));
            plan.uses[wire] -= 2;
            assert_eq!(fault(&plan), Some(Fault::Tally));
        }
    }

    #[test]
    fn evaluation_checks_plan_then_row_then_buffer() {
        let mut plan = read(&EXAMPLE).expect("the file is a plan");
        let mut result = [9];
        assert_eq!(evaluate(&plan, &[0, 1], &mut []), Err(Fault::Short));
        assert_eq!(evaluate(&plan, &[0], &mut []), Err(Fault::Contact));
        for row in [&[][..], &[0], &[0, 2], &[255, 0], &[0, 0, 0]] {
            assert_eq!(evaluate(&plan, row, &mut result), Err(Fault::Contact));
        }
        plan.outputs[0] = 5;
        assert_eq!(evaluate(&plan, &[0], &mut []), Err(Fault::Source));
        assert_eq!(result, [9]);
    }
}
