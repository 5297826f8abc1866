//! A plan's program for the fabric of its counts.
//!
//! Gates and pins count from 0 here: pins 2g and 2g + 1 are gate g's operands.

use std::ops::Range;

use mukdalis::{Fault, Plan};

use super::elements::{BitWriter, TABLE_BITS};
use super::fabric;
use super::plan::{fault, used_gates, used_outputs};
use super::selection;

/// Writes the plan's program bits.
///
/// Bytes past the stated length are unchanged, and a refusal changes none. Checks: plan faults, 11.
pub fn write(plan: &Plan, program: &mut [u8]) -> Result<(), Fault> {
    if let Some(fault) = fault(plan) {
        return Err(fault);
    }
    let [u, k, v] = [plan.inputs, plan.gate_count, plan.output_count].map(u32::from);
    let size = fabric::count(u, k, v)?;
    let mut bits = BitWriter::new(program, size.bits as usize)?;
    program_bits(plan, &mut bits);
    Ok(())
}

/// What an operand names: an input or a gate.
#[derive(Clone, Copy)]
enum Operand {
    Input(usize),
    Gate(usize),
}

impl Operand {
    fn of(wire: u16, plan: &Plan) -> Operand {
        match wire.checked_sub(plan.inputs + 1) {
            Some(gate) => Operand::Gate(gate.into()),
            None => Operand::Input(usize::from(wire) - 1),
        }
    }

    /// The input that the first S brings to the operand's pin: the first one for a gate.
    fn input(self) -> usize {
        match self {
            Operand::Input(input) => input,
            Operand::Gate(_) => 0,
        }
    }

    /// The operand's place among these gates, if it is one of them.
    fn place_in(self, gates: &Range<usize>) -> Option<usize> {
        match self {
            Operand::Gate(gate) if gates.contains(&gate) => Some(gate - gates.start),
            _ => None,
        }
    }
}

/// A gate of the fabric; those past the plan's have table 0 and both pins on the first input.
#[derive(Clone, Copy)]
struct Gate {
    operands: [Operand; 2],
    table: u16,
}

const UNUSED_GATE: Gate = Gate {
    operands: [Operand::Input(0); 2],
    table: 0,
};

/// Writes the bits of S(u, 2K), U(K) and S(K, v), in the order of their rows.
fn program_bits(plan: &Plan, bits: &mut BitWriter) {
    let mut gates = vec![UNUSED_GATE; usize::from(plan.gate_count).next_power_of_two()];
    for (place, gate) in gates.iter_mut().zip(used_gates(plan)) {
        *place = Gate {
            operands: [gate.first, gate.second].map(|wire| Operand::of(wire, plan)),
            table: gate.table,
        };
    }
    let inputs: Vec<usize> = operands(&gates).map(Operand::input).collect();
    let outputs: Vec<usize> = used_outputs(plan)
        .iter()
        .map(|&wire| usize::from(wire - plan.inputs) - 1)
        .collect();
    selection::program_bits(plan.inputs.into(), &inputs, bits);
    universal_bits(&gates, 0..gates.len(), bits);
    selection::program_bits(gates.len(), &outputs, bits);
}

fn operands(gates: &[Gate]) -> impl Iterator<Item = Operand> + '_ {
    gates.iter().flat_map(|gate| gate.operands)
}

/// Writes the bits of the U whose gates are a range of all: the upper half's, those of the S and of
/// the mixing rows that bring its gates to the lower half's pins, the lower half's.
fn universal_bits(gates: &[Gate], range: Range<usize>, bits: &mut BitWriter) {
    if range.len() == 1 {
        let table = gates[range.start].table;
        (0..TABLE_BITS).for_each(|bit| bits.push(table >> bit & 1 == 1));
        return;
    }
    let middle = range.start + range.len() / 2;
    let (upper, lower) = (range.start..middle, middle..range.end);
    universal_bits(gates, upper.clone(), bits);

    let selected = || operands(&gates[lower.clone()]).map(|operand| operand.place_in(&upper));
    let or_first: Vec<usize> = selected().map(|gate| gate.unwrap_or(0)).collect();
    selection::program_bits(upper.len(), &or_first, bits);
    selected().for_each(|gate| bits.push(gate.is_some()));

    universal_bits(gates, lower.clone(), bits);
}

#[cfg(test)]
mod tests {
    use super::super::elements::bit;
    use super::super::{fabric, plan, run};
    use super::*;
    use crate::random::Random;
    use crate::samples::fabric::table_len;
    use crate::samples::{accepted_plan, fill_unused, Counts};

    const NOT: [u8; 10] = [1, 0, 1, 0, 1, 0, 4, 1, 2, 0];
    const EXAMPLE: [u8; 17] = [2, 0, 2, 0, 1, 0, 3, 1, 0, 2, 0, 6, 1, 0, 6, 4, 0];

    fn programmed(plan: &Plan) -> Vec<u8> {
        let mut program = vec![0x5a; bit_count(plan).div_ceil(8)];
        assert_eq!(write(plan, &mut program), Ok(()));
        program
    }

    fn bit_count(plan: &Plan) -> usize {
        let [u, k, v] = [plan.inputs, plan.gate_count, plan.output_count].map(u32::from);
        let size = fabric::count(u, k, v).expect("the counts are in range");
        size.bits as usize
    }

    #[test]
    fn not_figure() {
        let plan = plan::read(&NOT).expect("the file is a plan");
        assert_eq!(programmed(&plan), [0x08]);
    }

    /// S(2, 4) brings inputs 1, 2, 1, 1 to the pins: heads at 1 and 4. The upper gate is AND, the
    /// lower XOR of the upper gate and input 1. S(2, 1) selects the lower gate.
    #[test]
    fn example_by_hand() {
        let plan = plan::read(&EXAMPLE).expect("the file is a plan");
        let program = programmed(&plan);
        let bits: Vec<u8> = (0..bit_count(&plan))
            .map(|p| bit(&program, p).into())
            .collect();
        let chain = [0, 0, 1];
        assert_eq!(bits[5..8], chain);
        let upper = [0, 0, 0, 1];
        assert_eq!(bits[13..17], upper);
        let (selection, mixing, lower) = ([0, 0, 0], [1, 0], [0, 1, 1, 0]);
        assert_eq!(bits[17..20], selection);
        assert_eq!(bits[20..22], mixing);
        assert_eq!(bits[22..26], lower);
        assert_eq!(bits[26..], [1, 0, 0]);
    }

    /// The fabric with the plan's program gives what the plan does.
    fn assert_equivalent(plan: &Plan, row: &[u8]) {
        let counts = [plan.inputs, plan.gate_count, plan.output_count];
        let [u, k, v] = counts.map(u32::from);
        let size = fabric::count(u, k, v).expect("the counts are in range");
        let mut table = vec![9; table_len(u, k, v)];
        assert_eq!(fabric::write(u, k, v, &mut table), Ok(()));
        let program = programmed(plan);
        assert_eq!(program.len(), size.bits.div_ceil(8) as usize);

        let mut work = vec![9; size.wires as usize];
        let (mut found, mut expected) = (vec![9; v as usize], vec![9; v as usize]);
        let done = run::run(&table, &program, row, &mut work, &mut found);
        assert_eq!(done, Ok(()));
        assert_eq!(plan::evaluate(plan, row, &mut expected), Ok(()));
        assert_eq!(found, expected);
    }

    #[test]
    fn example_on_every_row() {
        let plan = plan::read(&EXAMPLE).expect("the file is a plan");
        for row in [[0, 0], [1, 0], [0, 1], [1, 1]] {
            assert_equivalent(&plan, &row);
        }
    }

    #[test]
    fn random_plans_are_their_fabrics() {
        let mut random = Random::new(1);
        for i in 0..200 {
            let counts = match i {
                0 => Counts::MOST,
                _ => Counts::random(&mut random),
            };
            let plan = accepted_plan(&mut random, counts);
            for _ in 0..3 {
                let row = random.row(plan.inputs.into());
                assert_equivalent(&plan, &row);
            }
        }
    }

    #[test]
    fn unused_places_do_not_matter() {
        let mut random = Random::new(2);
        let plan = accepted_plan(&mut random, Counts(3, 5, 2));
        let mut filled = plan;
        fill_unused(&mut random, &mut filled);
        assert_eq!(programmed(&filled), programmed(&plan));
    }

    #[test]
    fn plan_faults_come_before_the_buffer() {
        let mut plan = plan::read(&NOT).expect("the file is a plan");
        let mut program = [9, 9];
        assert_eq!(write(&plan, &mut []), Err(Fault::Short));
        plan.outputs[0] = 1;
        assert_eq!(write(&plan, &mut []), Err(Fault::Source));
        plan.gates[0].table = 16;
        assert_eq!(write(&plan, &mut program), Err(Fault::Table));
        assert_eq!(program, [9, 9]);
        plan.gates[0].table = 1;
        plan.outputs[0] = 2;
        assert_eq!(write(&plan, &mut program), Ok(()));
        assert_eq!(program, [0x08, 9]);
    }
}
