//! What the plan of a drawing gives, beside the one choice of wire bits that fits every drawn gate.

use mukdalis::Plan;

use crate::reference::plan::{gate_bit, used_gates, used_outputs};
use crate::show::{hex, show_plan};
use crate::{Call, Comparison, Outcome};

/// Compares the library's evaluation of the drawing's plan with the bits of the drawing's outputs.
pub fn compare_outputs(
    comparison: &mut Comparison,
    drawing: &Plan,
    plan: &Plan,
    row: &[u8],
) -> Outcome {
    let bits = fitting_bits(drawing, row);
    let outputs = used_outputs(drawing).iter();
    let expected: Option<Vec<u8>> = outputs.map(|&wire| bits[usize::from(wire)]).collect();
    let mut found = vec![0xa5; drawing.output_count.into()];
    let answer = mukdalis::evaluate(plan, row, &mut found);
    if answer.is_err() || expected.as_ref() != Some(&found) {
        return Err(comparison.difference(&[
            ("drawing", show_plan(drawing)),
            ("read as", show_plan(plan)),
            ("row", hex(row)),
            ("the drawing gives", format!("{expected:?}")),
            ("its plan", format!("{answer:?}, {}", hex(&found))),
        ]));
    }
    comparison.count(Call::DrawnOutputs, 0);
    Ok(())
}

/// The bit of every drawn wire, at the wire's number, as far as the inputs fix it: a gate's bit is
/// known where those of its operands are, whatever the table. All gates are gone through until
/// nothing more becomes known.
fn fitting_bits(drawing: &Plan, row: &[u8]) -> Vec<Option<u8>> {
    let mut bits = vec![None];
    bits.extend(row.iter().copied().map(Some));
    bits.resize(bits.len() + usize::from(drawing.gate_count), None);
    loop {
        let mut changed = false;
        for (wire, gate) in (1 + row.len()..).zip(used_gates(drawing)) {
            let operands = [gate.first, gate.second].map(|wire| bits[usize::from(wire)]);
            if let (None, [Some(a), Some(b)]) = (bits[wire], operands) {
                bits[wire] = Some(gate_bit(gate.table, a, b));
                changed = true;
            }
        }
        if !changed {
            return bits;
        }
    }
}

#[cfg(test)]
mod tests {
    use super::*;
    use crate::random::Random;
    use crate::reference::plan::evaluate;
    use crate::samples::drawings::{shuffled, Cycle, Feed};
    use crate::samples::{accepted_plan, Counts};

    #[test]
    fn a_shuffled_plan_gives_what_the_plan_gives() {
        let mut random = Random::new(1);
        for _ in 0..1_000 {
            let counts = Counts::random(&mut random);
            let plan = accepted_plan(&mut random, counts);
            let drawing = shuffled(&mut random, &plan);
            let row = random.row(plan.inputs.into());
            let mut expected = vec![9; plan.output_count.into()];
            evaluate(&plan, &row, &mut expected).expect("the row is good");
            let bits = fitting_bits(&drawing, &row);
            let outputs = used_outputs(&drawing).iter();
            assert!(outputs
                .map(|&wire| bits[usize::from(wire)])
                .eq(expected.into_iter().map(Some)));
        }
    }

    #[test]
    fn the_inputs_fix_no_bit_of_a_cycle() {
        let mut random = Random::new(2);
        let cycle = Cycle::random(&mut random, Counts(3, 20, 1), 5, Feed::Both);
        let bits = fitting_bits(&cycle.drawing, &[0, 1, 1]);
        assert!(cycle
            .gates
            .iter()
            .all(|&g| bits[3 + usize::from(g)].is_none()));
    }

    #[test]
    fn other_outputs_are_a_difference() {
        let mut random = Random::new(3);
        let mut plan = accepted_plan(&mut random, Counts(1, 1, 1));
        plan.gates[0].table = 12;
        let mut comparison = Comparison::default();
        assert!(compare_outputs(&mut comparison, &plan, &plan, &[1]).is_ok());
        let mut drawing = plan;
        drawing.gates[0].table = 3;
        assert!(compare_outputs(&mut comparison, &drawing, &plan, &[1]).is_err());
        assert!(compare_outputs(&mut comparison, &plan, &Plan::ZERO, &[1]).is_err());
    }
}
