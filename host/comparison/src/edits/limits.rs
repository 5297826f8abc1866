//! Every edit of the smallest plans, and edits of others at the limits of what they name and bring.

use mukdalis::{Gate, Plan};

use super::compare_edit;
use crate::memory::filled_plan;
use crate::random::Random;
use crate::samples::edits::{no_places, sound_edits, PlanEdit};
use crate::samples::plans::every_plan;
use crate::samples::{fill_unused, Counts};
use crate::{Comparison, Outcome};

pub fn compare(comparison: &mut Comparison, random: &mut Random) -> Outcome {
    every_small_edit(comparison, random)?;
    numbers(comparison, random)?;
    values(comparison, random)
}

/// Every plan of one input with up to two gates, and of two inputs with one, and one output: every edit
/// with numbers and wires up to past the last, and a table of each kind.
fn every_small_edit(comparison: &mut Comparison, random: &mut Random) -> Outcome {
    comparison.begin("every edit of every small plan");
    for (u, k) in [(1, 1), (2, 1), (1, 2)] {
        let edits = small_edits(u, k);
        for mut plan in every_plan(u, k) {
            fill_unused(random, &mut plan);
            for &edit in &edits {
                compare_edit(comparison, &plan, edit, None)?;
            }
        }
    }
    Ok(())
}

fn small_edits(u: u16, k: u16) -> Vec<PlanEdit> {
    let wires = 0..=u + k + 1;
    let mut gates = Vec::new();
    for first in wires.clone() {
        for second in wires.clone() {
            gates.extend([6, 16].map(|table| Gate {
                first,
                second,
                table,
            }));
        }
    }
    let numbers = 0..=u32::from(k) + 1;
    let mut edits = Vec::new();
    for new_gate in gates {
        edits.extend(
            numbers
                .clone()
                .map(|gate| PlanEdit::ReplaceGate(gate, new_gate)),
        );
        edits.push(PlanEdit::AppendGate(new_gate));
    }
    for wire in wires {
        edits.extend((0..=2).map(|output| PlanEdit::ReplaceOutput(output, wire)));
    }
    edits
}

/// Every gate and every output, and numbers that the plan lacks.
fn numbers(comparison: &mut Comparison, random: &mut Random) -> Outcome {
    comparison.begin("edits, every gate and output number");
    for _ in 0..200 {
        let counts = Counts::random(random);
        let plan = filled_plan(random, counts);
        let [u, k, v] = plan.counts();
        let last = (u + k) as u16;
        let on_input = Gate {
            first: 1,
            second: 1,
            table: 9,
        };
        for gate in (1..=k).chain(no_places(k as u16)) {
            let edit = PlanEdit::ReplaceGate(gate, on_input);
            compare_edit(comparison, &plan, edit, None)?;
        }
        for output in (1..=v).chain(no_places(v as u16)) {
            let edit = PlanEdit::ReplaceOutput(output, last);
            compare_edit(comparison, &plan, edit, None)?;
        }
    }
    Ok(())
}

/// Operands, tables and outputs at and beside their limits, equal operands among them.
fn values(comparison: &mut Comparison, random: &mut Random) -> Outcome {
    comparison.begin("edits at the limits of what they bring");
    for _ in 0..400 {
        let counts = Counts::random(random);
        let plan = filled_plan(random, counts);
        for edit in sound_edits(random, &plan) {
            for edit in at_limits(&plan, edit) {
                compare_edit(comparison, &plan, edit, None)?;
            }
        }
    }
    Ok(())
}

/// The edit with other values.
fn at_limits(plan: &Plan, edit: PlanEdit) -> Vec<PlanEdit> {
    let (u, last) = (plan.inputs, plan.inputs + plan.gate_count);
    match edit {
        PlanEdit::ReplaceGate(gate, _) => {
            let gates = gates_at_limits(u + gate as u16, last).into_iter();
            gates
                .map(|new_gate| PlanEdit::ReplaceGate(gate, new_gate))
                .collect()
        }
        PlanEdit::AppendGate(_) => {
            let gates = gates_at_limits(last + 1, last).into_iter();
            gates.map(PlanEdit::AppendGate).collect()
        }
        PlanEdit::ReplaceOutput(output, _) => {
            let wires = [0, 1, u, u + 1, last, last + 1, last + 256, u16::MAX];
            wires
                .map(|wire| PlanEdit::ReplaceOutput(output, wire))
                .to_vec()
        }
    }
}

/// Gates for this wire, in a plan whose last wire is `last`.
fn gates_at_limits(own: u16, last: u16) -> Vec<Gate> {
    let wires = [0, 1, own - 1, own, own + 1, last, last + 1, u16::MAX];
    let mut gates = Vec::new();
    for first in wires {
        for second in wires {
            gates.extend([0, 15, 16, 264, u16::MAX].map(|table| Gate {
                first,
                second,
                table,
            }));
        }
    }
    gates
}
