//! The edits once more, written for speed, for the benchmark: after the same checks only the figures
//! that an edit touches change.

use mukdalis::{Fault, Gate, Plan};

use super::edits::{appended_gate, replaced_gate, replaced_output};

pub fn replace_gate(plan: &Plan, gate: u32, new_gate: Gate) -> Result<Plan, Fault> {
    let place = replaced_gate(plan, gate, &new_gate)?;
    let mut edited = *plan;
    let old_gate = edited.gates[place];
    edited.gates[place] = new_gate;
    for wire in [old_gate.first, old_gate.second] {
        *uses(&mut edited, wire) -= 1;
    }
    for wire in [new_gate.first, new_gate.second] {
        *uses(&mut edited, wire) += 1;
    }
    Ok(edited)
}

pub fn append_gate(plan: &Plan, new_gate: Gate) -> Result<Plan, Fault> {
    let place = appended_gate(plan, &new_gate)?;
    let mut edited = *plan;
    edited.gate_count += 1;
    edited.gates[place] = new_gate;
    if edited.gate_places < edited.gate_count {
        edited.gate_places *= 2;
    }
    let own = edited.inputs + edited.gate_count;
    *uses(&mut edited, own) = 0;
    for wire in [new_gate.first, new_gate.second] {
        *uses(&mut edited, wire) += 1;
    }
    Ok(edited)
}

pub fn replace_output(plan: &Plan, output: u32, wire: u16) -> Result<Plan, Fault> {
    let place = replaced_output(plan, output, wire)?;
    let mut edited = *plan;
    let old_wire = edited.outputs[place];
    edited.outputs[place] = wire;
    *uses(&mut edited, old_wire) -= 1;
    *uses(&mut edited, wire) += 1;
    Ok(edited)
}

/// The stored uses of a wire.
fn uses(plan: &mut Plan, wire: u16) -> &mut u16 {
    &mut plan.uses[usize::from(wire) - 1]
}

#[cfg(test)]
mod tests {
    use crate::random::Random;
    use crate::samples::edits::{any_edit, Editing};
    use crate::samples::{accepted_plan, fill_unused, Counts};

    #[test]
    fn what_recounting_gives() {
        let mut random = Random::new(1);
        for _ in 0..40 {
            let counts = Counts::random(&mut random);
            let mut plan = accepted_plan(&mut random, counts);
            for _ in 0..500 {
                fill_unused(&mut random, &mut plan);
                let edit = any_edit(&mut random, &plan);
                let due = Editing::REFERENCE.edit(&plan, edit);
                assert_eq!(Editing::INCREMENTAL.edit(&plan, edit), due, "{edit:?}");
                plan = due.unwrap_or(plan);
            }
        }
    }
}
