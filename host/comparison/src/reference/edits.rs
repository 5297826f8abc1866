//! Document 02, W7: edits of a plan in memory. An edit changes its place and counts all figures again.
//!
//! Gates and outputs count from 1. Places that an edit does not name stay as they were, used or not.

use mukdalis::{Fault, Gate, Plan};

use super::plan::{count_figures, fault, gate_fault, is_gate_wire};

/// The plan with another gate at place `gate`. Checks: plan faults, 18, 7, 8.
pub fn replace_gate(plan: &Plan, gate: u32, new_gate: Gate) -> Result<Plan, Fault> {
    let place = replaced_gate(plan, gate, &new_gate)?;
    let mut edited = *plan;
    edited.gates[place] = new_gate;
    count_figures(&mut edited);
    Ok(edited)
}

/// The plan with a gate more at its end. Checks: plan faults, 3, 7, 8.
pub fn append_gate(plan: &Plan, new_gate: Gate) -> Result<Plan, Fault> {
    let place = appended_gate(plan, &new_gate)?;
    let mut edited = *plan;
    edited.gate_count += 1;
    edited.gates[place] = new_gate;
    count_figures(&mut edited);
    Ok(edited)
}

/// The plan with another wire at the place of output `output`. Checks: plan faults, 18, 9.
pub fn replace_output(plan: &Plan, output: u32, wire: u16) -> Result<Plan, Fault> {
    let place = replaced_output(plan, output, wire)?;
    let mut edited = *plan;
    edited.outputs[place] = wire;
    count_figures(&mut edited);
    Ok(edited)
}

/// The place, from 0, of a gate that is replaced; all checks pass.
pub(super) fn replaced_gate(plan: &Plan, gate: u32, new_gate: &Gate) -> Result<usize, Fault> {
    check(fault(plan))?;
    let place = place(gate, plan.gate_count)?;
    check(gate_fault(new_gate, own_wire(plan, place)))?;
    Ok(place)
}

/// The same of a gate that is appended.
pub(super) fn appended_gate(plan: &Plan, new_gate: &Gate) -> Result<usize, Fault> {
    check(fault(plan))?;
    let place = usize::from(plan.gate_count);
    if place == Plan::MAX_GATES {
        return Err(Fault::Gates);
    }
    check(gate_fault(new_gate, own_wire(plan, place)))?;
    Ok(place)
}

/// The same of an output that is replaced.
pub(super) fn replaced_output(plan: &Plan, output: u32, wire: u16) -> Result<usize, Fault> {
    check(fault(plan))?;
    let place = place(output, plan.output_count)?;
    if !is_gate_wire(wire, plan) {
        return Err(Fault::Source);
    }
    Ok(place)
}

fn check(fault: Option<Fault>) -> Result<(), Fault> {
    fault.map_or(Ok(()), Err)
}

/// The place, from 0, of the gate or output of this number; 18 if there are less.
fn place(number: u32, count: u16) -> Result<usize, Fault> {
    if (1..=u32::from(count)).contains(&number) {
        Ok(number as usize - 1)
    } else {
        Err(Fault::Place)
    }
}

/// The wire of the gate at this place.
fn own_wire(plan: &Plan, place: usize) -> u16 {
    plan.inputs + 1 + place as u16
}

#[cfg(test)]
mod tests {
    use super::super::plan::read;
    use super::*;

    const EXAMPLE: [u8; 17] = [2, 0, 2, 0, 1, 0, 3, 1, 0, 2, 0, 6, 1, 0, 6, 4, 0];

    /// Gate 1 on inputs 1 and 2, gate 2 on gate 1 and input 1, output wire 4; 99 in a place of each
    /// kind that is unused.
    fn example() -> Plan {
        let mut plan = read(&EXAMPLE).expect("the file is a plan");
        plan.gates[3] = gate(99, 99, 99);
        plan.outputs[1] = 99;
        (plan.uses[4], plan.uses[5]) = (99, 99);
        plan
    }

    fn gate(first: u16, second: u16, table: u16) -> Gate {
        Gate {
            first,
            second,
            table,
        }
    }

    #[test]
    fn a_gate_is_replaced() {
        let mut due = example();
        due.gates[1] = gate(2, 2, 15);
        due.uses[..4].copy_from_slice(&[1, 3, 0, 1]);
        assert_eq!(replace_gate(&example(), 2, gate(2, 2, 15)), Ok(due));
    }

    /// The new wire is 5: its figure becomes 0, and K doubles.
    #[test]
    fn a_gate_is_appended() {
        let mut due = example();
        due.gate_count = 3;
        due.gates[2] = gate(4, 1, 6);
        due.uses[..5].copy_from_slice(&[3, 1, 1, 2, 0]);
        due.gate_places = 4;
        let appended = append_gate(&example(), gate(4, 1, 6));
        assert_eq!(appended, Ok(due));

        due.gate_count = 4;
        due.gates[3] = gate(5, 5, 8);
        (due.uses[4], due.uses[5]) = (2, 0);
        let appended = appended.and_then(|plan| append_gate(&plan, gate(5, 5, 8)));
        assert_eq!(appended, Ok(due));
    }

    #[test]
    fn an_output_is_replaced() {
        let mut due = example();
        due.outputs[0] = 3;
        due.uses[..4].copy_from_slice(&[2, 1, 2, 0]);
        assert_eq!(replace_output(&example(), 1, 3), Ok(due));
    }

    #[test]
    fn a_257th_gate_is_refused() {
        let mut plan = example();
        for _ in 2..256 {
            plan = append_gate(&plan, gate(1, 2, 8)).expect("there is room");
        }
        assert_eq!((plan.gate_count, plan.gate_places), (256, 256));
        assert_eq!(append_gate(&plan, gate(0, 0, 16)), Err(Fault::Gates));
        plan.gate_places = 128;
        assert_eq!(append_gate(&plan, gate(1, 2, 8)), Err(Fault::Tally));
    }

    /// The gate's own wire is 4, that of an appended one 5.
    #[test]
    fn checks_come_in_order() {
        let mut plan = example();
        let replaced = |new_gate| replace_gate(&example(), 2, new_gate);
        let appended = |new_gate| append_gate(&example(), new_gate);
        for (first, second) in [(0, 1), (1, 0), (4, 1), (1, 4), (5, 5)] {
            assert_eq!(replaced(gate(first, second, 16)), Err(Fault::Operand));
        }
        for (first, second) in [(0, 1), (1, 0), (5, 1), (1, 5)] {
            assert_eq!(appended(gate(first, second, 16)), Err(Fault::Operand));
        }
        assert_eq!(replaced(gate(3, 3, 16)), Err(Fault::Table));
        assert_eq!(appended(gate(4, 4, 16)), Err(Fault::Table));
        for wire in [0, 2, 5, u16::MAX] {
            assert_eq!(replace_output(&plan, 1, wire), Err(Fault::Source));
        }
        for number in [0, 3, 257, 1 << 16 | 1, u32::MAX] {
            let refused = replace_gate(&plan, number, gate(0, 0, 16));
            assert_eq!(refused, Err(Fault::Place));
            assert_eq!(replace_output(&plan, number, 0), Err(Fault::Place));
        }
        let mut refused = |change: fn(&mut Plan), fault| {
            change(&mut plan);
            assert_eq!(replace_gate(&plan, 0, gate(0, 0, 16)), Err(fault));
            assert_eq!(append_gate(&plan, gate(0, 0, 16)), Err(fault));
            assert_eq!(replace_output(&plan, 0, 0), Err(fault));
        };
        refused(|plan| plan.uses[0] = 3, Fault::Tally);
        refused(|plan| plan.outputs[0] = 5, Fault::Source);
    }
}
