//! Document 02, W1: reading a plan whose gates stand as they were drawn.
//!
//! A drawing is a plan's record whose operands may be any of its wires.

use mukdalis::{DrawnPlan, Fault, Gate, Plan, Refusal};

use super::plan::{count_figures, read_whole, refusal, used_outputs, HEADER, WIRES};

/// Reads a drawn plan: the drawing, then its gates in the order in which they can be evaluated. The
/// plan's figures are counted; its unused places and those of the drawn numbers are zero.
pub fn read(file: &[u8]) -> Result<DrawnPlan, Refusal> {
    let drawing = read_whole(file, |counts, _| counts.inputs + counts.gate_count + 1)?;
    take_gates(&drawing).map_err(|left| refusal(Fault::Ring, map_offset(file, left)))
}

/// The plan that is made by taking again and again the lowest-numbered gate whose operands are
/// inputs or gates already taken; the lowest gate left over if not all are taken.
fn take_gates(drawing: &Plan) -> Result<DrawnPlan, usize> {
    let (u, k) = (drawing.inputs, usize::from(drawing.gate_count));
    let mut wires = input_wires(drawing);
    let mut taken = DrawnPlan {
        plan: Plan {
            inputs: u,
            gate_count: drawing.gate_count,
            output_count: drawing.output_count,
            ..Plan::ZERO
        },
        drawn: [0; Plan::MAX_GATES],
    };
    // The lowest gate that is not yet taken, from 1; no search has to begin before it.
    let mut lowest = 1;
    for place in 1..=k {
        let Some(g) = next_ready(drawing, &wires, lowest) else {
            return Err(lowest);
        };
        let gate = drawing.gates[g - 1];
        taken.plan.gates[place - 1] = Gate {
            first: wires[usize::from(gate.first)],
            second: wires[usize::from(gate.second)],
            table: gate.table,
        };
        taken.drawn[place - 1] = g as u16;
        wires[usize::from(u) + g] = u + place as u16;
        while lowest <= k && wires[usize::from(u) + lowest] != 0 {
            lowest += 1;
        }
    }
    for (output, &wire) in taken.plan.outputs.iter_mut().zip(used_outputs(drawing)) {
        *output = wires[usize::from(wire)];
    }
    count_figures(&mut taken.plan);
    Ok(taken)
}

/// The number in the plan of each drawn wire, at the wire's drawn number: the inputs' own, and 0
/// for the gates, of which none is taken.
fn input_wires(drawing: &Plan) -> [u16; WIRES] {
    let mut wires = [0; WIRES];
    for wire in 1..=drawing.inputs {
        wires[usize::from(wire)] = wire;
    }
    wires
}

/// The first gate from `lowest` on that is not taken and whose operands are, counted from 1.
fn next_ready(drawing: &Plan, wires: &[u16; WIRES], lowest: usize) -> Option<usize> {
    let (u, k) = (usize::from(drawing.inputs), usize::from(drawing.gate_count));
    let own = &wires[u + lowest..=u + k];
    let mut left = drawing.gates[lowest - 1..k].iter().zip(own);
    let is_taken = |wire: u16| wires[usize::from(wire)] != 0;
    let ready =
        left.position(|(gate, &own)| own == 0 && is_taken(gate.first) && is_taken(gate.second));
    ready.map(|place| lowest + place)
}

/// Where the map byte of gate g, from 1, stands in the file of a drawing: behind the fields of the
/// gates before it.
fn map_offset(file: &[u8], g: usize) -> usize {
    let mut at = HEADER;
    for _ in 1..g {
        let map = usize::from(file[at]);
        at += 1 + 2 * (map & 1) + 2 * (map >> 1 & 1) + (map >> 2 & 1);
    }
    at
}

#[cfg(test)]
mod tests {
    use super::super::plan;
    use super::*;

    /// A file of u inputs, these gates and the last gate as the output. A gate is its map byte and
    /// the bytes of its fields.
    fn file(u: u8, gates: &[&[u8]]) -> Vec<u8> {
        let k = gates.len() as u8;
        let header = [u, 0, k, 0, 1, 0];
        [&header[..], &gates.concat(), &[u + k, 0]].concat()
    }

    fn drawn_numbers(file: &[u8]) -> Vec<u16> {
        let drawn = read(file).expect("the gates have an order");
        assert_eq!(plan::fault(&drawn.plan), None);
        let (used, unused) = drawn.drawn.split_at(drawn.plan.gate_count.into());
        assert!(unused.iter().all(|&number| number == 0));
        used.to_vec()
    }

    /// The file's refusal as number and offset.
    fn refused(file: &[u8]) -> (u32, u64) {
        let refusal = read(file).expect_err("the file is refused");
        (refusal.fault.number(), refusal.at)
    }

    /// Gate 1 from gate 3, the others from inputs.
    const FROM_THE_THIRD: [&[u8]; 4] = [&[1, 5, 0], &[1, 1, 0], &[1, 2, 0], &[1, 1, 0]];

    #[test]
    fn the_search_begins_at_the_lowest_gate_again() {
        assert_eq!(drawn_numbers(&file(2, &FROM_THE_THIRD)), [2, 3, 1, 4]);
    }

    #[test]
    fn operands_and_outputs_are_renumbered() {
        let mut file = file(2, &FROM_THE_THIRD);
        let output = file.len() - 2;
        file[output] = 3;
        let plan = read(&file).expect("the gates have an order").plan;
        let operands: Vec<u16> = plan.gates[..5].iter().map(|gate| gate.first).collect();
        assert_eq!(operands, [1, 2, 4, 1, 0]);
        assert_eq!(plan.outputs[..2], [5, 0]);
        assert_eq!(plan.uses[..7], [4, 2, 0, 2, 1, 0, 0]);
        assert_eq!(plan.gate_places, 4);
    }

    #[test]
    fn gates_drawn_backwards() {
        let backwards = file(1, &[&[1, 3, 0], &[1, 4, 0], &[1, 5, 0], &[1, 1, 0]]);
        assert_eq!(drawn_numbers(&backwards), [4, 3, 2, 1]);
    }

    #[test]
    fn a_plan_is_drawn_in_its_own_order() {
        let file = [2, 0, 2, 0, 1, 0, 3, 1, 0, 2, 0, 6, 1, 0, 6, 4, 0];
        assert_eq!(drawn_numbers(&file), [1, 2]);
        assert_eq!(read(&file).map(|drawn| drawn.plan), plan::read(&file));
    }

    /// Gate 1 from gate 3; gate 2, with all fields absent, from gate 1; gate 3 from the input.
    #[test]
    fn absent_fields_mean_drawn_numbers() {
        let file = file(1, &[&[1, 4, 0], &[0], &[1, 1, 0]]);
        assert_eq!(drawn_numbers(&file), [3, 1, 2]);
        let plan = read(&file).expect("the gates have an order").plan;
        let last = plan.gates[2];
        assert_eq!((last.first, last.second, last.table), (3, 3, 8));
    }

    /// Gate 1 from gate 2 alone, both lines 1; gate 2 from the input.
    #[test]
    fn two_lines_go_with_their_gate() {
        let file = file(1, &[&[5, 3, 0, 3], &[1, 1, 0]]);
        assert_eq!(drawn_numbers(&file), [2, 1]);
        let plan = read(&file).expect("the gates have an order").plan;
        let last = plan.gates[1];
        assert_eq!((last.first, last.second, last.table), (2, 2, 9));
    }

    #[test]
    fn a_gate_fed_by_itself_is_a_cycle() {
        assert_eq!(refused(&file(1, &[&[1, 2, 0]])), (15, 6));
        assert_eq!(refused(&file(1, &[&[1, 1, 0], &[3, 1, 0, 3, 0]])), (15, 9));
    }

    /// Table 0 looks at no operand.
    #[test]
    fn an_ignored_operand_counts() {
        assert_eq!(refused(&file(1, &[&[7, 1, 0, 2, 0, 0]])), (15, 6));
    }

    /// Gate 2 only draws from the ring of gates 3 and 4.
    #[test]
    fn the_lowest_gate_left_over_may_lie_outside_the_cycle() {
        let gates: [&[u8]; 4] = [&[5, 1, 0, 1], &[1, 4, 0], &[1, 5, 0], &[1, 4, 0]];
        assert_eq!(refused(&file(1, &gates)), (15, 10));
    }

    #[test]
    fn an_operand_is_any_wire_of_the_drawing() {
        let with_operand = |wire| file(1, &[&[1, wire, 0], &[1, 1, 0]]);
        assert_eq!(refused(&with_operand(0)), (7, 7));
        assert_eq!(drawn_numbers(&with_operand(1)), [1, 2]);
        assert_eq!(refused(&with_operand(2)), (15, 6));
        assert_eq!(drawn_numbers(&with_operand(3)), [2, 1]);
        assert_eq!(refused(&with_operand(4)), (7, 7));
    }

    #[test]
    fn a_cycle_comes_last() {
        let cycle = file(1, &[&[1, 2, 0], &[5, 1, 0, 1]]);
        let changed = |at: usize, byte: u8| {
            let mut file = cycle.clone();
            file[at] = byte;
            refused(&file)
        };
        assert_eq!(refused(&cycle), (15, 6));
        assert_eq!(refused(&[&cycle[..], &[0]].concat()), (10, 15));
        assert_eq!(refused(&cycle[..14]), (5, 13));
        assert_eq!(changed(13, 4), (9, 13));
        assert_eq!(changed(12, 4), (8, 12));
        assert_eq!(changed(12, 16), (8, 12));
        assert_eq!(changed(9, 8), (6, 9));
    }
}
