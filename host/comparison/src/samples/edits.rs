//! Edits of accepted plans, sound ones and ones that their own checks refuse, and the calls that make
//! them; and damaged figures.

use mukdalis::{raw, Fault, Gate, Plan};

use super::{accepted_gate, LAST_TABLE};
use crate::random::Random;
use crate::reference::{edits, incremental};

/// An edit with what it brings; gates and outputs count from 1.
#[derive(Clone, Copy, Debug)]
pub enum PlanEdit {
    ReplaceGate(u32, Gate),
    AppendGate(Gate),
    ReplaceOutput(u32, u16),
}

/// The three edits of an implementation.
pub struct Editing<A> {
    replace_gate: fn(&Plan, u32, Gate) -> A,
    append_gate: fn(&Plan, Gate) -> A,
    replace_output: fn(&Plan, u32, u16) -> A,
}

impl Editing<raw::Edit> {
    pub const LIBRARY: Editing<raw::Edit> = Editing {
        replace_gate: raw::plan_replace_gate,
        append_gate: raw::plan_append_gate,
        replace_output: raw::plan_replace_output,
    };
}

impl Editing<Result<Plan, Fault>> {
    pub const REFERENCE: Editing<Result<Plan, Fault>> = Editing {
        replace_gate: edits::replace_gate,
        append_gate: edits::append_gate,
        replace_output: edits::replace_output,
    };

    pub const INCREMENTAL: Editing<Result<Plan, Fault>> = Editing {
        replace_gate: incremental::replace_gate,
        append_gate: incremental::append_gate,
        replace_output: incremental::replace_output,
    };
}

impl<A> Editing<A> {
    pub fn edit(&self, plan: &Plan, edit: PlanEdit) -> A {
        match edit {
            PlanEdit::ReplaceGate(gate, new_gate) => (self.replace_gate)(plan, gate, new_gate),
            PlanEdit::AppendGate(new_gate) => (self.append_gate)(plan, new_gate),
            PlanEdit::ReplaceOutput(output, wire) => (self.replace_output)(plan, output, wire),
        }
    }
}

/// An edit of each kind: replaced gate, appended gate, replaced output. None is refused, but for a
/// 257th gate.
pub fn sound_edits(random: &mut Random, plan: &Plan) -> [PlanEdit; 3] {
    let (u, k, v) = (plan.inputs, plan.gate_count, plan.output_count);
    let (gate, output) = (random.between(1, k), random.between(1, v));
    [
        PlanEdit::ReplaceGate(gate.into(), accepted_gate(random, u + gate)),
        PlanEdit::AppendGate(accepted_gate(random, u + k + 1)),
        PlanEdit::ReplaceOutput(output.into(), random.between(u + 1, u + k)),
    ]
}

/// An edit of any kind, one in three spoiled.
pub fn any_edit(random: &mut Random, plan: &Plan) -> PlanEdit {
    let edits = sound_edits(random, plan);
    let edit = random.choose(&edits);
    if !random.one_in(3) {
        return edit;
    }
    let ways = [(); 3].map(|()| random.one_in(2));
    edit.spoiled(random, plan, ways).0
}

impl PlanEdit {
    /// A sound edit of a plan spoiled in each way that is asked for, as far as it can be: its number,
    /// its wire, its table. Gives which of its checks fail, in their order.
    pub fn spoiled(
        self,
        random: &mut Random,
        plan: &Plan,
        [number, wire, table]: [bool; 3],
    ) -> (PlanEdit, Vec<(Fault, bool)>) {
        let (u, k, v) = (plan.inputs, plan.gate_count, plan.output_count);
        let of_gate = [(Fault::Operand, wire), (Fault::Table, table)];
        match self {
            PlanEdit::ReplaceGate(gate, mut new_gate) => {
                spoil_gate(random, &mut new_gate, u + gate as u16, [wire, table]);
                let gate = if number { no_place(random, k) } else { gate };
                let checks = [&[(Fault::Place, number)], &of_gate[..]].concat();
                (PlanEdit::ReplaceGate(gate, new_gate), checks)
            }
            PlanEdit::AppendGate(mut new_gate) => {
                spoil_gate(random, &mut new_gate, u + k + 1, [wire, table]);
                let is_full = usize::from(k) == Plan::MAX_GATES;
                let checks = [&[(Fault::Gates, is_full)], &of_gate[..]].concat();
                (PlanEdit::AppendGate(new_gate), checks)
            }
            PlanEdit::ReplaceOutput(output, mut new_wire) => {
                if wire {
                    let input = random.between(1, u);
                    new_wire = random.choose(&[0, input, u, u + k + 1, u + k + 256, u16::MAX]);
                }
                let output = if number { no_place(random, v) } else { output };
                let checks = vec![(Fault::Place, number), (Fault::Source, wire)];
                (PlanEdit::ReplaceOutput(output, new_wire), checks)
            }
        }
    }
}

/// Gives one or both operands, or the table, of the gate with this wire a value past its limits.
fn spoil_gate(random: &mut Random, gate: &mut Gate, own: u16, [operand, table]: [bool; 2]) {
    if operand {
        let wires = [0, own, own + 1, own + 256, u16::MAX];
        let which = random.between(1, 3);
        if which != 1 {
            gate.first = random.choose(&wires);
        }
        if which != 2 {
            gate.second = random.choose(&wires);
        }
    }
    if table {
        gate.table = random.choose(&[LAST_TABLE + 1, 128, 255, 256, 264, u16::MAX]);
    }
}

/// Numbers that none of so many gates or outputs has: 0, the next one, and some whose low 8 or 16 bits
/// alone would be good.
pub fn no_places(count: u16) -> [u32; 7] {
    let count = u32::from(count);
    [
        0,
        count + 1,
        count + 256,
        1 << 16,
        1 << 16 | count,
        1 << 31 | count,
        u32::MAX,
    ]
}

fn no_place(random: &mut Random, count: u16) -> u32 {
    random.choose(&no_places(count))
}

/// Gives a plan whose figures are counted others: another K, other uses of a wire, or those of two
/// wires swapped, or one moved from one to the other, so that their sum stays.
pub fn damage_figures(random: &mut Random, plan: &mut Plan) {
    let wires = plan.inputs + plan.gate_count;
    let one = random.between(0, wires - 1);
    let other = (one + random.between(1, wires - 1)) % wires;
    let (one, other) = (usize::from(one), usize::from(other));
    let uses = &mut plan.uses;
    match random.between(1, 6) {
        1 | 2 => {
            let places = plan.gate_places;
            let others = [0, places - 1, places + 1, places / 2, 2 * places];
            plan.gate_places = random.choose(&others);
        }
        3 => uses[one] = uses[one].wrapping_sub(1),
        4 if uses[one] != uses[other] => uses.swap(one, other),
        5 => {
            uses[one] = uses[one].wrapping_sub(1);
            uses[other] = uses[other].wrapping_add(1);
        }
        _ => uses[one] += 1,
    }
}

#[cfg(test)]
mod tests {
    use super::super::{accepted_plan, Counts};
    use super::*;
    use crate::reference::plan::fault;

    #[test]
    fn spoiled_edits_fail_the_checks_that_they_say() {
        let mut random = Random::new(1);
        for choice in (0..8).cycle().take(4_000) {
            let counts = Counts::random(&mut random);
            let plan = accepted_plan(&mut random, counts);
            let ways = [0, 1, 2].map(|way| choice >> way & 1 == 1);
            for edit in sound_edits(&mut random, &plan) {
                let (edit, checks) = edit.spoiled(&mut random, &plan, ways);
                let failing = checks.into_iter().find(|&(_, fails)| fails);
                let due = failing.map_or(Ok(()), |(fault, _)| Err(fault));
                let answer = Editing::REFERENCE.edit(&plan, edit).map(drop);
                assert_eq!(answer, due, "{edit:?}");
            }
        }
    }

    #[test]
    fn damaged_figures_are_not_the_counted_ones() {
        let mut random = Random::new(2);
        for _ in 0..4_000 {
            let counts = Counts::random(&mut random);
            let mut plan = accepted_plan(&mut random, counts);
            damage_figures(&mut random, &mut plan);
            assert_eq!(fault(&plan), Some(Fault::Tally));
        }
    }
}
