//! Edits of plans in memory: long chains of them, numbers and values at their limits, refused in
//! every order. What is done is also held to what document 02 says of it: the edit's place alone has
//! changed, the figures are the counted ones, and the uses add up to 2k + v. A refused edit gives the
//! record back, every unused place too.

mod chains;
mod limits;
mod orders;

use mukdalis::{raw, Fault, Plan};

use super::show::{first_difference, show_edit, show_number, show_plan};
use super::{number, Call, Comparison, Difference, Outcome};
use crate::random::Random;
use crate::samples::edits::{Editing, PlanEdit};

/// The least number of edits that each call is compared on, and of all that are done.
const LEAST_EDITS: u64 = 100_000;
const LEAST_DONE: u64 = 200_000;

/// Kinds that have to be among those of each call.
const DUE_KINDS: [&str; 7] = [
    "every edit of every small plan",
    "edits at the limits of what they bring",
    "chains of edits",
    "plans that grow to 256 gates",
    "edits of plans with damaged figures",
    "edits, every fault and every two",
    "edits, every choice of failing checks",
];

pub fn compare(comparison: &mut Comparison, random: &mut Random) -> Outcome {
    limits::compare(comparison, random)?;
    chains::compare(comparison, random)?;
    orders::compare(comparison, random)?;
    for call in [
        Call::GateReplacement,
        Call::GateAppending,
        Call::OutputReplacement,
    ] {
        comparison.check_cases(call, LEAST_EDITS, &DUE_KINDS)?;
    }
    comparison.check_cases(Call::EditedPlan, LEAST_DONE, &[])
}

/// The call that makes an edit.
fn call_of(edit: PlanEdit) -> Call {
    match edit {
        PlanEdit::ReplaceGate(..) => Call::GateReplacement,
        PlanEdit::AppendGate(_) => Call::GateAppending,
        PlanEdit::ReplaceOutput(..) => Call::OutputReplacement,
    }
}

/// The record that the reference's answer comes as; a refusal's is the plan as it went in.
fn by_reference(plan: &Plan, edit: PlanEdit) -> raw::Edit {
    let edited = Editing::REFERENCE.edit(plan, edit);
    raw::Edit {
        number: number(edited.err()),
        plan: edited.unwrap_or(*plan),
    }
}

/// Compares an edit whose answer is to be `due`, or what the reference answers if nothing is, and
/// gives the plan after it: as it was where the edit is refused.
fn compare_edit(
    comparison: &mut Comparison,
    plan: &Plan,
    edit: PlanEdit,
    due: Option<u32>,
) -> Result<Plan, Difference> {
    let expected = by_reference(plan, edit);
    let found = Editing::LIBRARY.edit(plan, edit);
    let due = due.unwrap_or(expected.number);
    if expected.number != due || found != expected {
        return Err(comparison.difference(&[
            ("plan", show_plan(plan)),
            ("edit", format!("{edit:x?}")),
            ("due", show_number(due)),
            ("reference", show_edit(&expected)),
            ("library", show_edit(&found)),
            (
                "first difference",
                first_difference(&expected.plan, &found.plan),
            ),
        ]));
    }
    comparison.count(call_of(edit), due);
    if due == 0 {
        compare_edited(comparison, plan, edit, &found.plan)?;
    }
    Ok(found.plan)
}

/// Holds a plan after an edit to what document 02 says of it.
fn compare_edited(
    comparison: &mut Comparison,
    plan: &Plan,
    edit: PlanEdit,
    edited: &Plan,
) -> Outcome {
    let rules = [
        ("has no plan fault", mukdalis::check(edited).is_ok()),
        ("its uses add up to 2k + v", uses_add_up(edited)),
        ("has K", has_places(edited)),
        ("the rest is as it was", is_edited_alone(plan, edit, edited)),
    ];
    if let Some((rule, _)) = rules.into_iter().find(|&(_, holds)| !holds) {
        return Err(comparison.difference(&[
            ("plan", show_plan(plan)),
            ("edit", format!("{edit:x?}")),
            ("both give", show_plan(edited)),
            ("not so", rule.to_string()),
        ]));
    }
    comparison.count(Call::EditedPlan, 0);
    Ok(())
}

fn uses_add_up(plan: &Plan) -> bool {
    let [u, k, v] = plan.counts();
    let uses = plan.uses[..(u + k) as usize].iter();
    uses.map(|&uses| u32::from(uses)).sum::<u32>() == 2 * k + v
}

/// Whether the stored K is a power of two, not below k, and half of it is.
fn has_places(plan: &Plan) -> bool {
    let (k, places) = (plan.gate_count, plan.gate_places);
    places.is_power_of_two() && places >= k && places / 2 < k
}

/// Whether the edited plan has what the edit brings, and is the plan as it was once its place and the
/// figures of its wires are set back.
fn is_edited_alone(plan: &Plan, edit: PlanEdit, edited: &Plan) -> bool {
    let mut undone = *edited;
    let has_edit = match edit {
        PlanEdit::ReplaceGate(gate, new_gate) => {
            let place = gate as usize - 1;
            undone.gates[place] = plan.gates[place];
            edited.gates[place] == new_gate
        }
        PlanEdit::AppendGate(new_gate) => {
            let place = usize::from(plan.gate_count);
            undone.gates[place] = plan.gates[place];
            undone.gate_count = plan.gate_count;
            edited.gates[place] == new_gate && edited.gate_count == plan.gate_count + 1
        }
        PlanEdit::ReplaceOutput(output, wire) => {
            let place = output as usize - 1;
            undone.outputs[place] = plan.outputs[place];
            edited.outputs[place] == wire
        }
    };
    let wires = usize::from(edited.inputs + edited.gate_count);
    undone.uses[..wires].copy_from_slice(&plan.uses[..wires]);
    undone.gate_places = plan.gate_places;
    has_edit && undone == *plan
}

/// Compares edits that are refused with this fault.
fn compare_refused(
    comparison: &mut Comparison,
    plan: &Plan,
    edits: &[PlanEdit],
    fault: Fault,
) -> Outcome {
    for &edit in edits {
        compare_edit(comparison, plan, edit, Some(fault.number()))?;
    }
    Ok(())
}

#[cfg(test)]
mod tests {
    use mukdalis::Gate;

    use super::*;
    use crate::samples::edits::sound_edits;
    use crate::samples::{accepted_plan, fill_unused, Counts};

    #[test]
    fn a_place_more_or_less_than_the_edits_is_missed() {
        let mut random = Random::new(1);
        for _ in 0..200 {
            let counts = Counts(3, 5, 2);
            let mut plan = accepted_plan(&mut random, counts);
            fill_unused(&mut random, &mut plan);
            for edit in sound_edits(&mut random, &plan) {
                let edited = by_reference(&plan, edit).plan;
                assert!(is_edited_alone(&plan, edit, &edited));
                let changes: [fn(&mut Plan); 6] = [
                    |plan| plan.inputs += 1,
                    |plan| plan.output_count -= 1,
                    |plan| plan.gates[9] = Gate::ZERO,
                    |plan| plan.gates[0].table ^= 16,
                    |plan| plan.outputs[63] ^= 1,
                    |plan| plan.uses[9] ^= 1,
                ];
                for change in changes {
                    let mut other = edited;
                    change(&mut other);
                    assert!(!is_edited_alone(&plan, edit, &other), "{edit:?}");
                }
            }
        }
    }

    #[test]
    fn figures_of_the_counts() {
        let mut random = Random::new(2);
        let mut plan = accepted_plan(&mut random, Counts(3, 5, 2));
        assert!(has_places(&plan) && uses_add_up(&plan));
        for places in [0, 4, 7, 16] {
            plan.gate_places = places;
            assert!(!has_places(&plan));
        }
        plan.uses[0] += 1;
        assert!(!uses_add_up(&plan));
    }
}
