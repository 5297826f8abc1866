//! The order of an edit's checks: of plans that are refused themselves, their figures among them, and
//! of edits with every choice of checks that fail at once.

use mukdalis::{Fault, Gate, Plan};

use super::{compare_edit, compare_refused};
use crate::memory::{
    faulty_plan, faulty_plans, filled_plan, plans_at_limits, random_record, FAULTY_COUNTS,
};
use crate::random::Random;
use crate::reference;
use crate::samples::edits::{any_edit, damage_figures, sound_edits, PlanEdit};
use crate::samples::Counts;
use crate::{first_failing, number, Comparison, Outcome};

pub fn compare(comparison: &mut Comparison, random: &mut Random) -> Outcome {
    damaged_figures(comparison, random)?;
    two_faults(comparison, random)?;
    other_plans(comparison, random)?;
    failing_checks(comparison, random)
}

/// Figures damaged in any way, with edits that are sound and with spoiled ones.
fn damaged_figures(comparison: &mut Comparison, random: &mut Random) -> Outcome {
    comparison.begin("edits of plans with damaged figures");
    for _ in 0..10_000 {
        let counts = Counts::random(random);
        let plan = filled_plan(random, counts);
        let mut damaged = plan;
        damage_figures(random, &mut damaged);
        let edits = sound_edits(random, &plan);
        compare_refused(comparison, &damaged, &edits, Fault::Tally)?;
        let spoiled = edits.map(|edit| edit.spoiled(random, &plan, [true; 3]).0);
        compare_refused(comparison, &damaged, &spoiled, Fault::Tally)?;
    }
    Ok(())
}

fn two_faults(comparison: &mut Comparison, random: &mut Random) -> Outcome {
    comparison.begin("edits, every fault and every two");
    for counts in FAULTY_COUNTS {
        let plan = filled_plan(random, counts);
        for faulty in faulty_plans(&plan) {
            for edit in sound_edits(random, &plan) {
                compare_edit(comparison, &faulty, edit, None)?;
            }
        }
    }
    Ok(())
}

/// Counts at their limits, and random records, seldom accepted: edits of the first place.
fn other_plans(comparison: &mut Comparison, random: &mut Random) -> Outcome {
    comparison.begin("edits, counts at limits, random records");
    for plan in plans_at_limits(random) {
        first_edits(comparison, &plan)?;
    }
    for _ in 0..20_000 {
        let plan = random_record(random);
        first_edits(comparison, &plan)?;
    }
    Ok(())
}

fn first_edits(comparison: &mut Comparison, plan: &Plan) -> Outcome {
    let on_input = Gate {
        first: 1,
        second: 1,
        table: 9,
    };
    for edit in [
        PlanEdit::ReplaceGate(1, on_input),
        PlanEdit::AppendGate(on_input),
        PlanEdit::ReplaceOutput(1, plan.inputs.wrapping_add(1)),
    ] {
        compare_edit(comparison, plan, edit, None)?;
    }
    Ok(())
}

/// Edits in which any of the checks fail, each in some way: a plan fault, the figures, and those of the
/// edit itself. Every third plan has no room for a gate.
fn failing_checks(comparison: &mut Comparison, random: &mut Random) -> Outcome {
    comparison.begin("edits, every choice of failing checks");
    for choice in (0..32).cycle().take(32 * 600) {
        let [plan_fails, figures_fail, spoiled @ ..] =
            [0, 1, 2, 3, 4].map(|check| choice >> check & 1 == 1);
        let Counts(u, mut k, v) = Counts::small(random);
        if random.one_in(3) {
            k = Plan::MAX_GATES as u16;
        }
        let plan = filled_plan(random, Counts(u, k, v));
        let mut given = plan;
        if figures_fail {
            damage_figures(random, &mut given);
        }
        if plan_fails {
            given = faulty_plan(random, &given);
        }
        let plan_fault = number(reference::plan::fault(&given));
        for edit in sound_edits(random, &plan) {
            let (edit, checks) = edit.spoiled(random, &plan, spoiled);
            let due = match plan_fault {
                0 => first_failing(&checks),
                fault => fault,
            };
            compare_edit(comparison, &given, edit, Some(due))?;
        }
        let edit = any_edit(random, &plan);
        compare_edit(comparison, &given, edit, None)?;
    }
    Ok(())
}
