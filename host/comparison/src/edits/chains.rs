//! Chains of edits: each edits what the one before gave. Between them unused places get other values,
//! figures are damaged, and the plan is evaluated, saved, read back and programmed.

use mukdalis::{Fault, Plan};

use super::{compare_edit, compare_refused};
use crate::memory::{faulty_plan, filled_plan};
use crate::program::{compare_program, stated_length};
use crate::random::Random;
use crate::reference;
use crate::samples::edits::{any_edit, damage_figures, sound_edits, PlanEdit};
use crate::samples::plans::{shaped_plan, PlanShape};
use crate::samples::{fill_unused, Counts, LONGEST_FILE};
use crate::saving::compare_saving;
use crate::{number, Comparison, Outcome};

/// Chains of plans of each shape, and the edits of each chain.
const CHAINS: u32 = 16;
const EDITS: u32 = 4_000;

/// Chains in which a plan grows to the most gates.
const GROWING: u32 = 40;

pub fn compare(comparison: &mut Comparison, random: &mut Random) -> Outcome {
    chains(comparison, random)?;
    growing_plans(comparison, random)
}

/// Chains on plans of any counts, in which gates are seldom appended.
fn chains(comparison: &mut Comparison, random: &mut Random) -> Outcome {
    comparison.begin("chains of edits");
    for _ in 0..CHAINS {
        for shape in PlanShape::ALL {
            let counts = Counts::random(random);
            let mut plan = shaped_plan(random, counts, shape);
            for _ in 0..EDITS {
                let mut edit = any_edit(random, &plan);
                while matches!(edit, PlanEdit::AppendGate(_)) && !random.one_in(20) {
                    edit = any_edit(random, &plan);
                }
                compare_link(comparison, random, &mut plan, edit)?;
            }
        }
    }
    Ok(())
}

/// Plans of one gate to which gates are appended, with other edits between them, up to the most; then
/// none can be.
fn growing_plans(comparison: &mut Comparison, random: &mut Random) -> Outcome {
    comparison.begin("plans that grow to 256 gates");
    for _ in 0..GROWING {
        let Counts(u, _, v) = Counts::random(random);
        let mut plan = filled_plan(random, Counts(u, 1, v));
        while usize::from(plan.gate_count) < Plan::MAX_GATES {
            let [replaced, appended, output] = sound_edits(random, &plan);
            let any = any_edit(random, &plan);
            let edit = random.choose(&[appended, appended, replaced, output, any]);
            compare_link(comparison, random, &mut plan, edit)?;
        }
        for _ in 0..20 {
            let [_, appended, _] = sound_edits(random, &plan);
            let spoiled = appended.spoiled(random, &plan, [false, true, true]).0;
            compare_refused(comparison, &plan, &[appended, spoiled], Fault::Gates)?;
            let edit = any_edit(random, &plan);
            compare_link(comparison, random, &mut plan, edit)?;
        }
    }
    Ok(())
}

/// Compares an edit, and now and then what else can be done with the plan before and after it.
fn compare_link(
    comparison: &mut Comparison,
    random: &mut Random,
    plan: &mut Plan,
    edit: PlanEdit,
) -> Outcome {
    if random.one_in(4) {
        fill_unused(random, plan);
    }
    if random.one_in(10) {
        compare_damaged(comparison, random, plan, edit)?;
    }
    *plan = compare_edit(comparison, plan, edit, None)?;
    if random.one_in(25) {
        compare_uses(comparison, random, plan)?;
    }
    Ok(())
}

/// Compares an edit of the plan with damaged figures, alone and with another fault.
fn compare_damaged(
    comparison: &mut Comparison,
    random: &mut Random,
    plan: &Plan,
    edit: PlanEdit,
) -> Outcome {
    let mut damaged = *plan;
    damage_figures(random, &mut damaged);
    compare_refused(comparison, &damaged, &[edit], Fault::Tally)?;
    let faulty = faulty_plan(random, &damaged);
    let due = number(reference::plan::fault(&faulty));
    compare_edit(comparison, &faulty, edit, Some(due))?;
    Ok(())
}

/// Compares what an edited plan gives on some rows, its file, which is read as the plan, and seldom its
/// program.
fn compare_uses(comparison: &mut Comparison, random: &mut Random, plan: &Plan) -> Outcome {
    for _ in 0..2 {
        let row = random.row(plan.inputs.into());
        comparison.evaluation(plan, &row, plan.output_count.into())?;
    }
    compare_saving(comparison, random, plan, LONGEST_FILE)?;
    if random.one_in(10) {
        compare_program(comparison, random, plan, stated_length(plan))?;
    }
    Ok(())
}
