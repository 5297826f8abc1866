//! Plans in memory: accepted ones, every fault and every two of them, damaged figures, unused places
//! filled with anything; input rows good and bad; result buffers short, exact and long.

use mukdalis::Plan;

use super::{Comparison, Outcome};
use crate::random::Random;
use crate::reference::plan::fault;
use crate::samples::edits::damage_figures;
use crate::samples::plans::every_plan;
use crate::samples::{accepted_plan, fill_unused, Counts, LIMIT_COUNTS};

pub fn compare(comparison: &mut Comparison, random: &mut Random) -> Outcome {
    every_table(comparison)?;
    accepted_plans(comparison, random)?;
    rows(comparison, random)?;
    result_lengths(comparison, random)?;
    counts_at_limits(comparison, random)?;
    other_counts(comparison, random)?;
    two_faults(comparison, random)?;
    damaged_figures(comparison, random)?;
    random_records(comparison, random)
}

/// An accepted plan with anything in its unused places.
pub fn filled_plan(random: &mut Random, counts: Counts) -> Plan {
    let mut plan = accepted_plan(random, counts);
    fill_unused(random, &mut plan);
    plan
}

/// The plan's faults, and evaluations that would also be refused 12, 11, both or neither.
fn all_orders(comparison: &mut Comparison, plan: &Plan, row_len: usize) -> Outcome {
    comparison.faults(plan)?;
    let good = vec![1; row_len];
    let bad = vec![2; row_len];
    let result_len = usize::from(plan.output_count).min(2 * Plan::MAX_OUTPUTS);
    for row in [&good, &bad] {
        for len in [result_len, result_len.saturating_sub(1)] {
            comparison.evaluation(plan, row, len)?;
        }
    }
    Ok(())
}

/// One gate of every table with its operands in each order, on every row.
fn every_table(comparison: &mut Comparison) -> Outcome {
    comparison.begin("every table on every row");
    for plan in every_plan(2, 1) {
        for row in [[0, 0], [0, 1], [1, 0], [1, 1]] {
            comparison.evaluation(&plan, &row, 1)?;
        }
    }
    Ok(())
}

/// Accepted plans of all sizes on random rows, unused places zero or not.
fn accepted_plans(comparison: &mut Comparison, random: &mut Random) -> Outcome {
    comparison.begin("accepted plans, unused places filled");
    for _ in 0..20_000 {
        let counts = Counts::random(random);
        let mut plan = accepted_plan(random, counts);
        if random.one_in(2) {
            fill_unused(random, &mut plan);
        }
        comparison.faults(&plan)?;
        for _ in 0..4 {
            let row = random.row(plan.inputs.into());
            let longer = random.choose(&[0, 0, 1, 7]);
            comparison.evaluation(&plan, &row, usize::from(plan.output_count) + longer)?;
        }
    }
    Ok(())
}

/// Rows of other lengths, and a bad entry at each place; with an exact and an empty result.
fn rows(comparison: &mut Comparison, random: &mut Random) -> Outcome {
    comparison.begin("input rows good and bad");
    for i in 0..200 {
        let counts = Counts::random(random);
        let plan = filled_plan(random, counts);
        let (u, v) = (usize::from(plan.inputs), usize::from(plan.output_count));
        let mut lens = vec![0, 1, u - 1, u, u + 1, 2 * u, u + 256];
        if i < 20 {
            lens.push(u + (1 << 16));
        }
        for len in lens {
            let row = random.row(len);
            comparison.evaluation(&plan, &row, v)?;
            comparison.evaluation(&plan, &row, 0)?;
        }
        for place in 0..u {
            for entry in [0, 1, 2, 3, 128, 254, 255] {
                let mut row = random.row(u);
                row[place] = entry;
                comparison.evaluation(&plan, &row, v)?;
                comparison.evaluation(&plan, &row, 0)?;
            }
        }
    }
    Ok(())
}

/// Result buffers of every length up to v, and longer ones; with a good and a bad row.
fn result_lengths(comparison: &mut Comparison, random: &mut Random) -> Outcome {
    comparison.begin("result buffers short, exact and long");
    for i in 0..200 {
        let counts = Counts::random(random);
        let plan = filled_plan(random, counts);
        let v = usize::from(plan.output_count);
        let mut lens: Vec<usize> = (0..=v).collect();
        lens.extend([v + 1, v + 64, v + 256]);
        if i < 20 {
            lens.extend([1 << 16, v + (1 << 16)]);
        }
        let good = random.row(plan.inputs.into());
        let mut bad = good.clone();
        bad[0] = 2;
        for len in lens {
            comparison.evaluation(&plan, &good, len)?;
            comparison.evaluation(&plan, &bad, len)?;
        }
    }
    Ok(())
}

/// Plans of every choice of counts, in range or not, over the places of one of the longest plans; each
/// with the figures of these counts, and with those of the longest plan.
pub fn plans_at_limits(random: &mut Random) -> Vec<Plan> {
    let mut plans = Vec::new();
    for u in LIMIT_COUNTS {
        for k in LIMIT_COUNTS {
            for v in LIMIT_COUNTS {
                let mut plan = Plan {
                    inputs: u,
                    gate_count: k,
                    output_count: v,
                    ..accepted_plan(random, Counts::MOST)
                };
                plans.push(plan);
                plan.settle_figures();
                plans.push(plan);
            }
        }
    }
    plans
}

fn counts_at_limits(comparison: &mut Comparison, random: &mut Random) -> Outcome {
    comparison.begin("counts at their limits, in memory");
    for plan in plans_at_limits(random) {
        all_orders(comparison, &plan, usize::from(plan.inputs).min(80))?;
    }
    Ok(())
}

/// Plans whose counts then change within their range, so that used places become unused or the
/// other way round; their figures are those of the new counts or of the old.
fn other_counts(comparison: &mut Comparison, random: &mut Random) -> Outcome {
    comparison.begin("other counts over the same places");
    for _ in 0..5_000 {
        let counts = Counts::random(random);
        let mut plan = filled_plan(random, counts);
        let Counts(u, k, v) = Counts::random(random);
        match random.between(1, 4) {
            1 => plan.inputs = u,
            2 => plan.gate_count = k,
            3 => plan.output_count = v,
            _ => plan.gate_count = (plan.gate_count + 1).min(Plan::MAX_GATES as u16),
        }
        if random.one_in(2) {
            plan.settle_figures();
        }
        all_orders(comparison, &plan, plan.inputs.into())?;
    }
    Ok(())
}

/// One place of a plan set to another value.
#[derive(Clone, Copy)]
enum Change {
    Inputs(u16),
    GateCount(u16),
    OutputCount(u16),
    First(usize, u16),
    Second(usize, u16),
    Table(usize, u16),
    Output(usize, u16),
    GatePlaces(u16),
    Uses(usize, u16),
}

impl Change {
    fn apply(self, plan: &mut Plan) {
        match self {
            Change::Inputs(u) => plan.inputs = u,
            Change::GateCount(k) => plan.gate_count = k,
            Change::OutputCount(v) => plan.output_count = v,
            Change::First(g, wire) => plan.gates[g].first = wire,
            Change::Second(g, wire) => plan.gates[g].second = wire,
            Change::Table(g, table) => plan.gates[g].table = table,
            Change::Output(j, wire) => plan.outputs[j] = wire,
            Change::GatePlaces(places) => plan.gate_places = places,
            Change::Uses(w, uses) => plan.uses[w] = uses,
        }
    }
}

/// Changes that each give a plan a fault: of the counts, of the first, a middle and the last gate and
/// output, of K, and of the uses of the first, a middle and the last wire. Those of the place after
/// the last one, which is unused, give none.
fn faulty_changes(plan: &Plan) -> Vec<Change> {
    let (u, k, v) = (plan.inputs, plan.gate_count, plan.output_count);
    let Counts(most_inputs, most_gates, most_outputs) = Counts::MOST;
    let mut changes = Vec::new();
    changes.extend([0, most_inputs + 1, u16::MAX].map(Change::Inputs));
    changes.extend([0, most_gates + 1, u16::MAX].map(Change::GateCount));
    changes.extend([0, most_outputs + 1, u16::MAX].map(Change::OutputCount));
    for g in places(k, most_gates) {
        let own = u + g + 1;
        let g = usize::from(g);
        changes.extend([0, own, u16::MAX].map(|wire| Change::First(g, wire)));
        changes.extend([0, own, u16::MAX].map(|wire| Change::Second(g, wire)));
        changes.extend([16, 255, 256, 264, u16::MAX].map(|table| Change::Table(g, table)));
    }
    for j in places(v, most_outputs) {
        let j = usize::from(j);
        changes.extend([0, u, u + k + 1, u16::MAX].map(|wire| Change::Output(j, wire)));
    }
    let near = plan.gate_places;
    changes.extend([0, near.wrapping_sub(1), near + 1, 2 * near].map(Change::GatePlaces));
    for w in places(u + k, most_inputs + most_gates) {
        let w = usize::from(w);
        let uses = plan.uses[w];
        let others = [uses.wrapping_sub(1), uses.wrapping_add(1), uses ^ 1 << 8];
        changes.extend(others.map(|uses| Change::Uses(w, uses)));
    }
    changes
}

/// The first, a middle and the last of the used places, and one after them if there is one.
fn places(used: u16, most: u16) -> Vec<u16> {
    let mut places = vec![0, used / 2, used - 1, used];
    places.dedup();
    places.retain(|&place| place < most);
    places
}

/// The plan with every fault alone and with every two of them; those of unused places are none.
pub fn faulty_plans(plan: &Plan) -> Vec<Plan> {
    let changes = faulty_changes(plan);
    let mut plans = Vec::new();
    for first in &changes {
        for second in &changes {
            let mut faulty = *plan;
            first.apply(&mut faulty);
            second.apply(&mut faulty);
            plans.push(faulty);
        }
    }
    plans
}

/// The plan with one of its faults.
pub fn faulty_plan(random: &mut Random, plan: &Plan) -> Plan {
    let changes = faulty_changes(plan);
    loop {
        let mut faulty = *plan;
        random.choose(&changes).apply(&mut faulty);
        if fault(&faulty).is_some() {
            return faulty;
        }
    }
}

/// Counts of the plans that get every fault and every two.
pub const FAULTY_COUNTS: [Counts; 6] = [
    Counts::LEAST,
    Counts::MOST,
    Counts(1, 2, 2),
    Counts(3, 5, 4),
    Counts(64, 3, 64),
    Counts(5, 256, 1),
];

fn two_faults(comparison: &mut Comparison, random: &mut Random) -> Outcome {
    comparison.begin("every fault, and every two");
    for counts in FAULTY_COUNTS {
        let plan = filled_plan(random, counts);
        for faulty in faulty_plans(&plan) {
            all_orders(comparison, &faulty, plan.inputs.into())?;
        }
    }
    Ok(())
}

/// Figures that are damaged in any way, of plans that have no other fault.
fn damaged_figures(comparison: &mut Comparison, random: &mut Random) -> Outcome {
    comparison.begin("damaged figures");
    for _ in 0..5_000 {
        let counts = Counts::random(random);
        let mut plan = filled_plan(random, counts);
        damage_figures(random, &mut plan);
        all_orders(comparison, &plan, plan.inputs.into())?;
    }
    Ok(())
}

/// A record of random places, small or any, which is seldom accepted; its figures are counted or not.
pub fn random_record(random: &mut Random) -> Plan {
    let mut plan = Plan::ZERO;
    let most = random.choose(&[2, 4, 16, u16::MAX]);
    plan.inputs = random.between(0, most.min(70));
    plan.gate_count = random.between(0, most.min(270));
    plan.output_count = random.between(0, most.min(70));
    for gate in &mut plan.gates {
        gate.first = random.between(0, most);
        gate.second = random.between(0, most);
        gate.table = random.between(0, most.min(17));
    }
    for output in &mut plan.outputs {
        *output = random.between(0, most);
    }
    plan.gate_places = random.between(0, most.min(270));
    for uses in &mut plan.uses {
        *uses = random.between(0, most.min(8));
    }
    if random.one_in(2) {
        plan.settle_figures();
    }
    plan
}

fn random_records(comparison: &mut Comparison, random: &mut Random) -> Outcome {
    comparison.begin("random records");
    for _ in 0..20_000 {
        let plan = random_record(random);
        all_orders(comparison, &plan, plan.inputs.into())?;
    }
    Ok(())
}
