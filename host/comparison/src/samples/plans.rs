//! Random accepted plans of several shapes, and every plan of small counts.

use mukdalis::{Gate, Plan};

use super::{accepted_plan, Counts};
use crate::random::Random;

/// How a plan's gates take their operands.
#[derive(Clone, Copy, Debug)]
pub enum PlanShape {
    /// From any wire, often from the one before.
    Any,
    /// From the gates just before: deep. The outputs are the last gates.
    Chain,
    /// From one wire for all later gates: a wide fan-out. The outputs are one gate.
    Fan,
    /// From inputs alone, many of them the last one.
    Flat,
    /// From gates far before.
    Far,
}

impl PlanShape {
    pub const ALL: [PlanShape; 5] = [
        PlanShape::Any,
        PlanShape::Chain,
        PlanShape::Fan,
        PlanShape::Flat,
        PlanShape::Far,
    ];
}

/// A random accepted plan of this shape, with any tables.
pub fn shaped_plan(random: &mut Random, counts: Counts, shape: PlanShape) -> Plan {
    let Counts(u, k, v) = counts;
    let mut plan = accepted_plan(random, counts);
    if let PlanShape::Any = shape {
        return plan;
    }
    let hub = random.between(1, u + k / 2);
    for (own, gate) in (u + 1..=u + k).zip(&mut plan.gates) {
        let mut operand = || match shape {
            PlanShape::Chain => random.between((own - 1).saturating_sub(2).max(1), own - 1),
            PlanShape::Fan if own > hub => hub,
            PlanShape::Flat => {
                let any = random.between(1, u);
                random.choose(&[any, 1, u])
            }
            PlanShape::Far if own > u + 1 => random.between(u + 1, u + (own - u).div_ceil(2)),
            _ => random.between(1, own - 1),
        };
        let (first, second) = (operand(), operand());
        *gate = Gate {
            first,
            second,
            table: random.between(0, 15),
        };
    }
    let lowest = match shape {
        PlanShape::Chain => (u + k).saturating_sub(2).max(u + 1),
        _ => u + 1,
    };
    let same = random.between(u + 1, u + k);
    for output in &mut plan.outputs[..usize::from(v)] {
        *output = match shape {
            PlanShape::Fan => same,
            _ => random.between(lowest, u + k),
        };
    }
    plan.settle_figures();
    plan
}

/// The same of any shape.
pub fn any_plan(random: &mut Random, counts: Counts) -> Plan {
    let shape = random.choose(&PlanShape::ALL);
    shaped_plan(random, counts, shape)
}

/// Every accepted plan of these counts and one output.
pub fn every_plan(u: u16, k: u16) -> Vec<Plan> {
    let empty = Plan {
        inputs: u,
        gate_count: k,
        output_count: 1,
        ..Plan::ZERO
    };
    let mut plans = vec![empty];
    for g in 0..k {
        let operands = 1..u + g + 1;
        let mut gates = Vec::new();
        for first in operands.clone() {
            for second in operands.clone() {
                gates.extend((0..16).map(|table| Gate {
                    first,
                    second,
                    table,
                }));
            }
        }
        let with_gate = |plan: Plan| {
            gates.iter().map(move |&gate| {
                let mut longer = plan;
                longer.gates[usize::from(g)] = gate;
                longer
            })
        };
        plans = plans.into_iter().flat_map(with_gate).collect();
    }
    let with_output = |mut plan: Plan| {
        (u + 1..=u + k).map(move |output| {
            plan.outputs[0] = output;
            plan.settle_figures();
            plan
        })
    };
    plans.into_iter().flat_map(with_output).collect()
}

#[cfg(test)]
mod tests {
    use super::*;
    use crate::reference::plan::fault;

    #[test]
    fn plans_of_every_shape_are_accepted() {
        let mut random = Random::new(1);
        for shape in PlanShape::ALL {
            for _ in 0..1_000 {
                let counts = Counts::random(&mut random);
                let plan = shaped_plan(&mut random, counts, shape);
                assert_eq!(fault(&plan), None, "{shape:?}");
            }
        }
    }

    /// 16 tables for each choice of operands, and each gate as the output.
    #[test]
    fn every_small_plan_comes_once() {
        for (u, k, count) in [
            (1, 1, 16),
            (2, 1, 4 * 16),
            (3, 1, 9 * 16),
            (1, 2, 16 * 4 * 16 * 2),
        ] {
            let plans = every_plan(u, k);
            assert_eq!(plans.len(), count);
            for (i, plan) in plans.iter().enumerate() {
                assert_eq!(
                    (fault(plan), plan.counts()),
                    (None, [u, k, 1].map(u32::from))
                );
                assert!(!plans[..i].contains(plan));
            }
        }
    }
}
