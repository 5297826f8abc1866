//! Series that are done: every one of the smallest plans, random ones of every hold count, in the
//! fabrics of their counts, and of the most intervals.

use mukdalis::Fault;

use super::parts::compare_singles;
use super::{compare_in_fabric, compare_series, fabric_of};
use crate::random::Random;
use crate::samples::blocks::MOST_WIRES;
use crate::samples::fabric::{gates_of, Shape, Table, UNIVERSAL_SIZES};
use crate::samples::plans::{every_plan, shaped_plan, PlanShape};
use crate::samples::series::{hold_counts, SeriesCase, Step, MOST_INTERVALS};
use crate::samples::{fill_unused, Counts};
use crate::{Comparison, Outcome};

/// So many counts for each K; for each of them a plan of every shape.
const COUNTS_PER_SIZE: [u32; UNIVERSAL_SIZES.len()] = [100, 100, 100, 100, 80, 60, 40, 15, 10];

pub fn compare(comparison: &mut Comparison, random: &mut Random) -> Outcome {
    every_small_series(comparison, random)?;
    plans_of_every_shape(comparison, random)?;
    tables_of_every_shape(comparison, random)?;
    in_fabrics(comparison, random)?;
    most_wires(comparison, random)?;
    most_intervals(comparison, random)
}

/// Every plan of one input with up to two gates, and of two inputs with one, and one output: every
/// series of up to three intervals, by the plan and by its fabric.
fn every_small_series(comparison: &mut Comparison, random: &mut Random) -> Outcome {
    comparison.begin("every series of every small plan");
    for (u, k) in [(1, 1), (2, 1), (1, 2)] {
        for plan in every_plan(u, k) {
            let (step, fabric) = (Step::of_plan(&plan), fabric_of(&plan));
            for hold in 0..=1 {
                for intervals in 0..=3 {
                    let any = SeriesCase::of(random, &step, hold, intervals);
                    for case in every_content(&any) {
                        compare_in_fabric(comparison, random, &case, &fabric)?;
                    }
                }
            }
        }
    }
    Ok(())
}

/// The series with all fresh entries and start states that there are.
fn every_content(case: &SeriesCase) -> impl Iterator<Item = SeriesCase> + '_ {
    let (fresh, start) = (case.fresh.len(), case.start.len());
    (0..1 << (fresh + start)).map(move |bits: u32| {
        let entry = |place: usize| (bits >> place & 1) as u8;
        SeriesCase {
            fresh: (0..fresh).map(entry).collect(),
            start: (fresh..fresh + start).map(entry).collect(),
            ..case.clone()
        }
    })
}

/// Compares series of up to so many intervals, of every hold count, also with single calls.
fn every_hold(comparison: &mut Comparison, random: &mut Random, step: &Step, most: u16) -> Outcome {
    for hold in hold_counts(step.counts()) {
        let any = random.between(2, most);
        let intervals = random.choose(&[0, 1, 2, any, any, any]).into();
        let case = SeriesCase::of(random, step, hold, intervals).with_longer_buffers(random);
        let written = compare_series(comparison, random, &case, Some(0))?;
        compare_singles(comparison, &case, &written)?;
    }
    Ok(())
}

fn plans_of_every_shape(comparison: &mut Comparison, random: &mut Random) -> Outcome {
    comparison.begin("plans of every shape, series");
    for _ in 0..1_500 {
        let counts = Counts::random(random);
        for shape in PlanShape::ALL {
            let mut plan = shaped_plan(random, counts, shape);
            if random.one_in(2) {
                fill_unused(random, &mut plan);
            }
            every_hold(comparison, random, &Step::of_plan(&plan), 30)?;
        }
    }
    Ok(())
}

/// Tables of no rows or few, and of more, with random programs.
fn tables_of_every_shape(comparison: &mut Comparison, random: &mut Random) -> Outcome {
    comparison.begin("tables of every shape, series");
    for shape in Shape::ALL {
        let few = (0..=12).cycle().take(13 * 60);
        for rows in few.chain([100, 300, 1_000, 3_000]) {
            let table = Table::of_rows(random, shape, rows).entries();
            let step = Step::of_table(random, &table);
            every_hold(comparison, random, &step, 20)?;
        }
    }
    Ok(())
}

/// Plans of every K, by the plan and by its fabric.
fn in_fabrics(comparison: &mut Comparison, random: &mut Random) -> Outcome {
    comparison.begin("plans' series in their fabrics");
    for (size, times) in UNIVERSAL_SIZES.into_iter().zip(COUNTS_PER_SIZE) {
        for _ in 0..times {
            let Counts(u, _, v) = Counts::random(random);
            let counts = Counts(u, gates_of(random, size) as u16, v);
            for shape in PlanShape::ALL {
                let plan = shaped_plan(random, counts, shape);
                let (step, fabric) = (Step::of_plan(&plan), fabric_of(&plan));
                let hold = random.choose(&hold_counts(step.counts()));
                let intervals = random.between(0, 8).into();
                let case = SeriesCase::of(random, &step, hold, intervals);
                compare_in_fabric(comparison, random, &case, &fabric)?;
            }
        }
    }
    Ok(())
}

/// Tables of 65,536 wires, and of one more.
fn most_wires(comparison: &mut Comparison, random: &mut Random) -> Outcome {
    comparison.begin("tables of up to 65,536 wires, series");
    for shape in Shape::ALL {
        for (wires, due) in [(MOST_WIRES, 0), (MOST_WIRES + 1, Fault::Fabric.number())] {
            let table = Table::of_wires(random, shape, wires, true).entries();
            let step = Step::of_table(random, &table);
            let hold = random.choose(&hold_counts(step.counts()));
            let case = SeriesCase::of(random, &step, hold, 3);
            compare_series(comparison, random, &case, Some(due))?;
        }
    }
    Ok(())
}

/// Counts of the plans whose series have the most intervals, up to the largest.
const LONG_COUNTS: [Counts; 7] = [
    Counts::LEAST,
    Counts(2, 3, 2),
    Counts(1, 5, 9),
    Counts(9, 5, 1),
    Counts(64, 1, 64),
    Counts(25, 50, 33),
    Counts::MOST,
];

/// The most gates of a plan whose fabric has series of the most intervals of every hold count.
const FEW_GATES: u16 = 8;

/// One interval less than the most, the most, and one more, which is refused: by plans, and by the
/// fabrics of small ones. The largest fabric has one such series.
fn most_intervals(comparison: &mut Comparison, random: &mut Random) -> Outcome {
    comparison.begin("4,096 intervals, and more");
    for counts in LONG_COUNTS {
        for shape in PlanShape::ALL {
            let plan = shaped_plan(random, counts, shape);
            let mut steps = vec![Step::of_plan(&plan)];
            if plan.gate_count <= FEW_GATES {
                steps.push(fabric_of(&plan));
            }
            for step in steps {
                for hold in hold_counts(step.counts()) {
                    long_series(comparison, random, &step, hold)?;
                }
            }
        }
    }
    let largest = shaped_plan(random, Counts::MOST, PlanShape::Flat);
    let case = SeriesCase::of(random, &Step::of_plan(&largest), 33, MOST_INTERVALS);
    compare_in_fabric(comparison, random, &case, &fabric_of(&largest))
}

fn long_series(
    comparison: &mut Comparison,
    random: &mut Random,
    step: &Step,
    hold: usize,
) -> Outcome {
    let above = Fault::Hold.number();
    for (intervals, due) in [
        (MOST_INTERVALS - 1, 0),
        (MOST_INTERVALS, 0),
        (MOST_INTERVALS + 1, above),
    ] {
        let case = SeriesCase::of(random, step, hold, intervals);
        compare_series(comparison, random, &case, Some(due))?;
    }
    Ok(())
}

#[cfg(test)]
mod tests {
    use super::*;

    #[test]
    fn every_content_comes_once() {
        let mut random = Random::new(1);
        let step = Step::of_table(&mut random, &[2, 1, 0, 0]);
        let any = SeriesCase::of(&mut random, &step, 1, 3);
        let contents = every_content(&any).map(|case| [case.fresh, case.start].concat());
        let mut contents: Vec<Vec<u8>> = contents.collect();
        contents.sort_unstable();
        contents.dedup();
        assert_eq!(contents.len(), 16);
        assert!(contents.iter().all(|content| content.len() == 4));
    }
}
