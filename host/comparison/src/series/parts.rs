//! A series in two parts, of which the second goes on from the state that the first left; and as
//! single calls, between which the caller carries the state. Both by the library alone.

use mukdalis::{evaluate, run_fabric, Gate, Plan, Series};

use super::{compare_series, fabric_of, run_library, Written};
use crate::random::Random;
use crate::samples::fabric::small_table;
use crate::samples::plans::{any_plan, shaped_plan, PlanShape};
use crate::samples::series::{any_steps, hold_counts, SeriesCase, Step, MOST_INTERVALS};
use crate::samples::Counts;
use crate::show::{hex, show_number, show_series};
use crate::{number, Call, Comparison, Outcome};

/// The most gates of a plan whose fabric's series is had in two at every place, too.
const FEW_GATES: u16 = 16;

pub fn compare(comparison: &mut Comparison, random: &mut Random) -> Outcome {
    every_place(comparison, random)?;
    most_intervals(comparison, random)?;
    one_interval(comparison, random)
}

impl Written {
    fn show(&self) -> String {
        format!("{}, end {}", hex(&self.results), hex(&self.end))
    }
}

/// The buffers that a series in two parts is lent, with entries behind them.
#[derive(Clone)]
struct Lent {
    work: Vec<u8>,
    results: Vec<u8>,
    middle: Vec<u8>,
    end: Vec<u8>,
}

/// Entries behind each lent buffer.
const BEHIND: usize = 3;

impl Lent {
    fn new(random: &mut Random, case: &SeriesCase) -> Lent {
        Lent {
            work: random.bytes(case.work_len + BEHIND),
            results: random.bytes(case.results_len + BEHIND),
            middle: random.bytes(case.end_len + BEHIND),
            end: random.bytes(case.end_len + BEHIND),
        }
    }
}

/// Compares a series that wrote `whole` with the same in two, the first of so many intervals. The
/// second starts with the state that the first left, has the fresh entries that follow, and writes
/// its results behind the first one's; it gets the first one's work.
fn compare_parts(
    comparison: &mut Comparison,
    random: &mut Random,
    case: &SeriesCase,
    whole: &Written,
    first: usize,
) -> Outcome {
    let before = Lent::new(random, case);
    let Lent {
        mut work,
        mut results,
        mut middle,
        mut end,
    } = before.clone();
    let [inputs, outputs] = case.step.counts();
    let (hold, rest) = (case.hold as usize, case.intervals as usize - first);
    let (fresh, following) = case.fresh.split_at(first * (inputs - hold));
    let part = |intervals: usize, fresh, start| Series {
        hold: case.hold,
        intervals: intervals as u32,
        fresh,
        start,
    };
    let series = part(first, fresh, &case.start);
    let first_answer = run_library(&case.step, series, &mut work, &mut results, &mut middle);
    let place = first * outputs;
    let is_left = results[place..] == before.results[place..]
        && middle[hold..] == before.middle[hold..]
        && end == before.end;
    let series = part(rest, following, &middle[..hold]);
    let behind = &mut results[place..];
    let second_answer = run_library(&case.step, series, &mut work, behind, &mut end);

    let (entries, wires) = (whole.results.len(), whole.work.len());
    let tails_stay = results[entries..] == before.results[entries..]
        && end[hold..] == before.end[hold..]
        && work[wires..] == before.work[wires..];
    let found = Written {
        results: results[..entries].to_vec(),
        end: end[..hold].to_vec(),
        work: work[..wires].to_vec(),
    };
    let are_done = first_answer == 0 && second_answer == 0;
    if !are_done || !is_left || !tails_stay || found != *whole {
        return Err(comparison.difference(&[
            ("series", show_series(case)),
            ("in two, the first of", first.to_string()),
            ("the library's answers", show_number(first_answer)),
            ("and", show_number(second_answer)),
            ("the whole", whole.show()),
            ("the two", found.show()),
            ("work equal", (found.work == whole.work).to_string()),
            ("other entries left", (is_left && tails_stay).to_string()),
        ]));
    }
    comparison.count(Call::SeriesParts, 0);
    Ok(())
}

/// Compares a series that wrote `whole` with the library's single calls.
pub fn compare_singles(comparison: &mut Comparison, case: &SeriesCase, whole: &Written) -> Outcome {
    let [inputs, outputs] = case.step.counts();
    let hold = case.hold as usize;
    let fresh = inputs - hold;
    let mut found = Written {
        results: Vec::new(),
        end: case.start.clone(),
        work: vec![0xa5; whole.work.len()],
    };
    for t in 0..case.intervals as usize {
        let row = [&case.fresh[fresh * t..][..fresh], &found.end].concat();
        let mut result = vec![0xa5; outputs];
        let answer = match &case.step {
            Step::Plan(plan) => evaluate(plan, &row, &mut result),
            Step::Fabric { table, program } => {
                run_fabric(table, program, &row, &mut found.work, &mut result)
            }
        };
        if answer.is_err() {
            return Err(comparison.difference(&[
                ("series", show_series(case)),
                ("a single call on", hex(&row)),
                ("is answered", show_number(number(answer.err()))),
            ]));
        }
        found.end = result[outputs - hold..].to_vec();
        found.results.extend(result);
    }
    if found != *whole {
        return Err(comparison.difference(&[
            ("series", show_series(case)),
            ("both give", whole.show()),
            ("single calls", found.show()),
            ("work equal", (found.work == whole.work).to_string()),
        ]));
    }
    comparison.count(Call::SingleCalls, 0);
    Ok(())
}

/// Compares a series with the same in two, at every place.
fn compare_every_part(
    comparison: &mut Comparison,
    random: &mut Random,
    case: &SeriesCase,
) -> Outcome {
    let whole = compare_series(comparison, random, case, Some(0))?;
    for first in 0..=case.intervals as usize {
        compare_parts(comparison, random, case, &whole, first)?;
    }
    Ok(())
}

/// Plans, the fabrics of those that have few gates, and tables of few rows.
fn every_place(comparison: &mut Comparison, random: &mut Random) -> Outcome {
    comparison.begin("series in two, at every place");
    for _ in 0..400 {
        let counts = Counts::random(random);
        let plan = any_plan(random, counts);
        let table = small_table(random, 30).entries();
        let mut steps = vec![Step::of_plan(&plan), Step::of_table(random, &table)];
        if plan.gate_count <= FEW_GATES {
            steps.push(fabric_of(&plan));
        }
        for step in steps {
            let hold = random.choose(&hold_counts(step.counts()));
            let intervals = random.between(0, 24).into();
            let case = SeriesCase::of(random, &step, hold, intervals);
            compare_every_part(comparison, random, &case)?;
        }
    }
    Ok(())
}

/// Input 1 XOR input 2: with its output held the state is the parity of all entries so far.
fn parity() -> Plan {
    let mut plan = Plan {
        inputs: 2,
        gate_count: 1,
        output_count: 1,
        ..Plan::ZERO
    };
    plan.gates[0] = Gate {
        first: 1,
        second: 2,
        table: 6,
    };
    plan.outputs[0] = 3;
    plan.settle_figures();
    plan
}

/// The parity and its fabric at every place; the largest plan at some.
fn most_intervals(comparison: &mut Comparison, random: &mut Random) -> Outcome {
    comparison.begin("4,096 intervals in two, at every place");
    for step in [Step::of_plan(&parity()), fabric_of(&parity())] {
        let case = SeriesCase::of(random, &step, 1, MOST_INTERVALS);
        compare_every_part(comparison, random, &case)?;
    }
    let largest = Step::of_plan(&shaped_plan(random, Counts::MOST, PlanShape::Flat));
    let case = SeriesCase::of(random, &largest, 33, MOST_INTERVALS);
    let whole = compare_series(comparison, random, &case, Some(0))?;
    for first in [0, 1, 2_048, MOST_INTERVALS - 1, MOST_INTERVALS] {
        compare_parts(comparison, random, &case, &whole, first)?;
    }
    Ok(())
}

/// With nothing held one interval is evaluation, and the run.
fn one_interval(comparison: &mut Comparison, random: &mut Random) -> Outcome {
    comparison.begin("one interval, nothing held");
    for _ in 0..5_000 {
        let counts = Counts::random(random);
        for step in any_steps(random, counts, 30) {
            let case = SeriesCase::of(random, &step, 0, 1).with_longer_buffers(random);
            let written = compare_series(comparison, random, &case, Some(0))?;
            compare_singles(comparison, &case, &written)?;
        }
    }
    Ok(())
}
