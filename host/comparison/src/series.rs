//! Series of intervals, by plans and by fabric tables: of every hold count and up to the most
//! intervals, refused in every order. What is done is also held to what document 02 says of it: a
//! series in two parts, single calls that carry the state, and the plan's series by its fabric.

mod done;
mod orders;
mod parts;
mod refusals;

use mukdalis::{evaluate_series, run_series, Plan, Series};

use super::buffer::Buffer;
use super::show::{hex, show_number, show_series};
use super::{number, Call, Comparison, Difference, Outcome};
use crate::random::Random;
use crate::reference;
use crate::samples::series::{SeriesCase, Step};

/// The least numbers of series and of parts that are compared.
const LEAST_SERIES: u64 = 100_000;
const LEAST_PARTS: u64 = 10_000;

/// Kinds that have to be among the series of plans and of fabrics.
const DUE_KINDS: [&str; 8] = [
    "every series of every small plan",
    "plans' series in their fabrics",
    "4,096 intervals, and more",
    "series, hold counts above the most",
    "series, fresh and start of other lengths",
    "series, entries that are not 0 or 1",
    "series, buffers short to long",
    "series, every choice of failing checks",
];

/// Kinds that have to be among the parts.
const DUE_PARTS: [&str; 2] = [
    "series in two, at every place",
    "4,096 intervals in two, at every place",
];

pub fn compare(comparison: &mut Comparison, random: &mut Random) -> Outcome {
    done::compare(comparison, random)?;
    parts::compare(comparison, random)?;
    refusals::compare(comparison, random)?;
    orders::compare(comparison, random)?;
    comparison.check_cases(Call::PlanSeries, LEAST_SERIES, &DUE_KINDS)?;
    comparison.check_cases(Call::FabricSeries, LEAST_SERIES, &DUE_KINDS)?;
    comparison.check_cases(Call::SeriesParts, LEAST_PARTS, &DUE_PARTS)
}

/// The entries that a series wrote.
#[derive(PartialEq)]
struct Written {
    results: Vec<u8>,
    end: Vec<u8>,
    work: Vec<u8>,
}

/// The number of the library's series.
fn run_library(
    step: &Step,
    series: Series,
    work: &mut [u8],
    results: &mut [u8],
    end: &mut [u8],
) -> u32 {
    let answer = match step {
        Step::Plan(plan) => evaluate_series(plan, series, results, end),
        Step::Fabric { table, program } => run_series(table, program, series, work, results, end),
    };
    number(answer.err())
}

/// The number of the reference's.
fn run_reference(
    step: &Step,
    series: Series,
    work: &mut [u8],
    results: &mut [u8],
    end: &mut [u8],
) -> u32 {
    let answer = match step {
        Step::Plan(plan) => reference::series::evaluate(plan, series, results, end),
        Step::Fabric { table, program } => {
            reference::series::run(table, program, series, work, results, end)
        }
    };
    number(answer.err())
}

/// The call that makes a case's series.
fn call_of(step: &Step) -> Call {
    match step {
        Step::Plan(_) => Call::PlanSeries,
        Step::Fabric { .. } => Call::FabricSeries,
    }
}

/// Compares a series whose answer is to be `due`, or what the reference answers if nothing is, and
/// gives what the library wrote.
fn compare_series(
    comparison: &mut Comparison,
    random: &mut Random,
    case: &SeriesCase,
    due: Option<u32>,
) -> Result<Written, Difference> {
    let (step, series) = (&case.step, case.series());
    let mut work = Buffer::new(case.work_len, || random.byte());
    let mut results = Buffer::new(case.results_len, || random.byte());
    let mut end = Buffer::new(case.end_len, || random.byte());
    let expected = run_reference(
        step,
        series,
        work.expected(),
        results.expected(),
        end.expected(),
    );
    let found = run_library(step, series, work.found(), results.found(), end.found());

    let due = due.unwrap_or(expected);
    let [wires, entries, held] = written_lengths(case, due);
    let answers_agree = expected == due && found == due;
    if !answers_agree || !work.agrees(wires) || !results.agrees(entries) || !end.agrees(held) {
        return Err(comparison.difference(&[
            ("series", show_series(case)),
            ("due", show_number(due)),
            ("reference", show_number(expected)),
            ("library", show_number(found)),
            ("work", work.show(wires)),
            ("results", results.show(entries)),
            ("end", end.show(held)),
        ]));
    }
    comparison.count(call_of(step), due);
    Ok(Written {
        results: results.into_written(entries),
        end: end.into_written(held),
        work: work.into_written(wires),
    })
}

/// Entries of work, results and end that are written: none on a refusal, and no work without an
/// interval.
fn written_lengths(case: &SeriesCase, due: u32) -> [usize; 3] {
    if due != 0 {
        return [0; 3];
    }
    let [_, outputs] = case.step.counts();
    let (intervals, hold) = (case.intervals as usize, case.hold as usize);
    let wires = if intervals == 0 { 0 } else { case.step.wires() };
    [wires, intervals * outputs, hold]
}

/// The library's fabric of a plan's counts with the plan's program.
fn fabric_of(plan: &Plan) -> Step {
    let [u, k, v] = plan.counts();
    let size = mukdalis::count_fabric(u, k, v).expect("the plan is accepted");
    let (mut table, mut program) = (vec![0; size.table_len(v)], vec![0; size.program_len()]);
    mukdalis::write_fabric(u, k, v, &mut table).expect("the plan is accepted");
    mukdalis::program_plan(plan, &mut program).expect("the plan is accepted");
    Step::Fabric { table, program }
}

/// Compares a plan's series with that of its fabric, of which both are compared with the reference.
fn compare_in_fabric(
    comparison: &mut Comparison,
    random: &mut Random,
    case: &SeriesCase,
    fabric: &Step,
) -> Outcome {
    let by_plan = compare_series(comparison, random, case, Some(0))?;
    let in_fabric = SeriesCase {
        step: fabric.clone(),
        work_len: fabric.wires(),
        ..case.clone()
    };
    let by_fabric = compare_series(comparison, random, &in_fabric, Some(0))?;
    if by_fabric.results != by_plan.results || by_fabric.end != by_plan.end {
        return Err(comparison.difference(&[
            ("series", show_series(case)),
            ("the plan's results", hex(&by_plan.results)),
            ("its end", hex(&by_plan.end)),
            ("the fabric's results", hex(&by_fabric.results)),
            ("its end", hex(&by_fabric.end)),
        ]));
    }
    comparison.count(Call::SeriesInFabric, 0);
    Ok(())
}
