//! The order of a series' checks: of plans, tables and programs that are refused themselves, and of
//! series with every choice of checks that fail at once.

use mukdalis::{Fault, Plan};

use super::compare_series;
use crate::buffer::shorter;
use crate::fabric::damage::{spoil_program, spoil_table};
use crate::memory::{
    faulty_plan, faulty_plans, filled_plan, plans_at_limits, random_record, FAULTY_COUNTS,
};
use crate::random::Random;
use crate::reference;
use crate::samples::fabric::small_table;
use crate::samples::plans::any_plan;
use crate::samples::series::{hold_counts, holds_above, SeriesCase, Step, INTERVALS_ABOVE};
use crate::samples::Counts;
use crate::{first_failing, number, Comparison, Outcome};

pub fn compare(comparison: &mut Comparison, random: &mut Random) -> Outcome {
    two_faults(comparison, random)?;
    other_plans(comparison, random)?;
    comparison.begin("series, every choice of failing checks");
    failing_checks_of_plans(comparison, random)?;
    failing_checks_of_fabrics(comparison, random)
}

/// A sound series of a step, and three that are refused: by 11, by 12 and 11, by 16, 12 and 11.
fn orders(random: &mut Random, step: &Step) -> [SeriesCase; 4] {
    let sound = SeriesCase::of(random, step, 1, 2);
    let short = SeriesCase {
        work_len: 0,
        results_len: 1,
        end_len: 0,
        ..sound.clone()
    };
    let mut bad = short.clone();
    bad.start[0] = 2;
    let above = SeriesCase {
        hold: u32::MAX,
        ..bad.clone()
    };
    [sound, short, bad, above]
}

/// Compares them with another plan, whose faults come first; what an accepted one has to answer is
/// left to the reference.
fn compare_orders(
    comparison: &mut Comparison,
    random: &mut Random,
    plan: &Plan,
    orders: &[SeriesCase; 4],
) -> Outcome {
    for order in orders {
        let case = SeriesCase {
            step: Step::of_plan(plan),
            ..order.clone()
        };
        let due = reference::plan::fault(plan).map(Fault::number);
        compare_series(comparison, random, &case, due)?;
    }
    Ok(())
}

fn two_faults(comparison: &mut Comparison, random: &mut Random) -> Outcome {
    comparison.begin("series, every fault and every two");
    for counts in FAULTY_COUNTS {
        let plan = filled_plan(random, counts);
        let orders = orders(random, &Step::of_plan(&plan));
        for faulty in faulty_plans(&plan) {
            compare_orders(comparison, random, &faulty, &orders)?;
        }
    }
    Ok(())
}

/// Counts at their limits, and random records, seldom accepted.
fn other_plans(comparison: &mut Comparison, random: &mut Random) -> Outcome {
    comparison.begin("series, counts at limits, random records");
    let largest = any_plan(random, Counts::MOST);
    let sound = orders(random, &Step::of_plan(&largest));
    for plan in plans_at_limits(random) {
        compare_orders(comparison, random, &plan, &sound)?;
    }
    for _ in 0..10_000 {
        let plan = random_record(random);
        compare_orders(comparison, random, &plan, &sound)?;
    }
    Ok(())
}

/// A sound series of a step, of any hold count and few intervals.
fn any_series(random: &mut Random, step: &Step) -> SeriesCase {
    let hold = random.choose(&hold_counts(step.counts()));
    let intervals = random.between(0, 5).into();
    SeriesCase::of(random, step, hold, intervals)
}

/// Spoils a series in each way that is asked for, as far as it can be, and gives which checks fail:
/// 16, 12 and 11.
fn spoil_series(
    random: &mut Random,
    case: &mut SeriesCase,
    [hold, rows, room]: [bool; 3],
) -> [(Fault, bool); 3] {
    let above = holds_above(case.step.counts());
    if rows {
        spoil_rows(random, case);
    }
    let is_short = room && spoil_room(random, case);
    if hold {
        match random.one_in(2) {
            true => case.hold = random.choose(&above),
            false => case.intervals = random.choose(&INTERVALS_ABOVE),
        }
    }
    [
        (Fault::Hold, hold),
        (Fault::Contact, rows),
        (Fault::Short, is_short),
    ]
}

/// Gives the fresh entries or the start another length or a bad entry.
fn spoil_rows(random: &mut Random, case: &mut SeriesCase) {
    let row = match random.one_in(2) {
        true => &mut case.fresh,
        false => &mut case.start,
    };
    let len = row.len();
    if len > 0 && random.one_in(2) {
        let place = usize::from(random.between(0, len as u16 - 1));
        row[place] = random.choose(&[2, 128, 255]);
        return;
    }
    let mut lens = vec![0, len.saturating_sub(1), len + 1, len + 256];
    lens.retain(|&other| other != len);
    row.resize(random.choose(&lens), 0);
}

/// Makes one or more of the buffers too short, if any has entries.
fn spoil_room(random: &mut Random, case: &mut SeriesCase) -> bool {
    let lens = [&mut case.work_len, &mut case.results_len, &mut case.end_len];
    let mut lens: Vec<&mut usize> = lens.into_iter().filter(|len| **len > 0).collect();
    random.shuffle(&mut lens);
    let most = lens.len() as u16;
    if most == 0 {
        return false;
    }
    let count = random.between(1, most).into();
    for len in &mut lens[..count] {
        **len = shorter(random, **len);
    }
    true
}

/// Series in which any of the four checks fail, each in some way.
fn failing_checks_of_plans(comparison: &mut Comparison, random: &mut Random) -> Outcome {
    for choice in (0..16).cycle().take(16 * 1_500) {
        let [plan_fails, spoiled @ ..] = [0, 1, 2, 3].map(|check| choice >> check & 1 == 1);
        let counts = Counts::small(random);
        let plan = filled_plan(random, counts);
        let mut case = any_series(random, &Step::of_plan(&plan));
        let checks = spoil_series(random, &mut case, spoiled);
        let mut due = first_failing(&checks);
        if plan_fails {
            let faulty = faulty_plan(random, &plan);
            due = number(reference::plan::fault(&faulty));
            case.step = Step::of_plan(&faulty);
        }
        compare_series(comparison, random, &case, Some(due))?;
    }
    Ok(())
}

/// The same of the five checks of a fabric's series.
fn failing_checks_of_fabrics(comparison: &mut Comparison, random: &mut Random) -> Outcome {
    for choice in (0..32).cycle().take(32 * 1_500) {
        let [table_fails, program_fails, spoiled @ ..] =
            [0, 1, 2, 3, 4].map(|check| choice >> check & 1 == 1);
        let most = if random.one_in(100) { 1_000 } else { 12 };
        let table = small_table(random, most);
        let step = Step::of_table(random, &table.entries());
        let mut case = any_series(random, &step);
        let series_checks = spoil_series(random, &mut case, spoiled);
        if let Step::Fabric {
            table: entries,
            program,
        } = &mut case.step
        {
            if table_fails {
                spoil_table(random, &table, entries);
            }
            if program_fails {
                spoil_program(random, table.bits as usize, program);
            }
        }
        let mut checks = vec![
            (Fault::Fabric, table_fails),
            (Fault::Program, program_fails),
        ];
        checks.extend(series_checks);
        let due = first_failing(&checks);
        compare_series(comparison, random, &case, Some(due))?;
    }
    Ok(())
}
