//! The fabric of three counts and the run of any table: counting, rows by kind, writing, running.

mod counts;
pub mod damage;
mod runs;
mod tables;

use std::fmt::Debug;

use mukdalis::{raw, Fault, Kinds};

use super::buffer::{Both, Buffer};
use super::show::{show_counts, show_number, show_run};
use super::{number, Call, Comparison, Difference, Outcome, CALLS};
use crate::random::Random;
use crate::reference;
use crate::samples::fabric::{sheet_of, table_len, wires, Run};
use crate::samples::{Counts, LIMIT_COUNTS};

pub fn compare(comparison: &mut Comparison, random: &mut Random) -> Outcome {
    counts::compare(comparison)?;
    tables::compare(comparison, random)?;
    runs::compare(comparison, random)?;
    damage::compare(comparison, random)
}

/// Counts at and beside their limits, and some whose low 8 or 16 bits would be in range.
fn limit_counts() -> Vec<u32> {
    let mut counts = LIMIT_COUNTS.map(u32::from).to_vec();
    counts.extend([1, 64, 256].map(|count| 1 << 16 | count));
    counts.extend([1 << 16, 1 << 31, u32::MAX]);
    counts
}

/// The checks 2, 3 and 4.
fn count_checks([u, k, v]: [u32; 3]) -> [(Fault, bool); 3] {
    let Counts(most_inputs, most_gates, most_outputs) = Counts::MOST;
    let is_bad = |count: u32, most: u16| !(1..=most.into()).contains(&count);
    [
        (Fault::Inputs, is_bad(u, most_inputs)),
        (Fault::Gates, is_bad(k, most_gates)),
        (Fault::Outputs, is_bad(v, most_outputs)),
    ]
}

/// Compares a counting whose answer is to be `due`.
fn compare_counting(comparison: &mut Comparison, counts: [u32; 3], due: u32) -> Outcome {
    let [u, k, v] = counts;
    let answer = reference::fabric::count(u, k, v);
    let expected = counted(answer.map(|size| [size.rows, size.wires, size.bits]), 0);
    let found = raw::count(u, k, v);
    let found = (found.number, [found.rows, found.wires, found.bits]);
    compare_counted(comparison, Call::Counting, counts, due, expected, found)
}

/// Compares a counting by kind whose answer is to be `due`.
fn compare_sheet(comparison: &mut Comparison, counts: [u32; 3], due: u32) -> Outcome {
    let [u, k, v] = counts;
    let answer = reference::fabric::count_kinds(u, k, v);
    let parts = answer.map(|sheet| [sheet.input, sheet.block, sheet.output, sheet.sum]);
    let expected = counted(parts, NO_ROWS);
    let found = raw::count_kinds(u, k, v);
    let parts = [found.input, found.block, found.output, found.sum];
    let found = (found.number, parts);
    compare_counted(comparison, Call::Sheet, counts, due, expected, found)
}

const NO_ROWS: Kinds = Kinds {
    x: 0,
    y: 0,
    g: 0,
    total: 0,
};

/// A call's number with its figures, those of a refusal all zero.
fn counted<T: Copy, const N: usize>(answer: Result<[T; N], Fault>, zero: T) -> (u32, [T; N]) {
    match answer {
        Ok(figures) => (0, figures),
        Err(fault) => (fault.number(), [zero; N]),
    }
}

/// Compares a call's number, which is to be `due`, and its figures.
fn compare_counted<T: PartialEq + Debug>(
    comparison: &mut Comparison,
    call: Call,
    counts: [u32; 3],
    due: u32,
    expected: (u32, T),
    found: (u32, T),
) -> Outcome {
    if found != expected || found.0 != due {
        return Err(comparison.difference(&[
            (CALLS[call as usize].0, show_counts(counts)),
            ("due", show_number(due)),
            ("reference", format!("{expected:?}")),
            ("library", format!("{found:?}")),
        ]));
    }
    comparison.count(call, due);
    Ok(())
}

/// Compares the library's sheet with the rows that stand in the table that it wrote.
fn compare_kinds(comparison: &mut Comparison, counts: [u32; 3], table: &[u16]) -> Outcome {
    let [u, k, v] = counts;
    let standing = sheet_of(table, k);
    let sheet = mukdalis::count_kinds(u, k, v);
    if sheet != Ok(standing) {
        return Err(comparison.difference(&[
            ("fabric", show_counts(counts)),
            ("rows in the table", format!("{standing:?}")),
            ("sheet", format!("{sheet:?}")),
        ]));
    }
    comparison.count(Call::KindsInTable, 0);
    Ok(())
}

/// Compares the writing of a fabric whose answer is to be `due`, and gives the table that each
/// wrote.
pub fn compare_table(
    comparison: &mut Comparison,
    random: &mut Random,
    counts: [u32; 3],
    len: usize,
    due: u32,
) -> Result<Both<u16>, Difference> {
    let [u, k, v] = counts;
    let mut table = Buffer::new(len, || random.word() as u16);
    let answer = reference::fabric::write(u, k, v, table.expected());
    let expected = number(answer.err());
    let found = number(mukdalis::write_fabric(u, k, v, table.found()).err());

    let entries = match due {
        0 => table_len(u, k, v),
        _ => 0,
    };
    if expected != due || found != due || !table.agrees(entries) {
        return Err(comparison.difference(&[
            ("fabric", show_counts(counts)),
            ("due", show_number(due)),
            ("reference", show_number(expected)),
            ("library", show_number(found)),
            ("table", table.show(entries)),
        ]));
    }
    comparison.count(Call::Fabric, due);
    Ok(table.into_both(entries))
}

/// Compares a run whose answer is to be `due`, or what the reference answers if nothing is.
fn compare_run(
    comparison: &mut Comparison,
    random: &mut Random,
    case: &Run,
    due: Option<u32>,
) -> Outcome {
    let Run {
        table,
        program,
        row,
        ..
    } = case;
    let mut work = Buffer::new(case.work_len, || random.byte());
    let mut result = Buffer::new(case.result_len, || random.byte());
    let (to_work, to_result) = (work.expected(), result.expected());
    let answer = reference::run::run(table, program, row, to_work, to_result);
    let expected = number(answer.err());
    let answer = mukdalis::run_fabric(table, program, row, work.found(), result.found());
    let found = number(answer.err());

    let due = due.unwrap_or(expected);
    let (wires, outputs) = match due {
        0 => (wires(table), usize::from(table[1])),
        _ => (0, 0),
    };
    let answers_agree = expected == due && found == due;
    if !answers_agree || !work.agrees(wires) || !result.agrees(outputs) {
        return Err(comparison.difference(&[
            ("run", show_run(case)),
            ("due", show_number(due)),
            ("reference", show_number(expected)),
            ("library", show_number(found)),
            ("work", work.show(wires)),
            ("result", result.show(outputs)),
        ]));
    }
    comparison.count(Call::Run, due);
    Ok(())
}
