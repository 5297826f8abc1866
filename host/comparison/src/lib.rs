//! The library and the reference on the same cases: answers, records and lent buffers.
//!
//! [`mod@reference`] does the library's work in plain Rust, written from documents 01 and 02 alone;
//! of the library it uses the records and the refusal table. [`samples`] makes the cases, from the numbers
//! of [`random`].
//!
//! The first difference ends a comparison. Otherwise it has counted its cases by kind and by call,
//! and how often each call gave each number.

pub mod random;
pub mod reference;
pub mod samples;
pub mod tuned;

mod blocks;
mod drawn;
mod edits;
mod fabric;
mod files;
mod memory;
mod program;
mod saving;
mod series;

mod buffer;
mod gates;
mod show;
mod tables;

use std::fmt::{self, Write};
use std::ops::Range;

use mukdalis::{raw, Fault, Plan, Refusal};

use self::buffer::GUARD;
use self::show::{first_difference, hex, show_number, show_plan, show_read};
use crate::random::Random;

/// One place for each number of the refusal table, and place 0 for done.
const NUMBERS: usize = Fault::TABLE.len() + 1;

/// A call that is compared, or what several calls gave together.
#[derive(Clone, Copy)]
enum Call {
    Reading,
    Faults,
    Evaluation,
    DrawnReading,
    DrawnOutputs,
    Saving,
    ReadingBack,
    Shortest,
    FilesTried,
    PermutationWriting,
    PermutationProgramming,
    PermutationDelivery,
    SelectionWriting,
    SelectionProgramming,
    SelectionDelivery,
    Counting,
    Sheet,
    Fabric,
    KindsInTable,
    Run,
    Program,
    PlanInFabric,
    PlanRun,
    PlanSeries,
    FabricSeries,
    SeriesParts,
    SingleCalls,
    SeriesInFabric,
    GateReplacement,
    GateAppending,
    OutputReplacement,
    EditedPlan,
}

/// Each call's name, and the numbers that it must have given at least once.
const CALLS: [(&str, &[usize]); 32] = [
    ("reading", &[0, 1, 2, 3, 4, 5, 6, 7, 8, 9, 10]),
    ("plan faults", &[0, 2, 3, 4, 7, 8, 9, 17]),
    ("evaluation", &[0, 2, 3, 4, 7, 8, 9, 11, 12, 17]),
    ("drawn reading", &[0, 1, 2, 3, 4, 5, 6, 7, 8, 9, 10, 15]),
    ("drawn outputs", &[0]),
    ("saving", &[0, 2, 3, 4, 7, 8, 9, 11, 17]),
    ("reading back", &[0]),
    ("shortest", &[0]),
    ("files tried", &[0, 5, 6, 7, 8, 9, 10]),
    ("writing P", &[0, 2, 11, 12, 13]),
    ("programming P", &[0, 2, 9, 11, 12]),
    ("delivery by P", &[0]),
    ("writing S", &[0, 2, 4, 11, 12, 13]),
    ("programming S", &[0, 2, 4, 9, 11, 12]),
    ("delivery by S", &[0]),
    ("counting", &[0, 2, 3, 4]),
    ("sheet", &[0, 2, 3, 4]),
    ("fabric", &[0, 2, 3, 4, 11]),
    ("table's kinds", &[0]),
    ("run", &[0, 11, 12, 13, 14]),
    ("program bits", &[0, 2, 3, 4, 7, 8, 9, 11, 17]),
    ("plans", &[0]),
    ("plans' runs", &[0]),
    ("plan series", &[0, 2, 3, 4, 7, 8, 9, 11, 12, 16, 17]),
    ("fabric series", &[0, 11, 12, 13, 14, 16]),
    ("in two parts", &[0]),
    ("single calls", &[0]),
    ("in its fabric", &[0]),
    ("replace gate", &[0, 2, 3, 4, 7, 8, 9, 17, 18]),
    ("append gate", &[0, 2, 3, 4, 7, 8, 9, 17]),
    ("new output", &[0, 2, 3, 4, 7, 8, 9, 17, 18]),
    ("edited plans", &[0]),
];

/// What ends a comparison: a case with both answers, or what it never met.
#[derive(Debug)]
pub struct Difference(String);

pub type Outcome = Result<(), Difference>;

/// The cases compared so far.
#[derive(Default)]
pub struct Comparison {
    kinds: Vec<(&'static str, [u64; CALLS.len()])>,
    seen: [[u64; NUMBERS]; CALLS.len()],
}

impl Comparison {
    /// Compares all kinds of cases, the same ones for the same seed.
    pub fn run(seed: u64) -> Result<Comparison, Difference> {
        let mut comparison = Comparison::default();
        let mut random = Random::new(seed);
        files::compare(&mut comparison, &mut random)?;
        memory::compare(&mut comparison, &mut random)?;
        drawn::compare(&mut comparison, &mut random)?;
        saving::compare(&mut comparison, &mut random)?;
        blocks::compare(&mut comparison, &mut random)?;
        fabric::compare(&mut comparison, &mut random)?;
        program::compare(&mut comparison, &mut random)?;
        series::compare(&mut comparison, &mut random)?;
        edits::compare(&mut comparison, &mut random)?;
        comparison.check_seen()?;
        Ok(comparison)
    }

    /// Begins a kind of cases.
    fn begin(&mut self, kind: &'static str) {
        self.kinds.push((kind, [0; CALLS.len()]));
    }

    /// Compares the reading of a file, and gives the plan if there is one.
    fn reading(&mut self, file: &[u8]) -> Result<Option<Plan>, Difference> {
        let found = self.reading_record(file)?;
        Ok((found.number == 0).then_some(found.plan))
    }

    /// Compares the reading of a file, and gives what both answer.
    fn reading_record(&mut self, file: &[u8]) -> Result<raw::Read, Difference> {
        let expected = read_record(&reference::plan::read(file));
        let found = raw::plan_read(file);
        if found != expected {
            return Err(self.difference(&[
                ("file", hex(file)),
                ("reference", show_read(&expected)),
                ("library", show_read(&found)),
                (
                    "first difference",
                    first_difference(&expected.plan, &found.plan),
                ),
            ]));
        }
        self.count(Call::Reading, found.number);
        Ok(found)
    }

    /// Compares the plan faults of a plan in memory.
    fn faults(&mut self, plan: &Plan) -> Outcome {
        let expected = number(reference::plan::fault(plan));
        let found = number(mukdalis::check(plan).err());
        if found != expected {
            return Err(self.difference(&[
                ("plan", show_plan(plan)),
                ("reference", show_number(expected)),
                ("library", show_number(found)),
            ]));
        }
        self.count(Call::Faults, expected);
        Ok(())
    }

    /// Compares an evaluation that is lent a result buffer of `result_len` entries.
    fn evaluation(&mut self, plan: &Plan, row: &[u8], result_len: usize) -> Outcome {
        let before = foreign_entries(GUARD + result_len + GUARD);
        let result = GUARD..GUARD + result_len;
        let (mut expected, mut found) = (before.clone(), before.clone());

        let answer = reference::plan::evaluate(plan, row, &mut expected[result.clone()]);
        let expected_number = number(answer.err());
        let found_number = number(mukdalis::evaluate(plan, row, &mut found[result]).err());

        let written = match expected_number {
            0 => GUARD..GUARD + usize::from(plan.output_count),
            _ => 0..0,
        };
        if found_number != expected_number
            || found != expected
            || !is_stated(&before, &found, written)
        {
            return Err(self.difference(&[
                ("plan", show_plan(plan)),
                ("row", hex(row)),
                ("result length", result_len.to_string()),
                ("buffer and guards", hex(&before)),
                ("reference", show_number(expected_number)),
                ("leaves", hex(&expected)),
                ("library", show_number(found_number)),
                ("leaves", hex(&found)),
            ]));
        }
        self.count(Call::Evaluation, expected_number);
        Ok(())
    }

    fn count(&mut self, call: Call, number: u32) {
        self.seen[call as usize][number as usize] += 1;
        if let Some((_, cases)) = self.kinds.last_mut() {
            cases[call as usize] += 1;
        }
    }

    /// Fails if a call never gave a number that it must give.
    fn check_seen(&self) -> Outcome {
        for ((call, due), seen) in CALLS.iter().zip(&self.seen) {
            if let Some(number) = due.iter().find(|&&number| seen[number] == 0) {
                return Err(Difference(format!(
                    "no case of {call} had the answer {number}\n"
                )));
            }
        }
        Ok(())
    }

    /// Fails if a call had less than so many cases, or none of a kind that is due.
    fn check_cases(&self, call: Call, least: u64, due_kinds: &[&str]) -> Outcome {
        let cases = self.cases(call);
        if cases < least {
            let name = CALLS[call as usize].0;
            return Err(Difference(format!("only {cases} cases of {name}\n")));
        }
        for due in due_kinds {
            let mut kinds = self.kinds.iter();
            if !kinds.any(|(kind, cases)| kind == due && cases[call as usize] > 0) {
                return Err(Difference(format!("no case of: {due}\n")));
            }
        }
        Ok(())
    }

    /// A difference in the present kind: the case and both answers, by name.
    fn difference(&self, parts: &[(&str, String)]) -> Difference {
        let kind = self.kinds.last().map_or("", |&(kind, _)| kind);
        let mut text = format!("a difference in: {kind}\n");
        for (name, part) in parts {
            let _ = writeln!(text, "{name}: {part}");
        }
        Difference(text)
    }
}

impl fmt::Display for Difference {
    fn fmt(&self, out: &mut fmt::Formatter<'_>) -> fmt::Result {
        out.write_str(&self.0)
    }
}

/// The number of an answer: 0 for done.
fn number(fault: Option<Fault>) -> u32 {
    fault.map_or(0, Fault::number)
}

/// The number of the first check that fails, 0 if none does.
fn first_failing(checks: &[(Fault, bool)]) -> u32 {
    let failing = checks.iter().find(|&&(_, fails)| fails);
    number(failing.map(|&(fault, _)| fault))
}

/// The record that an answer of a read comes as; a refusal's plan is all zero.
fn read_record(answer: &Result<Plan, Refusal>) -> raw::Read {
    match *answer {
        Ok(plan) => raw::Read {
            number: 0,
            at: 0,
            plan,
        },
        Err(Refusal { fault, at }) => raw::Read {
            number: fault.number(),
            at,
            plan: Plan::ZERO,
        },
    }
}

/// A buffer of entries that no evaluation writes: none is 0 or 1, and neighbours differ.
fn foreign_entries(len: usize) -> Vec<u8> {
    (2..=255).cycle().take(len).collect()
}

/// Whether the entries in `written` are 0 or 1, and all others what they were.
fn is_stated(before: &[u8], after: &[u8], written: Range<usize>) -> bool {
    before
        .iter()
        .zip(after)
        .enumerate()
        .all(|(i, (before, after))| {
            if written.contains(&i) {
                *after <= 1
            } else {
                after == before
            }
        })
}

#[cfg(test)]
mod tests {
    use super::*;

    #[test]
    fn a_comparison_without_cases_fails() {
        assert!(Comparison::default().check_seen().is_err());
    }

    #[test]
    fn too_few_cases_and_missing_kinds_are_missed() {
        let check = |comparison: &Comparison| {
            comparison.check_cases(Call::DrawnReading, 3, &["some", "others"])
        };
        let mut comparison = Comparison::default();
        for kind in ["some", "others"] {
            comparison.begin(kind);
            comparison.count(Call::DrawnReading, 0);
        }
        assert!(check(&comparison).is_err());
        comparison.count(Call::DrawnReading, 5);
        assert!(check(&comparison).is_ok());
        comparison.kinds.remove(0);
        assert!(check(&comparison).is_err());
    }

    #[test]
    fn an_entry_past_the_stated_ones_stays() {
        let before = foreign_entries(4);
        assert!(is_stated(&before, &[2, 0, 1, 5], 1..3));
        assert!(!is_stated(&before, &[2, 0, 1, 1], 1..3));
        assert!(!is_stated(&before, &[2, 0, 4, 5], 1..3));
        assert!(!is_stated(&before, &[0, 3, 4, 5], 0..0));
    }
}
