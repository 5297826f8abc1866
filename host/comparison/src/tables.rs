//! What a comparison prints: for each subject the cases by kind and the answers by number, then
//! the totals.

use std::fmt;

use super::show::show_number;
use super::{Call, Comparison, CALLS, NUMBERS};

/// The calls that share a table.
const SUBJECTS: [&[Call]; 9] = [
    &[Call::Reading, Call::Faults, Call::Evaluation],
    &[Call::DrawnReading, Call::DrawnOutputs],
    &[
        Call::Saving,
        Call::ReadingBack,
        Call::Shortest,
        Call::FilesTried,
    ],
    &[
        Call::PermutationWriting,
        Call::PermutationProgramming,
        Call::PermutationDelivery,
    ],
    &[
        Call::SelectionWriting,
        Call::SelectionProgramming,
        Call::SelectionDelivery,
    ],
    &[
        Call::Counting,
        Call::Sheet,
        Call::Fabric,
        Call::KindsInTable,
        Call::Run,
    ],
    &[Call::Program, Call::PlanInFabric, Call::PlanRun],
    &[
        Call::PlanSeries,
        Call::FabricSeries,
        Call::SeriesParts,
        Call::SingleCalls,
        Call::SeriesInFabric,
    ],
    &[
        Call::GateReplacement,
        Call::GateAppending,
        Call::OutputReplacement,
        Call::EditedPlan,
    ],
];

impl fmt::Display for Comparison {
    fn fmt(&self, out: &mut fmt::Formatter<'_>) -> fmt::Result {
        for calls in SUBJECTS {
            self.write_tables(out, calls)?;
        }
        let tried = self.cases(Call::FilesTried);
        let total = self.seen.iter().flatten().sum::<u64>() - tried;
        let (files, drawn) = (self.cases(Call::Reading), self.cases(Call::DrawnReading));
        let saved = self.cases(Call::ReadingBack);
        let permutations = self.cases(Call::PermutationDelivery);
        let selections = self.cases(Call::SelectionDelivery);
        let (fabrics, runs) = (self.cases(Call::Fabric), self.cases(Call::Run));
        let plans = self.cases(Call::PlanInFabric);
        let series = self.cases(Call::PlanSeries) + self.cases(Call::FabricSeries);
        let parts = self.cases(Call::SeriesParts);
        let replaced = self.cases(Call::GateReplacement) + self.cases(Call::OutputReplacement);
        let edits = replaced + self.cases(Call::GateAppending);
        writeln!(
            out,
            "compared {total} cases, {files} of them files, {drawn} drawn files, {saved} saved \
             plans, {permutations} permutations, {selections} selections, {fabrics} fabrics, \
             {runs} runs, {plans} plans in their fabrics, {series} series, {parts} series in two \
             parts, {edits} edits, and tried {tried} files for shorter ones: no difference"
        )
    }
}

impl Comparison {
    fn write_tables(&self, out: &mut fmt::Formatter<'_>, calls: &[Call]) -> fmt::Result {
        let titles = calls.iter().map(|&call| CALLS[call as usize].0.to_string());
        let titles: Vec<String> = titles.collect();
        write_row(out, "cases compared", &titles)?;
        for (kind, cases) in &self.kinds {
            write_counts(out, kind, calls.iter().map(|&call| cases[call as usize]))?;
        }
        writeln!(out)?;
        write_row(out, "answers", &titles)?;
        for number in 0..NUMBERS {
            let answers = calls.iter().map(|&call| self.seen[call as usize][number]);
            write_counts(out, &show_number(number as u32), answers)?;
        }
        writeln!(out)
    }

    pub(super) fn cases(&self, call: Call) -> u64 {
        self.seen[call as usize].iter().sum()
    }
}

/// A row of counts, unless all are 0.
fn write_counts(
    out: &mut fmt::Formatter<'_>,
    title: &str,
    counts: impl Iterator<Item = u64>,
) -> fmt::Result {
    let counts: Vec<u64> = counts.collect();
    if counts.iter().all(|&count| count == 0) {
        return Ok(());
    }
    let cells: Vec<String> = counts.into_iter().map(or_dash).collect();
    write_row(out, title, &cells)
}

fn write_row(out: &mut fmt::Formatter<'_>, title: &str, cells: &[String]) -> fmt::Result {
    write!(out, "{title:<40}")?;
    for cell in cells {
        write!(out, "{cell:>14}")?;
    }
    writeln!(out)
}

fn or_dash(cases: u64) -> String {
    match cases {
        0 => "-".to_string(),
        _ => cases.to_string(),
    }
}

#[cfg(test)]
mod tests {
    use super::*;

    #[test]
    fn every_call_is_in_a_table() {
        let calls = SUBJECTS.concat().into_iter().map(|call| call as usize);
        assert!(calls.eq(0..CALLS.len()));
    }
}
