//! Series of intervals by plans and by fabric tables that are not refused; hold counts and numbers of
//! intervals, up to the most and above.

use mukdalis::{Plan, Series};

use super::fabric::{small_table, wires, Run};
use super::plans::any_plan;
use super::Counts;
use crate::random::Random;

/// The most intervals of a series.
pub const MOST_INTERVALS: usize = 4_096;

/// What gives the outputs of an interval's row: a plan, or a fabric table with a program.
#[derive(Clone)]
pub enum Step {
    Plan(Box<Plan>),
    Fabric { table: Vec<u16>, program: Vec<u8> },
}

impl Step {
    pub fn of_plan(plan: &Plan) -> Step {
        Step::Plan(Box::new(*plan))
    }

    /// A table with a random program.
    pub fn of_table(random: &mut Random, table: &[u16]) -> Step {
        let Run { table, program, .. } = Run::of(random, table);
        Step::Fabric { table, program }
    }

    /// u and v.
    pub fn counts(&self) -> [usize; 2] {
        match self {
            Step::Plan(plan) => [plan.inputs, plan.output_count].map(usize::from),
            Step::Fabric { table, .. } => [table[0], table[1]].map(usize::from),
        }
    }

    /// Entries of the work buffer, which a plan's series has not.
    pub fn wires(&self) -> usize {
        match self {
            Step::Plan(_) => 0,
            Step::Fabric { table, .. } => wires(table),
        }
    }
}

/// A plan of these counts, and a table of up to so many rows with a program.
pub fn any_steps(random: &mut Random, counts: Counts, most_rows: u16) -> [Step; 2] {
    let plan = any_plan(random, counts);
    let table = small_table(random, most_rows).entries();
    [Step::of_plan(&plan), Step::of_table(random, &table)]
}

/// A series with lent buffers of these lengths.
#[derive(Clone)]
pub struct SeriesCase {
    pub step: Step,
    pub hold: u32,
    pub intervals: u32,
    pub fresh: Vec<u8>,
    pub start: Vec<u8>,
    pub work_len: usize,
    pub results_len: usize,
    pub end_len: usize,
}

impl SeriesCase {
    /// Random fresh entries and a random start, with buffers of exact lengths. Where the hold count
    /// is above u there are no fresh entries.
    pub fn of(random: &mut Random, step: &Step, hold: usize, intervals: usize) -> SeriesCase {
        let [inputs, outputs] = step.counts();
        SeriesCase {
            hold: hold as u32,
            intervals: intervals as u32,
            fresh: random.row(intervals * inputs.saturating_sub(hold)),
            start: random.row(hold),
            work_len: step.wires(),
            results_len: intervals * outputs,
            end_len: hold,
            step: step.clone(),
        }
    }

    pub fn series(&self) -> Series<'_> {
        Series {
            hold: self.hold,
            intervals: self.intervals,
            fresh: &self.fresh,
            start: &self.start,
        }
    }

    /// Makes its buffers longer now and then.
    pub fn with_longer_buffers(mut self, random: &mut Random) -> SeriesCase {
        for len in [&mut self.work_len, &mut self.results_len, &mut self.end_len] {
            *len += random.choose(&[0, 0, 1, 7]);
        }
        self
    }
}

/// Hold counts for so many inputs and outputs: none, one, half, and up to the most.
pub fn hold_counts([inputs, outputs]: [usize; 2]) -> Vec<usize> {
    let most = inputs.min(outputs);
    let mut holds = vec![0, 1, most / 2, most - 1, most];
    holds.sort_unstable();
    holds.dedup();
    holds
}

/// Hold counts above them: one above u and one above v, and some whose low 8 or 16 bits alone would
/// be good.
pub fn holds_above([inputs, outputs]: [usize; 2]) -> Vec<u32> {
    let most = inputs.min(outputs) as u32;
    let mut holds = [inputs, outputs].map(|count| count as u32 + 1).to_vec();
    holds.extend([1 << 8, 1 << 16, 1 << 31].map(|high| high | most));
    holds.extend([1 << 16, u32::MAX]);
    holds
}

/// Numbers of intervals above the most, some of them good in their low 12 or 16 bits alone.
pub const INTERVALS_ABOVE: [u32; 8] = [
    MOST_INTERVALS as u32 + 1,
    MOST_INTERVALS as u32 + 3,
    2 * MOST_INTERVALS as u32,
    1 << 16,
    (1 << 16) + 3,
    1 << 31,
    (1 << 31) + 3,
    u32::MAX,
];

#[cfg(test)]
mod tests {
    use super::*;

    #[test]
    fn hold_counts_are_up_to_the_most_and_above() {
        assert_eq!(hold_counts([1, 1]), [0, 1]);
        assert_eq!(hold_counts([64, 9]), [0, 1, 4, 8, 9]);
        for counts in [[1, 1], [3, 2], [2, 3], [64, 64], [64, 1], [1, 64]] {
            let most = counts[0].min(counts[1]);
            assert!(hold_counts(counts).iter().all(|&hold| hold <= most));
            assert!(holds_above(counts).iter().all(|&hold| hold as usize > most));
            assert!(holds_above(counts).contains(&(most as u32 + 1)));
        }
    }

    #[test]
    fn lengths_are_those_of_the_counts() {
        let mut random = Random::new(1);
        let step = Step::of_table(&mut random, &[3, 2, 0, 0, 1]);
        let case = SeriesCase::of(&mut random, &step, 2, 5);
        assert_eq!((case.fresh.len(), case.start.len()), (5, 2));
        assert_eq!((case.work_len, case.results_len, case.end_len), (4, 10, 2));
    }
}
