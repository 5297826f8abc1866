//! Document 02, W6: a series of intervals, in which the last outputs of one are the last inputs of
//! the next.

use mukdalis::{Fault, Plan, Series};

use super::plan::{fault, is_row, write_outputs};
use super::run::Fabric;

/// The most intervals of a series.
const MOST_INTERVALS: u32 = 4_096;

/// A plan's series: the outputs of its intervals go to `results`, one after another, and the state
/// after the last one to `end`.
///
/// Entries past the stated lengths are unchanged, and a refusal changes none. Checks: plan faults,
/// 16, 12, 11.
pub fn evaluate(
    plan: &Plan,
    series: Series,
    results: &mut [u8],
    end: &mut [u8],
) -> Result<(), Fault> {
    if let Some(fault) = fault(plan) {
        return Err(fault);
    }
    let intervals = Intervals {
        series,
        inputs: plan.inputs.into(),
        outputs: plan.output_count.into(),
    };
    intervals.check()?;
    if !intervals.fit(results, end) {
        return Err(Fault::Short);
    }
    intervals.run(results, end, |row, result| write_outputs(plan, row, result));
    Ok(())
}

/// A fabric table's series with a program: the same with the run's outputs. Every wire's bit in the
/// last interval is left in `work`.
///
/// Entries past the stated lengths are unchanged, and a refusal changes none; nor is `work` without
/// an interval. Checks: 13, 14, 16, 12, 11.
pub fn run(
    table: &[u16],
    program: &[u8],
    series: Series,
    work: &mut [u8],
    results: &mut [u8],
    end: &mut [u8],
) -> Result<(), Fault> {
    let fabric = Fabric::of(table).ok_or(Fault::Fabric)?;
    if !fabric.has_program(program) {
        return Err(Fault::Program);
    }
    let intervals = Intervals {
        series,
        inputs: fabric.inputs,
        outputs: fabric.outputs.len(),
    };
    intervals.check()?;
    if work.len() < fabric.wires || !intervals.fit(results, end) {
        return Err(Fault::Short);
    }
    intervals.run(results, end, |row, result| {
        fabric.run(program, row, work, result);
    });
    Ok(())
}

/// A series for so many inputs and outputs.
pub struct Intervals<'a> {
    pub series: Series<'a>,
    pub inputs: usize,
    pub outputs: usize,
}

impl Intervals<'_> {
    /// Checks: 16, 12.
    fn check(&self) -> Result<(), Fault> {
        let Series { fresh, start, .. } = self.series;
        let (hold, count) = (self.series.hold as usize, self.series.intervals as usize);
        if hold > self.inputs || hold > self.outputs || self.series.intervals > MOST_INTERVALS {
            return Err(Fault::Hold);
        }
        if !is_row(fresh, count * (self.inputs - hold)) || !is_row(start, hold) {
            return Err(Fault::Contact);
        }
        Ok(())
    }

    /// Whether the buffers have room.
    fn fit(&self, results: &[u8], end: &[u8]) -> bool {
        results.len() >= self.series.intervals as usize * self.outputs
            && end.len() >= self.series.hold as usize
    }

    /// The intervals of a good series one after another, in buffers that have room; `step` gives the
    /// outputs of a row. The row is an interval's fresh entries, then the state, which becomes the
    /// last of the outputs.
    pub fn run(&self, results: &mut [u8], end: &mut [u8], mut step: impl FnMut(&[u8], &mut [u8])) {
        let hold = self.series.hold as usize;
        let fresh = self.inputs - hold;
        let mut row = [0; Plan::MAX_INPUTS];
        let row = &mut row[..self.inputs];
        row[fresh..].copy_from_slice(self.series.start);
        for t in 0..self.series.intervals as usize {
            row[..fresh].copy_from_slice(&self.series.fresh[fresh * t..][..fresh]);
            let result = &mut results[self.outputs * t..][..self.outputs];
            step(row, result);
            row[fresh..].copy_from_slice(&result[self.outputs - hold..]);
        }
        end[..hold].copy_from_slice(&row[fresh..]);
    }
}

#[cfg(test)]
mod tests {
    use super::super::plan::read;
    use super::*;

    /// Inputs 1 and 2 are a fault and a reset, input 3 is the state: input 3 OR input 1, and not
    /// input 2.
    const LATCH: [u8; 16] = [3, 0, 2, 0, 1, 0, 6, 1, 0, 14, 6, 2, 0, 4, 5, 0];

    /// A table without rows: of inputs 1, 2, 3 it gives 3, 1, 2.
    const TURN: [u16; 6] = [3, 3, 0, 3, 1, 2];

    fn latch() -> Plan {
        read(&LATCH).expect("the file is a plan")
    }

    /// Two fresh rows and the state 0, 1 of the turn.
    const TURNS: Series = Series {
        hold: 2,
        intervals: 2,
        fresh: &[1, 0],
        start: &[0, 1],
    };

    #[test]
    fn a_latch_sheds_until_it_is_reset() {
        let series = Series {
            hold: 1,
            intervals: 6,
            fresh: &[0, 0, 1, 0, 0, 0, 0, 1, 0, 0, 1, 1],
            start: &[0],
        };
        let (mut results, mut end) = ([9; 7], [9; 2]);
        let done = evaluate(&latch(), series, &mut results, &mut end);
        assert_eq!(
            (done, results, end),
            (Ok(()), [0, 1, 1, 0, 0, 0, 9], [0, 9])
        );
        let shed = Series {
            start: &[1],
            ..series
        };
        let done = evaluate(&latch(), shed, &mut results, &mut end);
        assert_eq!(
            (done, results, end),
            (Ok(()), [1, 1, 1, 0, 0, 0, 9], [0, 9])
        );
    }

    /// Rows 1 0 1 and 0 1 0; the work is that of the second.
    #[test]
    fn the_state_stands_behind_the_fresh_entries_and_is_the_last_outputs() {
        let (mut work, mut results, mut end) = ([9; 5], [9; 7], [9; 3]);
        let done = run(&TURN, &[], TURNS, &mut work, &mut results, &mut end);
        assert_eq!(done, Ok(()));
        assert_eq!(results, [1, 1, 0, 0, 0, 1, 9]);
        assert_eq!((end, work), ([0, 1, 9], [0, 0, 1, 0, 9]));
    }

    #[test]
    fn no_interval_hands_the_start_on() {
        let none = Series {
            intervals: 0,
            fresh: &[],
            ..TURNS
        };
        let (mut work, mut end) = ([9; 4], [9; 3]);
        let done = run(&TURN, &[], none, &mut work, &mut [], &mut end);
        assert_eq!((done, work, end), (Ok(()), [9; 4], [0, 1, 9]));
        let short = run(&TURN, &[], none, &mut work[..3], &mut [], &mut end);
        assert_eq!(short, Err(Fault::Short));
        let short = run(&TURN, &[], none, &mut work, &mut [], &mut end[..1]);
        assert_eq!(short, Err(Fault::Short));
    }

    #[test]
    fn all_or_no_outputs_are_held() {
        let (mut work, mut results, mut end) = ([9; 4], [9; 6], [9; 3]);
        let all = Series {
            hold: 3,
            fresh: &[],
            start: &[1, 0, 0],
            ..TURNS
        };
        let done = run(&TURN, &[], all, &mut work, &mut results, &mut end);
        assert_eq!(
            (done, results, end),
            (Ok(()), [0, 1, 0, 0, 0, 1], [0, 0, 1])
        );
        let none = Series {
            hold: 0,
            fresh: &[1, 0, 0, 1, 1, 0],
            start: &[],
            ..TURNS
        };
        let done = run(&TURN, &[], none, &mut work, &mut results, &mut []);
        assert_eq!((done, results), (Ok(()), [0, 1, 0, 0, 1, 1]));
    }

    #[test]
    fn the_most_intervals() {
        let turns = |intervals, fresh: usize, results: usize| {
            let series = Series {
                intervals,
                fresh: &vec![0; fresh],
                ..TURNS
            };
            let (work, results) = (&mut [9; 4], &mut vec![9; results]);
            run(&TURN, &[], series, work, results, &mut [9; 2])
        };
        assert_eq!(turns(4_096, 4_096, 3 * 4_096), Ok(()));
        assert_eq!(turns(4_097, 4_097, 3 * 4_097), Err(Fault::Hold));
    }

    /// A plan's faults or 13 and 14, then 16, 12, 11; nothing is changed.
    #[test]
    fn checks_come_in_order() {
        let (mut work, mut results, mut end) = ([9; 4], [9; 6], [9; 2]);
        let mut answer = |table: &[u16], program: &[u8], series, lens: [usize; 3]| {
            let (work, results, end) = (
                &mut work[..lens[0]],
                &mut results[..lens[1]],
                &mut end[..lens[2]],
            );
            run(table, program, series, work, results, end)
        };
        let bad_hold = Series { hold: 4, ..TURNS };
        assert_eq!(
            answer(&TURN[1..], &[0], bad_hold, [0; 3]),
            Err(Fault::Fabric)
        );
        assert_eq!(answer(&TURN, &[0], bad_hold, [0; 3]), Err(Fault::Program));
        assert_eq!(answer(&TURN, &[], bad_hold, [0; 3]), Err(Fault::Hold));
        for fresh in [&[1][..], &[1, 0, 1], &[2, 0], &[1, 255]] {
            let series = Series { fresh, ..TURNS };
            assert_eq!(answer(&TURN, &[], series, [0; 3]), Err(Fault::Contact));
        }
        for start in [&[1][..], &[1, 0, 1], &[2, 0], &[1, 255]] {
            let series = Series { start, ..TURNS };
            assert_eq!(answer(&TURN, &[], series, [0; 3]), Err(Fault::Contact));
        }
        for lens in [[3, 6, 2], [4, 5, 2], [4, 6, 1]] {
            assert_eq!(answer(&TURN, &[], TURNS, lens), Err(Fault::Short));
        }
        assert_eq!((work, results, end), ([9; 4], [9; 6], [9; 2]));

        let mut plan = latch();
        let held = |hold| Series { hold, ..TURNS };
        assert_eq!(evaluate(&plan, held(2), &mut [], &mut []), Err(Fault::Hold));
        assert_eq!(
            evaluate(&plan, held(1), &mut [], &mut []),
            Err(Fault::Contact)
        );
        plan.outputs[0] = 3;
        assert_eq!(
            evaluate(&plan, held(2), &mut [], &mut []),
            Err(Fault::Source)
        );
    }
}
