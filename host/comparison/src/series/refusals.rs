//! Series that are refused by their own checks: hold counts and intervals above the most, fresh
//! entries and start states that are no rows, buffers too short.

use mukdalis::Fault;

use super::compare_series;
use crate::buffer::buffer_lengths;
use crate::random::Random;
use crate::samples::series::{
    any_steps, hold_counts, holds_above, SeriesCase, Step, INTERVALS_ABOVE, MOST_INTERVALS,
};
use crate::samples::Counts;
use crate::{first_failing, Comparison, Outcome};

pub fn compare(comparison: &mut Comparison, random: &mut Random) -> Outcome {
    holds(comparison, random)?;
    intervals(comparison, random)?;
    other_lengths(comparison, random)?;
    entries(comparison, random)?;
    entries_of_long_series(comparison, random)?;
    rooms(comparison, random)
}

/// A plan of few gates, and a table of few rows with a program.
fn small_steps(random: &mut Random) -> [Step; 2] {
    let counts = Counts::small(random);
    any_steps(random, counts, 8)
}

fn refused(
    comparison: &mut Comparison,
    random: &mut Random,
    case: &SeriesCase,
    fault: Fault,
) -> Outcome {
    compare_series(comparison, random, case, Some(fault.number()))?;
    Ok(())
}

/// The series with nothing lent, so that 12 and 11 would be due.
fn emptied(case: &SeriesCase) -> SeriesCase {
    SeriesCase {
        fresh: Vec::new(),
        start: Vec::new(),
        work_len: 0,
        results_len: 0,
        end_len: 0,
        ..case.clone()
    }
}

/// With the buffers of the most that can be held, with none, and with those of that hold count where
/// it is small.
fn holds(comparison: &mut Comparison, random: &mut Random) -> Outcome {
    comparison.begin("series, hold counts above the most");
    for _ in 0..300 {
        for step in small_steps(random) {
            let [inputs, outputs] = step.counts();
            let intervals = random.choose(&[0, 1, 2, 5]);
            let sound = SeriesCase::of(random, &step, inputs.min(outputs), intervals);
            for hold in holds_above([inputs, outputs]) {
                let above = SeriesCase {
                    hold,
                    ..sound.clone()
                };
                refused(comparison, random, &emptied(&above), Fault::Hold)?;
                refused(comparison, random, &above, Fault::Hold)?;
                if hold < 1 << 8 {
                    let exact = SeriesCase::of(random, &step, hold as usize, intervals);
                    refused(comparison, random, &exact, Fault::Hold)?;
                }
            }
        }
    }
    Ok(())
}

/// With the buffers of three intervals, with none, and with those of that number where it is small.
fn intervals(comparison: &mut Comparison, random: &mut Random) -> Outcome {
    comparison.begin("series, more than 4,096 intervals");
    for _ in 0..10 {
        for step in small_steps(random) {
            for hold in hold_counts(step.counts()) {
                let sound = SeriesCase::of(random, &step, hold, 3);
                for intervals in INTERVALS_ABOVE {
                    let above = SeriesCase {
                        intervals,
                        ..sound.clone()
                    };
                    refused(comparison, random, &emptied(&above), Fault::Hold)?;
                    refused(comparison, random, &above, Fault::Hold)?;
                    if intervals as usize <= 2 * MOST_INTERVALS {
                        let exact = SeriesCase::of(random, &step, hold, intervals as usize);
                        refused(comparison, random, &exact, Fault::Hold)?;
                    }
                }
            }
        }
    }
    Ok(())
}

/// One or both too long or too short, also so that their sum stays; by an interval, and by so many
/// that the length's low 8 or 16 bits are as before; and rows of u entries.
fn other_lengths(comparison: &mut Comparison, random: &mut Random) -> Outcome {
    comparison.begin("series, fresh and start of other lengths");
    for i in 0..100 {
        for step in small_steps(random) {
            for hold in hold_counts(step.counts()) {
                let intervals = random.between(0, 5).into();
                let sound = SeriesCase::of(random, &step, hold, intervals);
                let (fresh, start) = (sound.fresh.len(), sound.start.len());
                let [inputs, _] = step.counts();
                let row = inputs - hold;
                let mut lens = vec![
                    [0, start],
                    [fresh, 0],
                    [fresh + 1, start],
                    [fresh, start + 1],
                    [fresh + 1, start + 1],
                    [fresh + row, start],
                    [inputs * intervals, start],
                    [fresh + 256, start],
                    [fresh, start + 256],
                ];
                if fresh > 0 {
                    lens.extend([
                        [fresh - 1, start],
                        [fresh - 1, start + 1],
                        [fresh - row, start],
                    ]);
                }
                if start > 0 {
                    lens.extend([[fresh, start - 1], [fresh + 1, start - 1]]);
                }
                if i < 5 {
                    lens.extend([[fresh + (1 << 16), start], [fresh, start + (1 << 16)]]);
                }
                lens.retain(|&other| other != [fresh, start]);
                for [fresh, start] in lens {
                    let mut case = sound.clone();
                    case.fresh.resize(fresh, 0);
                    case.start.resize(start, 0);
                    refused(comparison, random, &case, Fault::Contact)?;
                    let short = SeriesCase {
                        work_len: 0,
                        results_len: 0,
                        end_len: 0,
                        ..case
                    };
                    refused(comparison, random, &short, Fault::Contact)?;
                }
            }
        }
    }
    Ok(())
}

/// A bad entry at each place.
fn entries(comparison: &mut Comparison, random: &mut Random) -> Outcome {
    comparison.begin("series, entries that are not 0 or 1");
    for _ in 0..100 {
        for step in small_steps(random) {
            let hold = random.choose(&hold_counts(step.counts()));
            let intervals = random.between(0, 5).into();
            let sound = SeriesCase::of(random, &step, hold, intervals);
            for entry in [2, 3, 128, 254, 255] {
                for place in 0..sound.fresh.len() {
                    let mut case = sound.clone();
                    case.fresh[place] = entry;
                    refused(comparison, random, &case, Fault::Contact)?;
                }
                for place in 0..sound.start.len() {
                    let mut case = sound.clone();
                    case.start[place] = entry;
                    refused(comparison, random, &case, Fault::Contact)?;
                }
            }
        }
    }
    Ok(())
}

/// The first entry, the last one or any other, of as many intervals as can be.
fn entries_of_long_series(comparison: &mut Comparison, random: &mut Random) -> Outcome {
    comparison.begin("4,096 intervals, an entry not 0 or 1");
    for _ in 0..20 {
        for step in small_steps(random) {
            let hold = random.choose(&hold_counts(step.counts()));
            let sound = SeriesCase::of(random, &step, hold, MOST_INTERVALS);
            let (fresh, start) = (sound.fresh.len(), sound.start.len());
            let any = (random.word() % (fresh.max(1)) as u64) as usize;
            for place in [0, any, fresh.saturating_sub(1)] {
                let mut case = sound.clone();
                if let Some(entry) = case.fresh.get_mut(place) {
                    *entry = 2;
                    refused(comparison, random, &case, Fault::Contact)?;
                }
            }
            for place in [0, start.saturating_sub(1)] {
                let mut case = sound.clone();
                if let Some(entry) = case.start.get_mut(place) {
                    *entry = 2;
                    refused(comparison, random, &case, Fault::Contact)?;
                }
            }
        }
    }
    Ok(())
}

/// Each buffer of lengths short to long, the others exact; no interval, one and some.
fn rooms(comparison: &mut Comparison, random: &mut Random) -> Outcome {
    comparison.begin("series, buffers short to long");
    for _ in 0..15 {
        for step in small_steps(random) {
            for hold in hold_counts(step.counts()) {
                for intervals in [0, 1, random.between(2, 6).into()] {
                    let sound = SeriesCase::of(random, &step, hold, intervals);
                    each_room(comparison, random, &sound)?;
                }
            }
        }
    }
    Ok(())
}

fn each_room(comparison: &mut Comparison, random: &mut Random, sound: &SeriesCase) -> Outcome {
    let buffers: [fn(&mut SeriesCase) -> &mut usize; 3] = [
        |case| &mut case.results_len,
        |case| &mut case.end_len,
        |case| &mut case.work_len,
    ];
    for buffer in buffers {
        let stated = *buffer(&mut sound.clone());
        for len in buffer_lengths(stated) {
            let mut case = sound.clone();
            *buffer(&mut case) = len;
            let due = first_failing(&[(Fault::Short, len < stated)]);
            compare_series(comparison, random, &case, Some(due))?;
        }
    }
    Ok(())
}
