//! Both countings of every three counts in range, and of counts at and beside their limits.

use super::super::{first_failing, Comparison, Outcome};
use super::{compare_counting, compare_sheet, count_checks, limit_counts};
use crate::samples::Counts;

pub fn compare(comparison: &mut Comparison) -> Outcome {
    every_three(comparison)?;
    limits(comparison)
}

fn every_three(comparison: &mut Comparison) -> Outcome {
    comparison.begin("every u, k, v in range");
    let Counts(most_inputs, most_gates, most_outputs) = Counts::MOST;
    for u in 1..=most_inputs {
        for k in 1..=most_gates {
            for v in 1..=most_outputs {
                let counts = [u, k, v].map(u32::from);
                compare_counting(comparison, counts, 0)?;
                compare_sheet(comparison, counts, 0)?;
            }
        }
    }
    Ok(())
}

fn limits(comparison: &mut Comparison) -> Outcome {
    comparison.begin("u, k, v at and beside their limits");
    for u in limit_counts() {
        for k in limit_counts() {
            for v in limit_counts() {
                let counts = [u, k, v];
                let due = first_failing(&count_checks(counts));
                compare_counting(comparison, counts, due)?;
                compare_sheet(comparison, counts, due)?;
            }
        }
    }
    Ok(())
}
