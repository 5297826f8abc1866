//! Plans of one gate beside every file: none that the library reads as such a plan is shorter than
//! the saved one.
//!
//! A file is read from its front. So the files with a plan's counts are tried as a tree: one that is
//! cut goes on with every byte; behind any other nothing is read that could still make it a plan.

use mukdalis::{raw, Fault, Plan, Refusal};

use super::compare_saving;
use crate::random::Random;
use crate::samples::plans::every_plan;
use crate::samples::LONGEST_FILE;
use crate::show::{hex, show_plan, show_read};
use crate::{read_record, Call, Comparison, Difference, Outcome};

/// The numbers of inputs, with one gate and one output.
const INPUTS: [u16; 3] = [1, 2, 3];

/// Of so many files that are refused, one is tried with bytes behind it.
const REFUSED: u16 = 1_000;

pub fn compare(comparison: &mut Comparison, random: &mut Random) -> Outcome {
    comparison.begin("plans of one gate, every file");
    for u in INPUTS {
        let mut lengths = LeastLengths::default();
        let mut counts = [u, 1, 1].map(u16::to_le_bytes).concat();
        lengths.try_files(comparison, random, &mut counts)?;
        lengths.compare_plans(comparison, random, u)?;
    }
    Ok(())
}

/// The plans that were read, each with the least length of its files.
#[derive(Default)]
struct LeastLengths(Vec<(Plan, usize)>);

impl LeastLengths {
    /// Tries every file that begins with these bytes.
    fn try_files(
        &mut self,
        comparison: &mut Comparison,
        random: &mut Random,
        file: &mut Vec<u8>,
    ) -> Outcome {
        let read = raw::plan_read(file);
        comparison.count(Call::FilesTried, read.number);
        if read.number == Fault::Cut.number() {
            for byte in 0..=u8::MAX {
                file.push(byte);
                self.try_files(comparison, random, file)?;
                file.pop();
            }
        } else if read.number == 0 {
            self.keep(read.plan, file.len());
            let tail = tail_record(file);
            for byte in 0..=u8::MAX {
                try_longer(comparison, file, &[byte], &tail)?;
            }
        } else if random.one_in(REFUSED) {
            let len = random.between(1, 12);
            try_longer(comparison, file, &random.bytes(len.into()), &read)?;
        }
        Ok(())
    }

    fn keep(&mut self, plan: Plan, len: usize) {
        match self.0.iter_mut().find(|(kept, _)| *kept == plan) {
            Some((_, least)) => *least = len.min(*least),
            None => self.0.push((plan, len)),
        }
    }

    fn least(&self, plan: &Plan) -> Option<usize> {
        let kept = self.0.iter().find(|(kept, _)| kept == plan);
        kept.map(|&(_, least)| least)
    }

    /// Compares each plan's saved file with its shortest one. Every plan of one gate was read, and
    /// nothing else.
    fn compare_plans(&self, comparison: &mut Comparison, random: &mut Random, u: u16) -> Outcome {
        let plans = every_plan(u, 1);
        if self.0.len() != plans.len() {
            let (read, due) = (self.0.len(), plans.len());
            return Err(Difference(format!(
                "the files of one gate and {u} inputs are {read} plans, not {due}\n"
            )));
        }
        for plan in plans {
            let saved = compare_saving(comparison, random, &plan, LONGEST_FILE)?;
            let (saved, least) = (saved.map(|file| file.len()), self.least(&plan));
            if saved.is_none() || saved != least {
                return Err(comparison.difference(&[
                    ("plan", show_plan(&plan)),
                    ("saved in bytes", format!("{saved:?}")),
                    ("its shortest file has", format!("{least:?}")),
                ]));
            }
            comparison.count(Call::Shortest, 0);
        }
        Ok(())
    }
}

/// The answer to a file that is read with bytes behind it.
fn tail_record(file: &[u8]) -> raw::Read {
    read_record(&Err(Refusal {
        fault: Fault::Tail,
        at: file.len() as u64,
    }))
}

/// Fails unless the answer to a file with these bytes behind it is the one that is due.
fn try_longer(comparison: &mut Comparison, file: &[u8], tail: &[u8], due: &raw::Read) -> Outcome {
    let longer = [file, tail].concat();
    let found = raw::plan_read(&longer);
    if found != *due {
        return Err(comparison.difference(&[
            ("file", hex(file)),
            ("longer", hex(&longer)),
            ("due", show_read(due)),
            ("library", show_read(&found)),
        ]));
    }
    comparison.count(Call::FilesTried, found.number);
    Ok(())
}

#[cfg(test)]
mod tests {
    use super::*;

    #[test]
    fn a_plan_keeps_the_least_length_of_its_files() {
        let plans = every_plan(1, 1);
        let mut lengths = LeastLengths::default();
        for (plan, len) in [
            (plans[0], 12),
            (plans[1], 9),
            (plans[0], 10),
            (plans[0], 14),
        ] {
            lengths.keep(plan, len);
        }
        assert_eq!(lengths.least(&plans[0]), Some(10));
        assert_eq!(lengths.least(&plans[1]), Some(9));
        assert_eq!(lengths.least(&plans[2]), None);
        assert_eq!(lengths.0.len(), 2);
    }
}
