//! The answers to files with one gate of every map byte and every table byte, beside what documents
//! 01 and 02 say of that gate.

use mukdalis::{Gate, Refusal};

use super::show::{hex, show_number};
use super::{Comparison, Difference, Outcome, NUMBERS};
use crate::samples::gates::{GateFile, TRIED_MAPS};

/// The answers that are due of a gate, by its map byte: a table that is absent has no limit.
const DUE_NUMBERS: [&[usize]; TRIED_MAPS] = [
    &[0, 5],
    &[0, 5],
    &[0, 5],
    &[0, 5],
    &[0, 5, 8],
    &[0, 5, 8],
    &[0, 5, 8],
    &[0, 5, 8],
    &[6],
];

/// An answer to a file with a tried gate.
#[derive(Clone, Copy, Debug, PartialEq)]
pub struct GateAnswer {
    pub number: u32,
    pub at: u64,
    /// The gate, with its operands as drawn; all zero in a refusal.
    pub gate: Gate,
}

impl GateAnswer {
    fn due(due: Result<Gate, Refusal>) -> GateAnswer {
        match due {
            Ok(gate) => GateAnswer {
                number: 0,
                at: 0,
                gate,
            },
            Err(Refusal { fault, at }) => GateAnswer {
                number: fault.number(),
                at,
                gate: Gate::ZERO,
            },
        }
    }

    fn show(&self) -> String {
        let number = show_number(self.number);
        format!("{number} at {}, {:?}", self.at, self.gate)
    }
}

/// How often each answer was due, by the gate's map byte.
#[derive(Default)]
pub struct SeenGates([[u64; NUMBERS]; TRIED_MAPS]);

impl SeenGates {
    /// Fails if the answer to a file is not the one that is due.
    pub fn check(
        &mut self,
        comparison: &Comparison,
        file: &GateFile,
        found: GateAnswer,
    ) -> Outcome {
        let Some(due) = file.due.map(GateAnswer::due) else {
            return Ok(());
        };
        if found != due {
            return Err(comparison.difference(&[
                ("file", hex(&file.bytes)),
                ("due", due.show()),
                ("both say", found.show()),
            ]));
        }
        self.0[usize::from(file.map)][due.number as usize] += 1;
        Ok(())
    }

    /// Fails if an answer was never due.
    pub fn check_seen(&self) -> Outcome {
        for (map, (due, seen)) in DUE_NUMBERS.iter().zip(&self.0).enumerate() {
            if let Some(number) = due.iter().find(|&&number| seen[number] == 0) {
                return Err(Difference(format!(
                    "no gate of map byte {map} had the answer {number}\n"
                )));
            }
        }
        Ok(())
    }
}

#[cfg(test)]
mod tests {
    use super::*;
    use crate::random::Random;
    use crate::samples::gates::TriedGate;

    #[test]
    fn another_answer_than_the_due_one_fails() {
        let comparison = Comparison::default();
        let mut seen = SeenGates::default();
        for gate in TriedGate::of_plan(&mut Random::new(1)) {
            for file in gate.files() {
                let Some(due) = file.due.map(GateAnswer::due) else {
                    continue;
                };
                assert!(seen.check(&comparison, &file, due).is_ok());
                let mut others = [due; 3];
                others[0].number += 1;
                others[1].at += 1;
                others[2].gate.table ^= 2;
                for other in others {
                    assert!(seen.check(&comparison, &file, other).is_err());
                }
            }
        }
    }

    #[test]
    fn answers_that_were_never_due_are_missed() {
        let comparison = Comparison::default();
        let [gate, ..] = TriedGate::of_plan(&mut Random::new(2));
        let mut seen = SeenGates::default();
        for map in 0..TRIED_MAPS {
            assert!(seen.check_seen().is_err());
            for file in gate.files().filter(|file| usize::from(file.map) == map) {
                if let Some(due) = file.due {
                    let checked = seen.check(&comparison, &file, GateAnswer::due(due));
                    checked.expect("the answer is due");
                }
            }
        }
        assert!(seen.check_seen().is_ok());
    }
}
