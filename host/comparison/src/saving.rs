//! Plans saved in lent buffers: accepted ones of every shape and size, with every fault and every
//! two of them, buffers short, exact and long. Each saved file is read back by the library and gives
//! the plan. No file that is read as a plan is shorter than the saved one: random ones, and for plans
//! of one gate all there are.

mod shortest;

use mukdalis::{raw, Fault, Plan};

use super::buffer::{buffer_lengths, Buffer};
use super::files::small_file;
use super::memory::{faulty_plans, filled_plan, plans_at_limits, random_record, FAULTY_COUNTS};
use super::show::{hex, show_plan, show_read, show_saved};
use super::{read_record, Call, Comparison, Difference, Outcome};
use crate::random::Random;
use crate::reference::plan::{used_gates, used_outputs};
use crate::reference::saving::save;
use crate::samples::plans::{every_plan, shaped_plan, PlanShape};
use crate::samples::{accepted_plan, fill_unused, Counts, PlanFile, Standing, LONGEST_FILE};

/// The least number of plans that are saved.
const LEAST_PLANS: u64 = 100_000;

/// Kinds that have to be among them.
const DUE_KINDS: [&str; 5] = [
    "plans of every shape, saved",
    "every small plan, every buffer length",
    "plans' files, read and saved",
    "changed files, read and saved",
    "plans of one gate, every file",
];

pub fn compare(comparison: &mut Comparison, random: &mut Random) -> Outcome {
    every_shape(comparison, random)?;
    every_gate_count(comparison, random)?;
    every_small_plan(comparison, random)?;
    file_lengths(comparison, random)?;
    sound_files(comparison, random)?;
    changed_files(comparison, random)?;
    counts_at_limits(comparison, random)?;
    two_faults(comparison, random)?;
    random_records(comparison, random)?;
    shortest::compare(comparison, random)?;
    comparison.check_cases(Call::ReadingBack, LEAST_PLANS, &DUE_KINDS)
}

/// Compares the saving of a plan that is lent a buffer of `file_len` bytes, and the library's reading
/// of what it wrote with the plan. Gives the file, or nothing where both refuse.
pub fn compare_saving(
    comparison: &mut Comparison,
    random: &mut Random,
    plan: &Plan,
    file_len: usize,
) -> Result<Option<Vec<u8>>, Difference> {
    let mut file = Buffer::new(file_len, || random.byte());
    let expected = saved_record(save(plan, file.expected()));
    let found = raw::plan_save(plan, file.found());
    let written = expected.length as usize;
    if found != expected || !file.agrees(written) {
        return Err(comparison.difference(&[
            ("plan", show_plan(plan)),
            ("reference", show_saved(&expected)),
            ("library", show_saved(&found)),
            ("file", file.show(written)),
        ]));
    }
    comparison.count(Call::Saving, found.number);
    if found.number != 0 {
        return Ok(None);
    }
    let file = file.into_written(written);
    compare_reading_back(comparison, plan, &file)?;
    Ok(Some(file))
}

/// The record that an answer of a saving comes as; a refusal's length is 0.
fn saved_record(answer: Result<usize, Fault>) -> raw::Saved {
    match answer {
        Ok(len) => raw::Saved {
            number: 0,
            length: len as u64,
        },
        Err(fault) => raw::Saved {
            number: fault.number(),
            length: 0,
        },
    }
}

/// Compares the library's reading of a saved file with the plan.
fn compare_reading_back(comparison: &mut Comparison, plan: &Plan, file: &[u8]) -> Outcome {
    let expected = read_record(&Ok(with_unused_zero(plan)));
    let found = raw::plan_read(file);
    if found != expected {
        return Err(comparison.difference(&[
            ("plan", show_read(&expected)),
            ("saved as", hex(file)),
            ("the library reads", show_read(&found)),
        ]));
    }
    comparison.count(Call::ReadingBack, 0);
    Ok(())
}

/// The plan with its unused places zero.
fn with_unused_zero(plan: &Plan) -> Plan {
    let (gates, outputs) = (used_gates(plan), used_outputs(plan));
    let wires = usize::from(plan.inputs + plan.gate_count);
    let mut read = Plan {
        inputs: plan.inputs,
        gate_count: plan.gate_count,
        output_count: plan.output_count,
        gate_places: plan.gate_places,
        ..Plan::ZERO
    };
    read.gates[..gates.len()].copy_from_slice(gates);
    read.outputs[..outputs.len()].copy_from_slice(outputs);
    read.uses[..wires].copy_from_slice(&plan.uses[..wires]);
    read
}

/// Bytes of an accepted plan's saved file.
fn stated_length(plan: &Plan) -> usize {
    save(plan, &mut [0; LONGEST_FILE]).expect("the plan is accepted")
}

/// Compares the saving of an accepted plan in a byte less than its file has, and in as many or more.
fn compare_plan(comparison: &mut Comparison, random: &mut Random, plan: &Plan) -> Outcome {
    let len = stated_length(plan);
    compare_saving(comparison, random, plan, len - 1)?;
    let longer = random.choose(&[0, 0, 1, 7, 64]);
    compare_saving(comparison, random, plan, len + longer)?;
    Ok(())
}

fn every_shape(comparison: &mut Comparison, random: &mut Random) -> Outcome {
    comparison.begin("plans of every shape, saved");
    for _ in 0..12_000 {
        let counts = Counts::random(random);
        for shape in PlanShape::ALL {
            let mut plan = shaped_plan(random, counts, shape);
            if random.one_in(2) {
                fill_unused(random, &mut plan);
            }
            compare_plan(comparison, random, &plan)?;
        }
    }
    Ok(())
}

fn every_gate_count(comparison: &mut Comparison, random: &mut Random) -> Outcome {
    comparison.begin("plans of every k, saved");
    for k in 1..=Plan::MAX_GATES as u16 {
        for _ in 0..4 {
            let Counts(u, _, v) = Counts::random(random);
            let plan = filled_plan(random, Counts(u, k, v));
            compare_plan(comparison, random, &plan)?;
        }
    }
    Ok(())
}

/// Every plan of one gate and up to four inputs, and of two gates and one input, in buffers of every
/// length up to past its file's.
fn every_small_plan(comparison: &mut Comparison, random: &mut Random) -> Outcome {
    comparison.begin("every small plan, every buffer length");
    for (u, k) in [(1, 1), (2, 1), (3, 1), (4, 1), (1, 2)] {
        for mut plan in every_plan(u, k) {
            fill_unused(random, &mut plan);
            for len in buffer_lengths(stated_length(&plan)) {
                compare_saving(comparison, random, &plan, len)?;
            }
        }
    }
    Ok(())
}

fn file_lengths(comparison: &mut Comparison, random: &mut Random) -> Outcome {
    comparison.begin("saved files, buffers short to long");
    for _ in 0..400 {
        let counts = Counts::random(random);
        let plan = filled_plan(random, counts);
        for len in buffer_lengths(stated_length(&plan)) {
            compare_saving(comparison, random, &plan, len)?;
        }
    }
    Ok(())
}

/// Compares the saving of what the library reads from a file, in a buffer as long as the file: the
/// saved file is not longer. Gives it, or nothing where the file is refused.
fn compare_file(
    comparison: &mut Comparison,
    random: &mut Random,
    file: &[u8],
) -> Result<Option<Vec<u8>>, Difference> {
    let raw::Read { number, plan, .. } = raw::plan_read(file);
    if number != 0 {
        return Ok(None);
    }
    let saved = compare_saving(comparison, random, &plan, file.len())?;
    if saved.is_none() {
        return Err(comparison.difference(&[
            ("file", hex(file)),
            ("read as", show_plan(&plan)),
            ("is saved in", format!("{} bytes", stated_length(&plan))),
        ]));
    }
    comparison.count(Call::Shortest, 0);
    Ok(saved)
}

/// The files of a plan are all saved as the one in which no field stands needlessly.
fn sound_files(comparison: &mut Comparison, random: &mut Random) -> Outcome {
    comparison.begin("plans' files, read and saved");
    let mut shortened = 0;
    for _ in 0..10_000 {
        let counts = Counts::random(random);
        let plan = accepted_plan(random, counts);
        let shortest = PlanFile::new(random, &plan, Standing::None).bytes;
        for standing in Standing::ALL {
            let file = PlanFile::new(random, &plan, standing).bytes;
            let saved = compare_file(comparison, random, &file)?;
            if saved.as_ref() != Some(&shortest) {
                return Err(comparison.difference(&[
                    ("file", hex(&file)),
                    ("without needless fields", hex(&shortest)),
                    ("both save", hex(&saved.unwrap_or_default())),
                ]));
            }
            shortened += u32::from(shortest.len() < file.len());
        }
    }
    match shortened {
        0 => Err(Difference("no file became shorter\n".to_string())),
        _ => Ok(()),
    }
}

/// Every byte of a small file replaced by every value: what is still read is saved in no more bytes.
fn changed_files(comparison: &mut Comparison, random: &mut Random) -> Outcome {
    comparison.begin("changed files, read and saved");
    for _ in 0..150 {
        for changed in small_file(random).every_byte_value() {
            compare_file(comparison, random, &changed)?;
        }
    }
    Ok(())
}

/// Lengths of a buffer for a plan that may have faults: none, and room for every file.
const FAULTY_LENGTHS: [usize; 2] = [0, LONGEST_FILE];

fn counts_at_limits(comparison: &mut Comparison, random: &mut Random) -> Outcome {
    comparison.begin("counts at their limits, saved");
    for plan in plans_at_limits(random) {
        for len in FAULTY_LENGTHS {
            compare_saving(comparison, random, &plan, len)?;
        }
    }
    Ok(())
}

/// Also in a byte less than the plan's file has without the faults.
fn two_faults(comparison: &mut Comparison, random: &mut Random) -> Outcome {
    comparison.begin("every fault and every two, saved");
    for counts in FAULTY_COUNTS {
        let plan = filled_plan(random, counts);
        let short = stated_length(&plan) - 1;
        for faulty in faulty_plans(&plan) {
            for len in FAULTY_LENGTHS.into_iter().chain([short]) {
                compare_saving(comparison, random, &faulty, len)?;
            }
        }
    }
    Ok(())
}

fn random_records(comparison: &mut Comparison, random: &mut Random) -> Outcome {
    comparison.begin("random records, saved");
    for _ in 0..20_000 {
        let plan = random_record(random);
        for len in FAULTY_LENGTHS {
            compare_saving(comparison, random, &plan, len)?;
        }
    }
    Ok(())
}

#[cfg(test)]
mod tests {
    use super::*;

    #[test]
    fn unused_places_are_zero_and_used_ones_stay() {
        let mut random = Random::new(1);
        for counts in [Counts::LEAST, Counts(3, 5, 4), Counts::MOST] {
            let plan = accepted_plan(&mut random, counts);
            let mut filled = plan;
            fill_unused(&mut random, &mut filled);
            assert_eq!(with_unused_zero(&filled), plan);
        }
    }
}
