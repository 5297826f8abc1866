//! Plan files: sound ones, gates of every map and table byte, files damaged in every place, random
//! bytes.

use mukdalis::Plan;

use super::gates::{GateAnswer, SeenGates};
use super::show::{hex, show_plan};
use super::{Comparison, Difference, Outcome};
use crate::random::Random;
use crate::samples::damage::random_body;
use crate::samples::gates::TriedGate;
use crate::samples::{
    accepted_file, accepted_plan, Counts, PlanFile, Standing, LIMIT_COUNTS, LONGEST_FILE,
};

pub fn compare(comparison: &mut Comparison, random: &mut Random) -> Outcome {
    sound_files(comparison, random)?;
    every_map_and_table_byte(comparison, random)?;
    counts_at_limits(comparison, random)?;
    fields_at_limits(comparison, random)?;
    two_damages(comparison, random)?;
    cut_files(comparison, random)?;
    longer_files(comparison, random)?;
    every_byte_value(comparison, random)?;
    changed_bytes(comparison, random)?;
    random_bodies(comparison, random)?;
    random_bytes(comparison, random)
}

pub fn small_file(random: &mut Random) -> PlanFile {
    let counts = Counts::small(random);
    accepted_file(random, counts)
}

/// A file of any size, now and then a longest one.
fn any_file(random: &mut Random) -> PlanFile {
    if random.one_in(20) {
        let plan = accepted_plan(random, Counts::MOST);
        return PlanFile::new(random, &plan, Standing::All);
    }
    let counts = Counts::random(random);
    accepted_file(random, counts)
}

/// Files of accepted plans are read as those plans. What was read is evaluated.
fn sound_files(comparison: &mut Comparison, random: &mut Random) -> Outcome {
    comparison.begin("files of plans, any fields standing");
    for _ in 0..20_000 {
        let counts = Counts::random(random);
        let plan = accepted_plan(random, counts);
        for standing in Standing::ALL {
            let file = PlanFile::new(random, &plan, standing);
            if comparison.reading(&file.bytes)? != Some(plan) {
                return Err(not_as_written(comparison, &plan, &file));
            }
        }
        comparison.faults(&plan)?;
        let row = random.row(plan.inputs.into());
        comparison.evaluation(&plan, &row, plan.output_count.into())?;
    }
    Ok(())
}

pub fn not_as_written(comparison: &Comparison, plan: &Plan, file: &PlanFile) -> Difference {
    comparison.difference(&[
        ("file", hex(&file.bytes)),
        ("written from", show_plan(plan)),
        ("both read", "something else".to_string()),
    ])
}

/// A gate of every map byte and every table byte, which is read or refused as documents 01 and 02
/// say.
fn every_map_and_table_byte(comparison: &mut Comparison, random: &mut Random) -> Outcome {
    comparison.begin("every map and table byte");
    let mut seen = SeenGates::default();
    for _ in 0..10 {
        for tried in TriedGate::of_plan(random) {
            for file in tried.files() {
                let found = comparison.reading_record(&file.bytes)?;
                let answer = GateAnswer {
                    number: found.number,
                    at: found.at,
                    gate: found.plan.gates[usize::from(tried.number) - 1],
                };
                seen.check(comparison, &file, answer)?;
            }
        }
    }
    seen.check_seen()
}

/// Every choice of counts, in range or not, before no body, a sound one and a random one.
fn counts_at_limits(comparison: &mut Comparison, random: &mut Random) -> Outcome {
    comparison.begin("counts at their limits");
    let Counts(most_inputs, most_gates, most_outputs) = Counts::MOST;
    for u in LIMIT_COUNTS {
        for k in LIMIT_COUNTS {
            for v in LIMIT_COUNTS {
                let counts = Counts(
                    u.clamp(1, most_inputs),
                    k.clamp(1, most_gates),
                    v.clamp(1, most_outputs),
                );
                let mut file = accepted_file(random, counts).bytes;
                let header = [u, k, v].map(u16::to_le_bytes).concat();
                file[..header.len()].copy_from_slice(&header);
                comparison.reading(&header)?;
                comparison.reading(&file)?;
                comparison.reading(&[header, random.bytes(40)].concat())?;
            }
        }
    }
    Ok(())
}

/// Every field of a file at and beside its limits.
fn fields_at_limits(comparison: &mut Comparison, random: &mut Random) -> Outcome {
    comparison.begin("one field at its limits");
    for i in 0..600 {
        let file = match i % 20 {
            0 => any_file(random),
            _ => small_file(random),
        };
        for (_, _, damaged) in file.at_limits() {
            comparison.reading(&damaged.bytes)?;
        }
    }
    Ok(())
}

/// Every field of a small file at or beside its limits, and so every later one, or the file cut
/// at each byte, or a byte more.
fn two_damages(comparison: &mut Comparison, random: &mut Random) -> Outcome {
    comparison.begin("two fields, or one and the length");
    for _ in 0..100 {
        let file = small_file(random);
        for (i, &field) in file.fields.iter().enumerate() {
            let value = random.choose(&field.1.limits());
            let damaged = file.with_field(field, value);
            for &later in &file.fields[i + 1..] {
                let value = random.choose(&later.1.limits());
                comparison.reading(&damaged.with_field(later, value).bytes)?;
            }
            for cut in damaged.cuts().skip(field.0) {
                comparison.reading(cut)?;
            }
            comparison.reading(&[&damaged.bytes[..], &[0]].concat())?;
        }
    }
    Ok(())
}

/// Files of any size cut at every byte.
fn cut_files(comparison: &mut Comparison, random: &mut Random) -> Outcome {
    comparison.begin("cut at every byte");
    for _ in 0..400 {
        for cut in any_file(random).cuts() {
            comparison.reading(cut)?;
        }
    }
    Ok(())
}

/// Longest files, and bytes after the last output: one, a few, and so many that the length's low
/// 16 bits are as before.
fn longer_files(comparison: &mut Comparison, random: &mut Random) -> Outcome {
    comparison.begin("longest plans, and bytes after the end");
    for i in 0..4_000 {
        let file = any_file(random);
        let mut extra = vec![0, 1, 2, random.between(3, 300).into()];
        if i < 40 {
            extra.extend([256, LONGEST_FILE, 1 << 16]);
        }
        for extra in extra {
            comparison.reading(&file.with_tail(random, extra))?;
        }
    }
    Ok(())
}

/// Every byte of a small file replaced by every value.
fn every_byte_value(comparison: &mut Comparison, random: &mut Random) -> Outcome {
    comparison.begin("one byte changed, every value");
    for _ in 0..40 {
        for changed in small_file(random).every_byte_value() {
            comparison.reading(&changed)?;
        }
    }
    Ok(())
}

/// Every byte of a file of any size replaced by some values.
fn changed_bytes(comparison: &mut Comparison, random: &mut Random) -> Outcome {
    comparison.begin("one byte changed, every place");
    for _ in 0..200 {
        let file = any_file(random);
        for changed in file.changed_bytes(random) {
            comparison.reading(&changed)?;
        }
    }
    Ok(())
}

fn random_bodies(comparison: &mut Comparison, random: &mut Random) -> Outcome {
    comparison.begin("random bytes after a header in range");
    for _ in 0..60_000 {
        comparison.reading(&random_body(random))?;
    }
    Ok(())
}

/// Random bytes alone, few or many, small or of any value.
fn random_bytes(comparison: &mut Comparison, random: &mut Random) -> Outcome {
    comparison.begin("random bytes");
    for _ in 0..60_000 {
        let most = random.choose(&[12, 40, 2_000]);
        let len = random.between(0, most);
        let mask = random.choose(&[0x01, 0x03, 0x0f, 0xff]);
        let mut file = random.bytes(len.into());
        file.iter_mut().for_each(|byte| *byte &= mask);
        comparison.reading(&file)?;
    }
    Ok(())
}
