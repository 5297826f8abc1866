//! Files of drawn plans: in the order of their gates and in others, with rings, damaged in every
//! place. What is read is also held to what document 02 says of it: the plain reading of the same
//! file, the bits that fit every drawn gate, and on small drawings the sets of gates that each draw
//! from one of the same set.

mod cycles;
mod outputs;

use mukdalis::{raw, DrawnPlan, Gate, Plan, Refusal};

use self::outputs::compare_outputs;
use super::files::not_as_written;
use super::gates::{GateAnswer, SeenGates};
use super::show::{first_drawn_difference, hex, show_drawn};
use super::{Call, Comparison, Difference, Outcome};
use crate::random::Random;
use crate::reference;
use crate::samples::damage::random_body;
use crate::samples::drawings::{any_drawing, backwards, drawn_as, shuffled, shuffled_plan};
use crate::samples::gates::{TriedGate, TRIED_MAPS};
use crate::samples::plans::{shaped_plan, PlanShape};
use crate::samples::{accepted_plan, Counts, PlanFile, Standing};

pub fn compare(comparison: &mut Comparison, random: &mut Random) -> Outcome {
    plans_in_order(comparison, random)?;
    shuffled_plans(comparison, random)?;
    every_gate_count(comparison, random)?;
    every_small_drawing(comparison, random)?;
    any_operands(comparison, random)?;
    every_map_and_table_byte(comparison, random)?;
    cycles::compare(comparison, random)?;
    fields_at_limits(comparison, random)?;
    cut_files(comparison, random)?;
    changed_bytes(comparison, random)?;
    random_bodies(comparison, random)?;
    comparison.check_cases(Call::DrawnReading, LEAST_FILES, &DUE_KINDS)
}

/// The least number of drawn files that are compared.
const LEAST_FILES: u64 = 100_000;

/// Kinds that have to be among them; [`cycles`] says which cycles.
const DUE_KINDS: [&str; 7] = [
    "plans of every shape, shuffled",
    "drawn files, every map and table byte",
    "rings of every size",
    "rings by ignored operands, every size",
    "a gate before a ring draws from it",
    "drawn files cut at every byte, or longer",
    "drawn files, one byte changed",
];

/// Compares the drawn reading of a file, and gives what both answer.
fn compare_reading(comparison: &mut Comparison, file: &[u8]) -> Result<raw::Drawn, Difference> {
    let expected = drawn_record(&reference::drawn::read(file));
    let found = raw::plan_read_drawn(file);
    if found != expected {
        return Err(comparison.difference(&[
            ("drawn file", hex(file)),
            ("reference", show_drawn(&expected)),
            ("library", show_drawn(&found)),
            (
                "first difference",
                first_drawn_difference(&expected, &found),
            ),
        ]));
    }
    if !agrees_with_plain(file, &found) {
        return Err(comparison.difference(&[
            ("drawn file", hex(file)),
            ("both read", show_drawn(&found)),
            ("but the plain reading", "does not fit".to_string()),
        ]));
    }
    comparison.count(Call::DrawnReading, found.number);
    Ok(found)
}

/// The record that an answer of a drawn read comes as; a refusal's plan and list are all zero.
fn drawn_record(answer: &Result<DrawnPlan, Refusal>) -> raw::Drawn {
    match *answer {
        Ok(DrawnPlan { plan, drawn }) => raw::Drawn {
            number: 0,
            at: 0,
            plan,
            drawn,
        },
        Err(Refusal { fault, at }) => raw::Drawn {
            number: fault.number(),
            at,
            plan: Plan::ZERO,
            drawn: [0; Plan::MAX_GATES],
        },
    }
}

/// A file that the plain reading reads gives the same plan, its gates in their order. What it refuses
/// with 7 has another order, or none. Any other refusal is the same in both.
fn agrees_with_plain(file: &[u8], drawn: &raw::Drawn) -> bool {
    match raw::plan_read(file) {
        raw::Read {
            number: 0, plan, ..
        } => *drawn == drawn_record(&Ok(in_order(plan))),
        raw::Read { number: 7, .. } => {
            drawn.number != 0 || drawn.drawn != in_order(drawn.plan).drawn
        }
        raw::Read { number, at, .. } => (drawn.number, drawn.at) == (number, at),
    }
}

/// The plan with the drawn numbers 1 to k.
fn in_order(plan: Plan) -> DrawnPlan {
    let mut drawn = [0; Plan::MAX_GATES];
    for (number, g) in drawn.iter_mut().zip(1..=plan.gate_count) {
        *number = g;
    }
    DrawnPlan { plan, drawn }
}

/// Compares the file of a drawing that has an order, and what its plan gives on a row.
fn compare_ordered(comparison: &mut Comparison, random: &mut Random, drawing: &Plan) -> Outcome {
    let file = PlanFile::random(random, drawing);
    let found = compare_reading(comparison, &file.bytes)?;
    let row = random.row(drawing.inputs.into());
    compare_outputs(comparison, drawing, &found.plan, &row)
}

/// The file of a shuffled plan of any size, now and then a largest one.
fn any_file(random: &mut Random) -> PlanFile {
    let counts = match random.one_in(20) {
        true => Counts::MOST,
        false => Counts::random(random),
    };
    let drawing = shuffled_plan(random, counts);
    PlanFile::random(random, &drawing)
}

fn small_file(random: &mut Random) -> PlanFile {
    let counts = Counts::small(random);
    let drawing = shuffled_plan(random, counts);
    PlanFile::random(random, &drawing)
}

/// Files of plans are read as those plans.
fn plans_in_order(comparison: &mut Comparison, random: &mut Random) -> Outcome {
    comparison.begin("drawn in order, any fields standing");
    for _ in 0..10_000 {
        let counts = Counts::random(random);
        let plan = accepted_plan(random, counts);
        for standing in Standing::ALL {
            let file = PlanFile::new(random, &plan, standing);
            if compare_reading(comparison, &file.bytes)? != drawn_record(&Ok(in_order(plan))) {
                return Err(not_as_written(comparison, &plan, &file));
            }
        }
    }
    Ok(())
}

/// Plans of every shape drawn in a random order.
fn shuffled_plans(comparison: &mut Comparison, random: &mut Random) -> Outcome {
    comparison.begin("plans of every shape, shuffled");
    for _ in 0..8_000 {
        let counts = Counts::random(random);
        for shape in PlanShape::ALL {
            let plan = shaped_plan(random, counts, shape);
            let drawing = shuffled(random, &plan);
            compare_ordered(comparison, random, &drawing)?;
        }
    }
    Ok(())
}

/// Every number of gates, shuffled and drawn backwards.
fn every_gate_count(comparison: &mut Comparison, random: &mut Random) -> Outcome {
    comparison.begin("drawn backwards and shuffled, every k");
    for k in 1..=Plan::MAX_GATES as u16 {
        let Counts(u, _, v) = Counts::random(random);
        let counts = Counts(u, k, v);
        let drawing = backwards(random, counts);
        compare_ordered(comparison, random, &drawing)?;
        let drawing = shuffled_plan(random, counts);
        compare_ordered(comparison, random, &drawing)?;
    }
    Ok(())
}

/// Every choice of operands in drawings of one input with up to four gates, and of two with three.
/// 15 is given exactly if some set of gates is a ring, at the lowest gate of all such sets.
fn every_small_drawing(comparison: &mut Comparison, random: &mut Random) -> Outcome {
    comparison.begin("every small drawing");
    for (u, k) in [(1, 1), (1, 2), (1, 3), (1, 4), (2, 3)] {
        let wires = u + k;
        let choices = usize::from(wires).pow(2 * u32::from(k));
        for choice in 0..choices {
            let mut drawing = accepted_plan(random, Counts(u, k, 1));
            set_operands(&mut drawing, choice);
            let file = PlanFile::random(random, &drawing);
            let found = compare_reading(comparison, &file.bytes)?;
            match cycles::lowest_of_all(&drawing) {
                Some(g) => cycles::check_cycle(comparison, &file, g, &found)?,
                None => compare_every_row(comparison, &drawing, &found.plan)?,
            }
        }
    }
    Ok(())
}

/// The operands of all gates as the digits of a number.
fn set_operands(drawing: &mut Plan, mut choice: usize) {
    let (k, wires) = (drawing.gate_count, drawing.inputs + drawing.gate_count);
    let mut next = || {
        let wire = 1 + (choice % usize::from(wires)) as u16;
        choice /= usize::from(wires);
        wire
    };
    for gate in &mut drawing.gates[..usize::from(k)] {
        let (first, second) = (next(), next());
        *gate = Gate {
            first,
            second,
            table: gate.table,
        };
    }
}

/// Compares what the plan of a drawing that has an order gives on every row.
fn compare_every_row(comparison: &mut Comparison, drawing: &Plan, plan: &Plan) -> Outcome {
    for r in 0..1 << drawing.inputs {
        let row: Vec<u8> = (0..drawing.inputs).map(|i| (r >> i & 1) as u8).collect();
        compare_outputs(comparison, drawing, plan, &row)?;
    }
    Ok(())
}

/// Drawings of random operands: with few gates some have an order.
fn any_operands(comparison: &mut Comparison, random: &mut Random) -> Outcome {
    comparison.begin("drawings of any operands");
    for _ in 0..20_000 {
        let counts = Counts::random(random);
        let drawing = any_drawing(random, counts);
        let file = PlanFile::random(random, &drawing);
        let found = compare_reading(comparison, &file.bytes)?;
        if found.number == 0 {
            let row = random.row(drawing.inputs.into());
            compare_outputs(comparison, &drawing, &found.plan, &row)?;
        }
    }
    Ok(())
}

/// A gate of every map byte and every table byte, in plans drawn in any order, which is read or
/// refused as documents 01 and 02 say. Of every map byte but the last, which is too high, some gates
/// get another place.
fn every_map_and_table_byte(comparison: &mut Comparison, random: &mut Random) -> Outcome {
    comparison.begin("drawn files, every map and table byte");
    let mut seen = SeenGates::default();
    let mut moved = [false; TRIED_MAPS];
    for _ in 0..12 {
        for tried in TriedGate::of_drawing(random) {
            let place = usize::from(tried.number) - 1;
            for file in tried.files() {
                let found = compare_reading(comparison, &file.bytes)?;
                seen.check(comparison, &file, gate_answer(&found, place))?;
                let is_moved = found.number == 0 && found.drawn[place] != tried.number;
                moved[usize::from(file.map)] |= is_moved;
            }
        }
    }
    if let Some(map) = moved[..TRIED_MAPS - 1].iter().position(|moved| !moved) {
        return Err(Difference(format!(
            "no gate of map byte {map} got another place\n"
        )));
    }
    seen.check_seen()
}

/// The answer with the gate that was drawn at this place, its operands as drawn.
fn gate_answer(found: &raw::Drawn, place: usize) -> GateAnswer {
    let numbers = &found.drawn[..found.plan.gate_count.into()];
    GateAnswer {
        number: found.number,
        at: found.at,
        gate: drawn_as(&found.plan, numbers).gates[place],
    }
}

/// Every field of a file at and beside its limits: operands among them 0, the gate's own wire, u + k
/// and the wire after it.
fn fields_at_limits(comparison: &mut Comparison, random: &mut Random) -> Outcome {
    comparison.begin("drawn files, a field at its limits");
    for i in 0..400 {
        let file = match i % 20 {
            0 => any_file(random),
            _ => small_file(random),
        };
        for (_, _, damaged) in file.at_limits() {
            compare_reading(comparison, &damaged.bytes)?;
        }
    }
    Ok(())
}

/// Files cut at every byte, and with bytes behind the last output.
fn cut_files(comparison: &mut Comparison, random: &mut Random) -> Outcome {
    comparison.begin("drawn files cut at every byte, or longer");
    for _ in 0..200 {
        let file = any_file(random);
        for cut in file.cuts() {
            compare_reading(comparison, cut)?;
        }
        for extra in [1, 2, 256] {
            compare_reading(comparison, &file.with_tail(random, extra))?;
        }
    }
    Ok(())
}

/// Every byte of a file replaced by some values, of a small one by every value.
fn changed_bytes(comparison: &mut Comparison, random: &mut Random) -> Outcome {
    comparison.begin("drawn files, one byte changed");
    for _ in 0..100 {
        let file = any_file(random);
        for changed in file.changed_bytes(random) {
            compare_reading(comparison, &changed)?;
        }
    }
    for _ in 0..20 {
        for changed in small_file(random).every_byte_value() {
            compare_reading(comparison, &changed)?;
        }
    }
    Ok(())
}

/// Random bytes behind a header in range, some without it or its first half.
fn random_bodies(comparison: &mut Comparison, random: &mut Random) -> Outcome {
    comparison.begin("drawn files of random bytes");
    for _ in 0..20_000 {
        let file = random_body(random);
        let start = random.choose(&[0, 0, 0, 0, 3, 6]);
        compare_reading(comparison, &file[start..])?;
    }
    Ok(())
}

#[cfg(test)]
mod tests {
    use super::*;

    #[test]
    fn every_choice_of_operands_comes_once() {
        let mut random = Random::new(1);
        let mut seen = Vec::new();
        for choice in 0..81 {
            let mut drawing = accepted_plan(&mut random, Counts(1, 2, 1));
            set_operands(&mut drawing, choice);
            let operands = drawing.gates.map(|gate| [gate.first, gate.second]);
            assert!(operands[..2]
                .iter()
                .flatten()
                .all(|wire| (1..=3).contains(wire)));
            seen.push((operands[0], operands[1]));
        }
        seen.sort_unstable();
        seen.dedup();
        assert_eq!(seen.len(), 81);
    }

    #[test]
    fn an_order_that_the_plain_reading_has_too_is_1_to_k() {
        let file = [1, 0, 2, 0, 1, 0, 1, 1, 0, 1, 1, 0, 3, 0];
        let plan = reference::plan::read(&file).expect("the file is a plan");
        let mut drawn = drawn_record(&Ok(in_order(plan)));
        assert!(agrees_with_plain(&file, &drawn));
        drawn.drawn.swap(0, 1);
        assert!(!agrees_with_plain(&file, &drawn));
    }

    /// Gate 1 drawn from gate 2: another order than 1, 2 is due.
    #[test]
    fn an_order_that_the_plain_reading_lacks_is_another() {
        let file = [1, 0, 2, 0, 1, 0, 1, 3, 0, 1, 1, 0, 3, 0];
        let drawn = reference::drawn::read(&file).expect("the gates have an order");
        let mut drawn = drawn_record(&Ok(drawn));
        assert!(agrees_with_plain(&file, &drawn));
        drawn.drawn.swap(0, 1);
        assert!(!agrees_with_plain(&file, &drawn));
    }
}
