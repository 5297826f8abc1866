//! A plan's program bits, and the plan in the fabric of its counts: the library's table, program
//! and run against the reference's evaluation, and crossed with the reference's.

use mukdalis::Plan;

use super::buffer::{buffer_lengths, Both, Buffer};
use super::fabric::compare_table;
use super::memory::{faulty_plans, filled_plan, plans_at_limits};
use super::show::{hex, show_number, show_plan};
use super::{number, Call, Comparison, Difference, Outcome};
use crate::random::Random;
use crate::reference;
use crate::samples::fabric::{gates_of, table_len, wires, UNIVERSAL_SIZES};
use crate::samples::plans::{every_plan, shaped_plan, PlanShape};
use crate::samples::{accepted_plan, fill_unused, Counts};

/// The most inputs of a plan that is run on every row.
const FEW_INPUTS: u16 = 4;

/// So many counts for each K; for each of them a plan of every shape.
const COUNTS_PER_SIZE: [u32; UNIVERSAL_SIZES.len()] = [600, 700, 700, 600, 500, 400, 300, 150, 100];

pub fn compare(comparison: &mut Comparison, random: &mut Random) -> Outcome {
    every_small_plan(comparison, random)?;
    every_universal_size(comparison, random)?;
    every_gate_count(comparison, random)?;
    corners(comparison, random)?;
    program_lengths(comparison, random)?;
    counts_at_limits(comparison, random)?;
    faults(comparison, random)
}

/// Compares the program of a plan that is lent a buffer of `program_len` bytes, and gives what each
/// wrote: nothing where both refuse.
pub fn compare_program(
    comparison: &mut Comparison,
    random: &mut Random,
    plan: &Plan,
    program_len: usize,
) -> Result<Both<u8>, Difference> {
    let mut program = Buffer::new(program_len, || random.byte());
    let answer = reference::program::write(plan, program.expected());
    let expected = number(answer.err());
    let found = number(mukdalis::program_plan(plan, program.found()).err());

    let bytes = match expected {
        0 => stated_length(plan),
        _ => 0,
    };
    if found != expected || !program.agrees(bytes) {
        return Err(comparison.difference(&[
            ("plan", show_plan(plan)),
            ("reference", show_number(expected)),
            ("library", show_number(found)),
            ("program", program.show(bytes)),
        ]));
    }
    comparison.count(Call::Program, expected);
    Ok(program.into_both(bytes))
}

/// Bytes of the program of a plan whose counts are in range.
pub fn stated_length(plan: &Plan) -> usize {
    let [u, k, v] = plan.counts();
    let size = reference::fabric::count(u, k, v).expect("the counts are in range");
    size.bits.div_ceil(8) as usize
}

/// The table of the fabric of these counts, as each wrote it.
fn tables_of(
    comparison: &mut Comparison,
    random: &mut Random,
    Counts(u, k, v): Counts,
) -> Result<Both<u16>, Difference> {
    let counts = [u, k, v].map(u32::from);
    let len = table_len(counts[0], counts[1], counts[2]);
    compare_table(comparison, random, counts, len, 0)
}

/// Compares the program of an accepted plan, and its outputs with those of its fabric: on every row
/// of few inputs, otherwise on some.
fn compare_plan(
    comparison: &mut Comparison,
    random: &mut Random,
    plan: &Plan,
    tables: &Both<u16>,
) -> Outcome {
    let len = stated_length(plan) + random.choose(&[0, 0, 1, 7]);
    let programs = compare_program(comparison, random, plan, len)?;
    for row in rows(random, plan.inputs) {
        compare_outputs(comparison, plan, tables, &programs, &row)?;
    }
    comparison.count(Call::PlanInFabric, 0);
    Ok(())
}

fn rows(random: &mut Random, inputs: u16) -> Vec<Vec<u8>> {
    if inputs > FEW_INPUTS {
        return (0..4).map(|_| random.row(inputs.into())).collect();
    }
    let row = |r: u16| (0..inputs).map(|i| (r >> i & 1) as u8).collect();
    (0..1 << inputs).map(row).collect()
}

/// Compares a plan's outputs on a row, as the reference evaluates it, with what its fabric gives:
/// the library's run of the library's table and program, and of the reference's.
fn compare_outputs(
    comparison: &mut Comparison,
    plan: &Plan,
    tables: &Both<u16>,
    programs: &Both<u8>,
    row: &[u8],
) -> Outcome {
    let mut expected = vec![0; plan.output_count.into()];
    let evaluated = reference::plan::evaluate(plan, row, &mut expected);
    evaluated.expect("the plan and the row are accepted");
    let runs = [
        ("the library's", &tables.library, &programs.library),
        ("the reference's", &tables.reference, &programs.reference),
    ];
    for (whose, table, program) in runs {
        let mut work = vec![0xa5; wires(table)];
        let mut found = vec![0xa5; expected.len()];
        let answer = mukdalis::run_fabric(table, program, row, &mut work, &mut found);
        if answer.is_err() || found != expected {
            return Err(comparison.difference(&[
                ("plan", show_plan(plan)),
                ("row", hex(row)),
                ("evaluation", hex(&expected)),
                ("table and program", whose.to_string()),
                ("library's run", show_number(number(answer.err()))),
                ("gives", hex(&found)),
            ]));
        }
        comparison.count(Call::PlanRun, 0);
    }
    Ok(())
}

/// Every plan of one input with up to two gates, and of two inputs with one, and one output.
fn every_small_plan(comparison: &mut Comparison, random: &mut Random) -> Outcome {
    comparison.begin("every plan of (1,1,1), (2,1,1), (1,2,1)");
    for (u, k) in [(1, 1), (2, 1), (1, 2)] {
        let tables = tables_of(comparison, random, Counts(u, k, 1))?;
        for plan in every_plan(u, k) {
            compare_plan(comparison, random, &plan, &tables)?;
        }
    }
    Ok(())
}

/// A plan of every shape for these counts; some with anything in their unused places.
fn plans_of(comparison: &mut Comparison, random: &mut Random, counts: Counts) -> Outcome {
    let tables = tables_of(comparison, random, counts)?;
    for shape in PlanShape::ALL {
        let mut plan = shaped_plan(random, counts, shape);
        if random.one_in(2) {
            fill_unused(random, &mut plan);
        }
        compare_plan(comparison, random, &plan, &tables)?;
    }
    Ok(())
}

fn every_universal_size(comparison: &mut Comparison, random: &mut Random) -> Outcome {
    comparison.begin("plans of every shape, every K");
    for (size, times) in UNIVERSAL_SIZES.into_iter().zip(COUNTS_PER_SIZE) {
        for _ in 0..times {
            let Counts(u, _, v) = Counts::random(random);
            let k = gates_of(random, size) as u16;
            plans_of(comparison, random, Counts(u, k, v))?;
        }
    }
    Ok(())
}

fn every_gate_count(comparison: &mut Comparison, random: &mut Random) -> Outcome {
    comparison.begin("plans of every k");
    for k in 1..=Plan::MAX_GATES as u16 {
        let Counts(u, _, v) = Counts::random(random);
        let counts = Counts(u, k, v);
        let tables = tables_of(comparison, random, counts)?;
        let plan = accepted_plan(random, counts);
        compare_plan(comparison, random, &plan, &tables)?;
    }
    Ok(())
}

/// Every choice of counts at and beside their limits.
fn corners(comparison: &mut Comparison, random: &mut Random) -> Outcome {
    comparison.begin("plans of counts at their corners");
    for u in [1, 2, 63, 64] {
        for k in [1, 2, 3, 255, 256] {
            for v in [1, 2, 63, 64] {
                plans_of(comparison, random, Counts(u, k, v))?;
            }
        }
    }
    Ok(())
}

fn program_lengths(comparison: &mut Comparison, random: &mut Random) -> Outcome {
    comparison.begin("program buffers short to long");
    for _ in 0..40 {
        let counts = Counts::random(random);
        let plan = accepted_plan(random, counts);
        for len in buffer_lengths(stated_length(&plan)) {
            compare_program(comparison, random, &plan, len)?;
        }
    }
    Ok(())
}

/// Lengths of a buffer for a plan that may have faults: none, and room for every program.
const FAULTY_LENGTHS: [usize; 2] = [0, 5_000];

fn counts_at_limits(comparison: &mut Comparison, random: &mut Random) -> Outcome {
    comparison.begin("counts at their limits, in memory");
    for plan in plans_at_limits(random) {
        for len in FAULTY_LENGTHS {
            compare_program(comparison, random, &plan, len)?;
        }
    }
    Ok(())
}

fn faults(comparison: &mut Comparison, random: &mut Random) -> Outcome {
    comparison.begin("every fault, and every two");
    for counts in [Counts::LEAST, Counts(1, 2, 2), Counts(3, 5, 4)] {
        let plan = filled_plan(random, counts);
        for faulty in faulty_plans(&plan) {
            for len in FAULTY_LENGTHS {
                compare_program(comparison, random, &faulty, len)?;
            }
        }
    }
    Ok(())
}
