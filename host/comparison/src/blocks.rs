//! The block library: the writing and the programming of P and of S, and what both together
//! deliver.

mod limits;
mod permutation;
mod refusals;
mod selection;

use super::buffer::Buffer;
use super::show::{show_number, show_programming, show_writing};
use super::{number, Call, Comparison, Difference, Outcome};
use crate::random::Random;
use crate::reference;
use crate::reference::elements::{no_gate, Wires};
use crate::samples::blocks::{Block, Programming, Writing, MOST_WIRES};

pub fn compare(comparison: &mut Comparison, random: &mut Random) -> Outcome {
    let values: Vec<u64> = (0..MOST_WIRES).map(|_| random.word()).collect();
    permutation::compare(comparison, random, &values)?;
    selection::compare(comparison, random, &values)
}

/// The calls that write and program a block, and its delivery.
fn calls(block: Block) -> [Call; 3] {
    match block {
        Block::P(_) => [
            Call::PermutationWriting,
            Call::PermutationProgramming,
            Call::PermutationDelivery,
        ],
        Block::S(..) => [
            Call::SelectionWriting,
            Call::SelectionProgramming,
            Call::SelectionDelivery,
        ],
    }
}

/// Rows and output wires that the library wrote; none where it refused.
struct Written {
    rows: Vec<u16>,
    outputs: Vec<u16>,
}

/// The numbers with which reference and library answer a writing.
fn write_both(case: &Writing, rows: &mut Buffer<u16>, outputs: &mut Buffer<u16>) -> [u32; 2] {
    let (inputs, next) = (&case.inputs, case.next);
    let (to_rows, to_outputs) = (rows.expected(), outputs.expected());
    let answer = match case.block {
        Block::P(n) => reference::permutation::write(n, inputs, next, to_rows, to_outputs),
        Block::S(m, n) => reference::selection::write(m, n, inputs, next, to_rows, to_outputs),
    };
    let (to_rows, to_outputs) = (rows.found(), outputs.found());
    let found = match case.block {
        Block::P(n) => mukdalis::write_permutation(n, inputs, next, to_rows, to_outputs),
        Block::S(m, n) => mukdalis::write_selection(m, n, inputs, next, to_rows, to_outputs),
    };
    [answer, found].map(|answer| number(answer.err()))
}

/// The numbers with which reference and library answer a programming.
fn program_both(case: &Programming, program: &mut Buffer<u8>) -> [u32; 2] {
    let wanted = &case.wanted;
    let answer = match case.block {
        Block::P(n) => reference::permutation::program(n, wanted, program.expected()),
        Block::S(m, n) => reference::selection::program(m, n, wanted, program.expected()),
    };
    let found = match case.block {
        Block::P(n) => mukdalis::program_permutation(n, wanted, program.found()),
        Block::S(m, n) => mukdalis::program_selection(m, n, wanted, program.found()),
    };
    [answer, found].map(|answer| number(answer.err()))
}

/// Compares a writing whose answer is to be `due`, and gives what the library wrote.
fn compare_writing(
    comparison: &mut Comparison,
    random: &mut Random,
    case: &Writing,
    due: u32,
) -> Result<Written, Difference> {
    let block = case.block;
    let mut rows = Buffer::new(case.rows_len, || random.word() as u16);
    let mut outputs = Buffer::new(case.outputs_len, || random.word() as u16);
    let [expected, found] = write_both(case, &mut rows, &mut outputs);

    let (row_entries, output_wires) = match due {
        0 => (3 * block.rows() as usize, block.outputs() as usize),
        _ => (0, 0),
    };
    let answers_agree = expected == due && found == due;
    if !answers_agree || !rows.agrees(row_entries) || !outputs.agrees(output_wires) {
        return Err(comparison.difference(&[
            ("writing", show_writing(case)),
            ("due", show_number(due)),
            ("reference", show_number(expected)),
            ("library", show_number(found)),
            ("rows", rows.show(row_entries)),
            ("outputs", outputs.show(output_wires)),
        ]));
    }
    let [writing, _, _] = calls(block);
    comparison.count(writing, due);
    Ok(Written {
        rows: rows.into_written(row_entries),
        outputs: outputs.into_written(output_wires),
    })
}

/// Compares a programming whose answer is to be `due`, and gives what the library wrote.
fn compare_programming(
    comparison: &mut Comparison,
    random: &mut Random,
    case: &Programming,
    due: u32,
) -> Result<Vec<u8>, Difference> {
    let mut program = Buffer::new(case.program_len, || random.byte());
    let [expected, found] = program_both(case, &mut program);

    let bytes = match due {
        0 => case.block.program_bytes(),
        _ => 0,
    };
    let answers_agree = expected == due && found == due;
    if !answers_agree || !program.agrees(bytes) {
        return Err(comparison.difference(&[
            ("programming", show_programming(case)),
            ("due", show_number(due)),
            ("reference", show_number(expected)),
            ("library", show_number(found)),
            ("program", program.show(bytes)),
        ]));
    }
    let [_, programming, _] = calls(case.block);
    comparison.count(programming, due);
    Ok(program.into_written(bytes))
}

/// Compares a sound writing and a sound programming, runs what the library wrote on wires of
/// these values, and compares what the outputs carry with what the wanted inputs do.
fn compare_delivery(
    comparison: &mut Comparison,
    random: &mut Random,
    writing: &Writing,
    programming: &Programming,
    values: &[u64],
) -> Outcome {
    let Written { rows, outputs } = compare_writing(comparison, random, writing, 0)?;
    let program = compare_programming(comparison, random, programming, 0)?;
    let before = &values[..writing.next.min(MOST_WIRES) as usize];
    let wires = Wires::run(&rows, &program, before, no_gate);
    for (i, (&output, &input)) in outputs.iter().zip(&programming.wanted).enumerate() {
        let wanted = writing.inputs[usize::from(input) - 1];
        if wires.value(output) != wires.value(wanted) {
            return Err(comparison.difference(&[
                ("writing", show_writing(writing)),
                ("programming", show_programming(programming)),
                (
                    "both deliver",
                    format!("something else to output {}", i + 1),
                ),
            ]));
        }
    }
    let [_, _, delivery] = calls(writing.block);
    comparison.count(delivery, 0);
    Ok(())
}

/// Delivers the wanted inputs over random input wires, into buffers that may be longer.
fn deliver(
    comparison: &mut Comparison,
    random: &mut Random,
    block: Block,
    wanted: &[u16],
    values: &[u64],
) -> Outcome {
    let mut writing = Writing::sound(random, block);
    let mut programming = Programming::of(block, wanted);
    for len in [
        &mut writing.rows_len,
        &mut writing.outputs_len,
        &mut programming.program_len,
    ] {
        *len += random.choose(&[0, 0, 1, 7]);
    }
    compare_delivery(comparison, random, &writing, &programming, values)
}
