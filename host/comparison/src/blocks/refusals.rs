//! Every choice of checks that fail at once.

use mukdalis::Fault;

use super::super::buffer::shorter;
use super::super::{first_failing, Comparison, Outcome};
use super::{compare_programming, compare_writing};
use crate::random::Random;
use crate::samples::blocks::{plain_wanted, Block, Programming, Writing, MOST_WIRES};

/// Which checks of a call fail.
#[derive(Clone, Copy)]
struct Failing {
    inputs: bool,
    outputs: bool,
    length: bool,
    entry: bool,
    room: bool,
}

impl Failing {
    /// The choices for a block; P has no check of its outputs.
    fn choices(block: Block) -> Vec<Failing> {
        let mut choices = Vec::new();
        for choice in 0..1 << 5 {
            let [inputs, outputs, length, entry, room] =
                [0, 1, 2, 3, 4].map(|check| choice >> check & 1 == 1);
            if !outputs || matches!(block, Block::S(..)) {
                choices.push(Failing {
                    inputs,
                    outputs,
                    length,
                    entry,
                    room,
                });
            }
        }
        choices
    }

    /// The number that is due: `entry` is the fault of a bad entry of the list.
    fn due(self, entry: Fault) -> u32 {
        first_failing(&[
            (Fault::Inputs, self.inputs),
            (Fault::Outputs, self.outputs),
            (Fault::Contact, self.length),
            (entry, self.entry),
            (Fault::Short, self.room),
        ])
    }
}

/// Calls for these blocks in which any of the checks fail, so many times, each in some way.
pub fn compare(
    comparison: &mut Comparison,
    random: &mut Random,
    blocks: &[Block],
    times: u32,
) -> Outcome {
    comparison.begin("every choice of failing checks");
    for &block in blocks {
        for failing in Failing::choices(block) {
            for _ in 0..times {
                fail(comparison, random, block, failing)?;
            }
        }
    }
    Ok(())
}

fn fail(
    comparison: &mut Comparison,
    random: &mut Random,
    block: Block,
    failing: Failing,
) -> Outcome {
    let mut writing = Writing::sound(random, block);
    let mut programming = Programming::sound(random, block);
    let mut spoilt = block;
    if failing.inputs {
        spoilt = spoil_inputs(random, spoilt);
    }
    if failing.outputs {
        spoilt = spoil_outputs(random, spoilt);
    }
    if failing.inputs || failing.outputs {
        replace_block(&mut writing, &mut programming, spoilt);
    }
    if failing.length {
        spoil_length(random, spoilt.inputs(), &mut writing.inputs);
        spoil_length(random, spoilt.outputs(), &mut programming.wanted);
    }
    if failing.entry {
        spoil_wires(random, block.last_next(), &mut writing);
        spoil_wanted(random, &mut programming);
    }
    if failing.room {
        spoil_writing_room(random, &mut writing);
        programming.program_len = shorter(random, programming.program_len);
    }
    compare_writing(comparison, random, &writing, failing.due(Fault::Fabric))?;
    // P(1) and S(1, 1) have no program bits, so that every buffer is long enough.
    if block.rows() > 0 || !failing.room {
        let due = failing.due(Fault::Source);
        compare_programming(comparison, random, &programming, due)?;
    }
    Ok(())
}

/// The block with a number of inputs, of P with a size, that it cannot have.
fn spoil_inputs(random: &mut Random, block: Block) -> Block {
    match block {
        Block::P(n) => {
            let sizes = [0, 3, 3 * n, 511, 1_024, n + (1 << 16), u32::MAX];
            Block::P(random.choose(&sizes))
        }
        Block::S(m, n) => Block::S(bad_size(random, m), n),
    }
}

/// S with a number of outputs that it cannot have.
fn spoil_outputs(random: &mut Random, block: Block) -> Block {
    match block {
        Block::P(_) => block,
        Block::S(m, n) => Block::S(m, bad_size(random, n)),
    }
}

/// A number that S cannot have; some have low bits that it can.
fn bad_size(random: &mut Random, size: u32) -> u32 {
    random.choose(&[0, 513, 514, 1_024, size + 512, size + (1 << 16), u32::MAX])
}

/// Gives the calls another block, with lists of its lengths unless these are very long.
fn replace_block(writing: &mut Writing, programming: &mut Programming, block: Block) {
    writing.block = block;
    programming.block = block;
    if block.inputs() <= 3 * 512 {
        writing.inputs.resize(block.inputs() as usize, 0);
    }
    if block.outputs() <= 3 * 512 {
        programming.wanted = plain_wanted(block, block.outputs() as usize);
    }
}

/// Gives the list another length than n.
fn spoil_length(random: &mut Random, n: u32, list: &mut Vec<u16>) {
    let len = list.len();
    let mut lens = vec![0, len.saturating_sub(1), len + 1, 2 * len, len + 256];
    lens.retain(|&other| other != n as usize);
    let filler = list.first().copied().unwrap_or(1);
    list.resize(random.choose(&lens), filler);
}

/// Makes an input wire unmade, or the next wire 0 or too high.
fn spoil_wires(random: &mut Random, last_next: u32, writing: &mut Writing) {
    let Writing { inputs, next, .. } = writing;
    if random.one_in(2) && !inputs.is_empty() && *next < MOST_WIRES {
        let place = random.between(0, inputs.len() as u16 - 1);
        let lowest = *next as u16;
        let unmade = random.between(lowest, u16::MAX);
        inputs[usize::from(place)] = random.choose(&[lowest, unmade, u16::MAX]);
    } else if random.one_in(2) && last_next < MOST_WIRES {
        let any = random.word() as u32;
        let past = last_next + 1;
        *next = random.choose(&[past, MOST_WIRES, any.max(past), u32::MAX]);
    } else {
        *next = 0;
    }
}

/// Makes a wanted input 0 or too high, or in P that of another place.
pub fn spoil_wanted(random: &mut Random, programming: &mut Programming) {
    let Programming { block, wanted, .. } = programming;
    let mut places: Vec<usize> = (0..wanted.len()).collect();
    random.shuffle(&mut places);
    let Some((&place, others)) = places.split_first() else {
        return;
    };
    let most = block.inputs().min(u32::from(u16::MAX) - 1) as u16;
    let above = random.between(most + 1, u16::MAX);
    let mut entries = vec![0, most + 1, above, most | 1 << 15, u16::MAX];
    if let (Block::P(_), Some(&other)) = (*block, others.first()) {
        entries.extend([wanted[other]; 5]);
    }
    wanted[place] = random.choose(&entries);
}

/// Makes the row buffer, the output buffer or both too short.
fn spoil_writing_room(random: &mut Random, writing: &mut Writing) {
    let rows_len = shorter(random, writing.rows_len);
    let outputs_len = shorter(random, writing.outputs_len);
    match random.between(1, 3) {
        1 if writing.rows_len > 0 => writing.rows_len = rows_len,
        2 => (writing.rows_len, writing.outputs_len) = (rows_len, outputs_len),
        _ => writing.outputs_len = outputs_len,
    }
}
