//! Calls at and beside the limits of the sizes, the wires, the lists' lengths and the buffers'.

use mukdalis::Fault;

use super::super::buffer::buffer_lengths;
use super::super::{first_failing, Comparison, Outcome};
use super::{compare_programming, compare_writing};
use crate::random::Random;
use crate::samples::blocks::{plain_wanted, Block, Programming, Writing, MOST_WIRES, SIZES};

/// Calls for these blocks, whose sizes are in range.
pub fn compare(comparison: &mut Comparison, random: &mut Random, blocks: &[Block]) -> Outcome {
    list_lengths(comparison, random, blocks)?;
    next_wires(comparison, random, blocks)?;
    input_wires(comparison, random, blocks)?;
    row_and_output_lengths(comparison, random, blocks)?;
    program_lengths(comparison, random, blocks)
}

/// The numbers up to `reach` away from a limit.
fn beside(limit: u32, reach: u32) -> impl Iterator<Item = u32> {
    limit.saturating_sub(reach)..=limit.saturating_add(reach)
}

/// Sizes beside every power of two, and some of which one half is good.
pub fn tried_sizes() -> Vec<u32> {
    let mut sizes = vec![0];
    sizes.extend((0..u32::BITS).flat_map(|bit| beside(1 << bit, 1)));
    sizes.extend(beside(u32::MAX, 2));
    sizes.extend(SIZES.map(|size| size | 1 << 16));
    sizes.extend(SIZES.map(|size| size << 16));
    sizes.extend(SIZES.map(u32::wrapping_neg));
    sizes
}

/// A block of any sizes, whose checks are `checks`, with lists of their lengths, of their low bits
/// or none, and buffers that have room for the largest network or for nothing.
pub fn sizes(
    comparison: &mut Comparison,
    random: &mut Random,
    block: Block,
    checks: &[(Fault, bool)],
) -> Outcome {
    let largest = Block::S(512, 512);
    let [of_inputs, of_outputs] = [block.inputs(), block.outputs()]
        .map(|size| [size.min(1_100) as u16, size as u16 % 1_024, 0]);
    for (inputs_len, wanted_len) in of_inputs.into_iter().zip(of_outputs) {
        for has_room in [false, true] {
            let room = |room: u32| if has_room { room as usize } else { 0 };
            let writing = Writing {
                block,
                inputs: (0..inputs_len).collect(),
                next: 1_100,
                rows_len: room(3 * largest.rows()),
                outputs_len: room(largest.outputs()),
            };
            let programming = Programming {
                block,
                wanted: plain_wanted(block, wanted_len.into()),
                program_len: room(largest.rows()),
            };
            let length = (Fault::Contact, u32::from(inputs_len) != block.inputs());
            let short = (Fault::Short, !has_room);
            let due = first_failing(&[checks, &[length, short]].concat());
            compare_writing(comparison, random, &writing, due)?;
            let length = (Fault::Contact, u32::from(wanted_len) != block.outputs());
            let has_bits = block.inputs().max(block.outputs()) > 1;
            let short = (Fault::Short, !has_room && has_bits);
            let due = first_failing(&[checks, &[length, short]].concat());
            compare_programming(comparison, random, &programming, due)?;
        }
    }
    Ok(())
}

/// Lists of other lengths, among them other sizes and some whose low bits are the size.
fn list_lengths(comparison: &mut Comparison, random: &mut Random, blocks: &[Block]) -> Outcome {
    comparison.begin("lists of other lengths");
    for &block in blocks {
        for len in tried_lengths(block) {
            let length = (Fault::Contact, len != block.inputs());
            let mut writing = Writing::sound(random, block);
            writing.inputs.resize(len as usize, 0);
            compare_writing(comparison, random, &writing, first_failing(&[length]))?;
            let length = (Fault::Contact, len != block.outputs());
            let mut programming = Programming::sound(random, block);
            programming.wanted.resize(len as usize, 1);
            compare_programming(comparison, random, &programming, first_failing(&[length]))?;
        }
    }
    Ok(())
}

fn tried_lengths(block: Block) -> Vec<u32> {
    let mut lens = vec![0, block.network_size()];
    for size in [block.inputs(), block.outputs()] {
        lens.extend(beside(size, 1));
        lens.extend([size + (1 << 8), size + (1 << 16)]);
    }
    lens.extend(SIZES);
    lens
}

/// Next wires from 0 on, beside the last one that leaves room, beside those where a wire passes
/// 16 or 32 bits, and some whose low 16 bits would leave room.
fn next_wires(comparison: &mut Comparison, random: &mut Random, blocks: &[Block]) -> Outcome {
    comparison.begin("next wire at and beside its limits");
    for &block in blocks {
        let size = block.inputs();
        let mut nexts = vec![size, size + 1, MOST_WIRES + size + 1, 1 << 17, 1 << 31];
        for limit in [
            0,
            block.last_next(),
            MOST_WIRES,
            u32::MAX - block.wires_made(),
            u32::MAX,
        ] {
            nexts.extend(beside(limit, 12));
        }
        for next in nexts {
            let mut writing = Writing::with_next(random, block, next.max(1));
            writing.next = next;
            let room = (Fault::Fabric, next == 0 || next > block.last_next());
            compare_writing(comparison, random, &writing, first_failing(&[room]))?;
            writing.outputs_len -= 1;
            let due = first_failing(&[room, (Fault::Short, true)]);
            compare_writing(comparison, random, &writing, due)?;
        }
    }
    Ok(())
}

/// One input wire at or beside the limits of made wires, at every place of small lists and at
/// some of others.
fn input_wires(comparison: &mut Comparison, random: &mut Random, blocks: &[Block]) -> Outcome {
    comparison.begin("input wires at and beside their limits");
    for &block in blocks {
        let size = block.inputs();
        for _ in 0..20 {
            let sound = Writing::sound(random, block);
            let any = random.between(0, size as u16 - 1).into();
            let mut places = vec![0, 1, size / 2, any, size - 1];
            if size <= 16 {
                places = (0..size).collect();
            }
            let wires = beside(sound.next, 2).chain([0, 1, MOST_WIRES - 1]);
            for wire in wires.filter(|&wire| wire < MOST_WIRES) {
                for &place in &places {
                    let mut writing = sound.clone();
                    writing.inputs[place as usize] = wire as u16;
                    let due = first_failing(&[(Fault::Fabric, wire >= sound.next)]);
                    compare_writing(comparison, random, &writing, due)?;
                }
            }
        }
    }
    Ok(())
}

fn row_and_output_lengths(
    comparison: &mut Comparison,
    random: &mut Random,
    blocks: &[Block],
) -> Outcome {
    comparison.begin("row and output buffers short to long");
    for &block in blocks {
        let sound = Writing::sound(random, block);
        for rows_len in buffer_lengths(sound.rows_len) {
            for outputs_len in buffer_lengths(sound.outputs_len) {
                let mut writing = Writing::sound(random, block);
                writing.rows_len = rows_len;
                writing.outputs_len = outputs_len;
                let is_short = rows_len < sound.rows_len || outputs_len < sound.outputs_len;
                let due = first_failing(&[(Fault::Short, is_short)]);
                compare_writing(comparison, random, &writing, due)?;
            }
        }
    }
    Ok(())
}

fn program_lengths(comparison: &mut Comparison, random: &mut Random, blocks: &[Block]) -> Outcome {
    comparison.begin("program buffers short to long");
    for &block in blocks {
        for _ in 0..10 {
            let sound = Programming::sound(random, block);
            for program_len in buffer_lengths(sound.program_len) {
                let is_short = program_len < sound.program_len;
                let mut programming = sound.clone();
                programming.program_len = program_len;
                let due = first_failing(&[(Fault::Short, is_short)]);
                compare_programming(comparison, random, &programming, due)?;
            }
        }
    }
    Ok(())
}
