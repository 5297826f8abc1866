//! The permutation network P(N): its rows and output wires, and the program of a permutation.
//!
//! Lists of the calls name inputs from 1. Inside, inputs, outputs and pairs count from 0, so that
//! pair i has the places 2i and 2i + 1.

use std::{iter, mem};

use mukdalis::Fault;

use super::blocks::{self, check_length, MAX_SIZE};
use super::elements::{BitWriter, Drawing, Tally};

/// Writes the rows of P(n) on these input wires, which makes wires from `next` on, to `rows`, and
/// its output wires to `outputs`.
///
/// Entries past the stated lengths are unchanged, and a refusal changes none. Checks: 2, 12, 13, 11.
pub fn write(
    n: u32,
    inputs: &[u16],
    next: u32,
    rows: &mut [u16],
    outputs: &mut [u16],
) -> Result<(), Fault> {
    check_size(n)?;
    check_length(inputs, n)?;
    let draw = |drawing: &mut Drawing| {
        let mut wires = inputs.to_vec();
        draw(drawing, &mut wires, &mut inputs.to_vec());
        wires
    };
    blocks::write((tally(n as usize), n), draw, inputs, next, rows, outputs)
}

/// Writes the program of P(n) with which output i + 1 carries input `wanted[i]`, i from 0.
///
/// Bytes past the stated length are unchanged, and a refusal changes none. Checks: 2, 12, 9, 11.
pub fn program(n: u32, wanted: &[u16], program: &mut [u8]) -> Result<(), Fault> {
    check_size(n)?;
    check_length(wanted, n)?;
    if !is_each_once(wanted) {
        return Err(Fault::Source);
    }
    let mut bits = BitWriter::new(program, tally(n as usize).bits())?;
    let input_of = wanted.iter().map(|&input| usize::from(input) - 1);
    program_bits(input_of.collect(), &mut bits);
    Ok(())
}

/// 2 if n is no size of P.
fn check_size(n: u32) -> Result<(), Fault> {
    if !n.is_power_of_two() || n > MAX_SIZE {
        return Err(Fault::Inputs);
    }
    Ok(())
}

/// Whether the list has each of 1 to its length once.
fn is_each_once(list: &[u16]) -> bool {
    let mut is_met = vec![false; list.len() + 1];
    is_met[0] = true;
    list.iter().all(|&entry| {
        let met = is_met.get_mut(usize::from(entry));
        met.is_some_and(|met| !mem::replace(met, true))
    })
}

/// P(N) has N log N - N + 1 rows, all X.
pub fn tally(size: usize) -> Tally {
    Tally {
        x: size * size.ilog2() as usize + 1 - size,
        y: 0,
        g: 0,
    }
}

/// Draws P on a power of two of input wires, in whose places it leaves its output wires: the input
/// X rows, the upper and the lower P of half the size, the output X rows. The last output pair has
/// none. `work` is as long as `wires`; what it held and holds then is of no matter.
pub fn draw(drawing: &mut Drawing, wires: &mut [u16], work: &mut [u16]) {
    if let [first, second] = wires {
        [*first, *second] = drawing.x(*first, *second);
    }
    let half = wires.len() / 2;
    if half <= 1 {
        return;
    }
    let (upper, lower) = work.split_at_mut(half);
    for (i, pair) in wires.chunks_exact(2).enumerate() {
        [upper[i], lower[i]] = drawing.x(pair[0], pair[1]);
    }
    let (upper_work, lower_work) = wires.split_at_mut(half);
    draw(drawing, upper, upper_work);
    draw(drawing, lower, lower_work);

    let (joined, last) = wires.split_at_mut(2 * (half - 1));
    for (i, pair) in joined.chunks_exact_mut(2).enumerate() {
        [pair[0], pair[1]] = drawing.x(upper[i], lower[i]);
    }
    last.copy_from_slice(&[upper[half - 1], lower[half - 1]]);
}

/// Writes the bits of P's rows, in their order, with which output o carries input `input_of[o]`.
pub fn program_bits(mut input_of: Vec<usize>, bits: &mut BitWriter) {
    let mut work = input_of.clone();
    let mut is_crossed = vec![None; input_of.len()];
    program_block(&mut input_of, &mut work, &mut is_crossed, bits);
}

/// The same, where the mapping is used up. The two other lists are as long; what they held and hold
/// then is of no matter.
fn program_block(
    input_of: &mut [usize],
    work: &mut [usize],
    is_crossed: &mut [Option<bool>],
    bits: &mut BitWriter,
) {
    match input_of {
        [_] => return,
        // The one output pair is the last, and straight.
        [first, _] => return bits.push(*first == 1),
        _ => {}
    }
    let pairs = input_of.len() / 2;
    let (is_crossed, deeper) = is_crossed.split_at_mut(pairs);
    let output_of = &mut *work;
    for (output, &input) in input_of.iter().enumerate() {
        output_of[input] = output;
    }
    cross_pairs(input_of, output_of, is_crossed);

    // A straight row has its first input go to the upper half, or its first output come from it.
    for outputs in output_of.chunks_exact(2) {
        bits.push(is_lower(outputs[0], is_crossed));
    }
    // Place i of a half serves input pair i and output pair i.
    let (upper, lower) = work.split_at_mut(pairs);
    for (i, inputs) in input_of.chunks_exact(2).enumerate() {
        let [first, second] = [inputs[0] / 2, inputs[1] / 2];
        [upper[i], lower[i]] = match is_crossed[i] {
            Some(true) => [second, first],
            _ => [first, second],
        };
    }
    let (upper_work, lower_work) = input_of.split_at_mut(pairs);
    program_block(upper, upper_work, deeper, bits);
    program_block(lower, lower_work, deeper, bits);
    for is_crossed in &is_crossed[..pairs - 1] {
        bits.push(*is_crossed == Some(true));
    }
}

/// Decides which output pairs are crossed, that is, have their second output come from the upper
/// half. At every pair, of inputs or of outputs, the two values pass through different halves, so
/// one pair decides for its whole loop: the last pair, then in each other loop the lowest one.
fn cross_pairs(input_of: &[usize], output_of: &[usize], is_crossed: &mut [Option<bool>]) {
    is_crossed.fill(None);
    let last = is_crossed.len() - 1;
    for straight in iter::once(last).chain(0..last) {
        // The walk is on outputs of the upper half: to the output's input, across that input's
        // pair, back to an output of the lower half, across its pair.
        let mut output = 2 * straight;
        while is_crossed[output / 2].is_none() {
            is_crossed[output / 2] = Some(output % 2 == 1);
            output = partner(output_of[partner(input_of[output])]);
        }
    }
}

/// Whether the output comes from the lower half.
fn is_lower(output: usize, is_crossed: &[Option<bool>]) -> bool {
    let is_first = output % 2 != 1;
    is_crossed[output / 2] == Some(is_first)
}

/// The other place of the pair.
fn partner(place: usize) -> usize {
    place ^ 1
}

#[cfg(test)]
mod tests {
    use super::super::elements::{bit, no_gate, Wires};
    use super::*;
    use crate::random::Random;
    use crate::samples::blocks::{Block, SIZES};
    use crate::samples::permutation::{every_permutation, random_permutation};

    /// The bits of the program for a permutation.
    fn bits(wanted: &[u16]) -> Vec<u8> {
        let program = programmed(wanted);
        let rows = Block::P(wanted.len() as u32).rows() as usize;
        (0..rows).map(|p| bit(&program, p).into()).collect()
    }

    /// The program for a permutation, by the call.
    fn programmed(wanted: &[u16]) -> Vec<u8> {
        let n = wanted.len() as u32;
        let mut bytes = vec![0x5a; Block::P(n).program_bytes()];
        assert_eq!(program(n, wanted, &mut bytes), Ok(()));
        bytes
    }

    /// Rows and output wires of P(n) on the wires 1 to n.
    fn written(n: u32) -> (Vec<u16>, Vec<u16>) {
        let inputs: Vec<u16> = (1..=n as u16).collect();
        let mut rows = vec![9; 3 * Block::P(n).rows() as usize];
        let mut outputs = vec![9; n as usize];
        let answer = write(n, &inputs, n + 1, &mut rows, &mut outputs);
        assert_eq!(answer, Ok(()));
        (rows, outputs)
    }

    #[test]
    fn program_figures() {
        assert_eq!(bits(&[2, 1]), [1]);
        assert_eq!(bits(&[2, 1, 4, 3]), [1, 1, 0, 0, 0]);
        assert_eq!(bits(&[3, 1, 2, 4]), [1, 0, 1, 0, 0]);
        assert_eq!(programmed(&[2, 1]), [0x01]);
        assert_eq!(programmed(&[2, 1, 4, 3]), [0x03]);
        assert_eq!(programmed(&[3, 1, 2, 4]), [0x05]);
    }

    #[test]
    fn small_networks() {
        assert_eq!(written(1), (vec![], vec![1]));
        assert_eq!(written(2), (vec![1, 1, 2], vec![3, 4]));
        let rows = [[1, 1, 2], [1, 3, 4], [1, 5, 7], [1, 6, 8], [1, 9, 11]];
        assert_eq!(written(4), (rows.concat(), vec![13, 14, 10, 12]));
    }

    #[test]
    fn rows_and_wires_of_every_size() {
        for n in SIZES {
            let block = Block::P(n);
            let (mut wires, mut work) = (vec![0; n as usize], vec![9; n as usize]);
            let mut rows = vec![9; 3 * block.rows() as usize];
            let mut drawing = Drawing::new(&mut rows, 1);
            draw(&mut drawing, &mut wires, &mut work);
            assert_eq!(drawing.finish(), 1 + block.wires_made());

            let mut program = vec![9; block.program_bytes()];
            let mut bits = BitWriter::new(&mut program, block.rows() as usize).expect("room");
            program_bits((0..n as usize).collect(), &mut bits);
            assert_eq!(bits.written(), block.rows() as usize);
        }
    }

    /// Each output carries the number of the input that it wants.
    fn assert_delivers(network: &(Vec<u16>, Vec<u16>), wanted: &[u16]) {
        let (rows, outputs) = network;
        let numbers: Vec<u16> = (0..=wanted.len() as u16).collect();
        let wires = Wires::run(rows, &programmed(wanted), &numbers, no_gate);
        let delivered: Vec<u16> = outputs.iter().map(|&wire| wires.value(wire)).collect();
        assert_eq!(delivered, wanted);
    }

    #[test]
    fn every_permutation_of_few_is_delivered() {
        for n in [1, 2, 4, 8] {
            let network = written(n);
            for wanted in every_permutation(n) {
                assert_delivers(&network, &wanted);
            }
        }
    }

    #[test]
    fn permutations_of_every_size_are_delivered() {
        let mut random = Random::new(1);
        for n in SIZES {
            let network = written(n);
            for _ in 0..20 {
                assert_delivers(&network, &random_permutation(&mut random, n));
            }
        }
    }

    /// The lowest output pair of each output pair's loop, by joining pairs until nothing changes.
    fn lowest_in_loop(wanted: &[u16]) -> Vec<usize> {
        let pairs = wanted.len() / 2;
        let mut of_output: Vec<usize> = (0..pairs).collect();
        let mut of_input = vec![pairs; pairs];
        loop {
            let before = (of_output.clone(), of_input.clone());
            for (output, &input) in wanted.iter().enumerate() {
                let (output, input) = (output / 2, usize::from(input - 1) / 2);
                let lowest = of_output[output].min(of_input[input]);
                of_output[output] = lowest;
                of_input[input] = lowest;
            }
            if before == (of_output.clone(), of_input.clone()) {
                return of_output;
            }
        }
    }

    /// The last output pair has no bit, so it is straight. In a loop without it the lowest is.
    #[test]
    fn the_lowest_pair_of_a_loop_without_the_last_is_straight() {
        let mut random = Random::new(2);
        let mut lists = [every_permutation(4), every_permutation(8)].concat();
        for n in SIZES.into_iter().filter(|&n| n > 2) {
            lists.extend((0..50).map(|_| random_permutation(&mut random, n)));
        }
        for wanted in lists {
            let bits = bits(&wanted);
            let lowest = lowest_in_loop(&wanted);
            let last = lowest.len() - 1;
            for pair in 0..last {
                if lowest[pair] == pair && lowest[last] != pair {
                    assert_eq!(bits[bits.len() - last + pair], 0, "{wanted:?}");
                }
            }
        }
    }

    #[test]
    fn writing_checks_size_then_list_then_wires_then_buffers() {
        let (mut rows, mut outputs) = ([9; 15], [9; 4]);
        let mut answer = |n, inputs: &[u16], next, rows_len, outputs_len| {
            write(
                n,
                inputs,
                next,
                &mut rows[..rows_len],
                &mut outputs[..outputs_len],
            )
        };
        for n in [0, 3, 5, 1024, u32::MAX] {
            assert_eq!(answer(n, &[9], 0, 0, 0), Err(Fault::Inputs));
        }
        assert_eq!(answer(4, &[9, 9, 9], 0, 0, 0), Err(Fault::Contact));
        assert_eq!(answer(4, &[0; 4], 0, 0, 0), Err(Fault::Fabric));
        assert_eq!(answer(4, &[4, 5, 2, 1], 5, 0, 0), Err(Fault::Fabric));
        assert_eq!(answer(4, &[0; 4], 65_527, 0, 0), Err(Fault::Fabric));
        assert_eq!(answer(4, &[0; 4], u32::MAX, 0, 0), Err(Fault::Fabric));
        assert_eq!(answer(4, &[0; 4], 65_526, 14, 4), Err(Fault::Short));
        assert_eq!(answer(4, &[0; 4], 65_526, 15, 3), Err(Fault::Short));
        assert_eq!(answer(4, &[0; 4], 65_526, 15, 4), Ok(()));
    }

    /// P(1) makes no wire, so that no next wire is too high for it.
    #[test]
    fn a_single_wire_passes_no_limit() {
        for next in [8, 65_536, 65_537, u32::MAX] {
            let mut outputs = [9, 9];
            assert_eq!(write(1, &[7], next, &mut [], &mut outputs), Ok(()));
            assert_eq!(outputs, [7, 9]);
        }
        assert_eq!(write(1, &[0], 0, &mut [], &mut [9]), Err(Fault::Fabric));
    }

    #[test]
    fn programming_checks_size_then_list_then_inputs_then_buffer() {
        let mut bytes = [9; 3];
        assert_eq!(program(6, &[0], &mut []), Err(Fault::Inputs));
        assert_eq!(program(8, &[0], &mut []), Err(Fault::Contact));
        for wanted in [[0, 2], [3, 1], [2, 2], [65_535, 1]] {
            assert_eq!(program(2, &wanted, &mut []), Err(Fault::Source));
        }
        let wanted = [8, 7, 6, 5, 4, 3, 2, 1];
        assert_eq!(program(8, &wanted, &mut bytes[..2]), Err(Fault::Short));
        assert_eq!(bytes, [9; 3]);
        assert_eq!(program(8, &wanted, &mut bytes), Ok(()));
        assert_eq!(bytes[2] >> 1, 0, "17 bits leave seven spare ones");
        assert_eq!(program(1, &[1], &mut []), Ok(()));
    }
}
