//! The selection network S(m, n): its rows and output wires, and the program of wanted inputs.
//!
//! Lists of the calls name inputs from 1. Inside, inputs, outputs and positions count from 0, so
//! that a head's position is the sum of the counts before it.

use mukdalis::Fault;

use super::blocks::{self, check_length, MAX_SIZE};
use super::elements::{BitWriter, Drawing, Tally, ZERO_WIRE};
use super::permutation;

/// Writes the rows of S(m, n) on these input wires, which makes wires from `next` on, to `rows`,
/// and its output wires to `outputs`.
///
/// Entries past the stated lengths are unchanged, and a refusal changes none. Checks: 2, 4, 12,
/// 13, 11.
pub fn write(
    m: u32,
    n: u32,
    inputs: &[u16],
    next: u32,
    rows: &mut [u16],
    outputs: &mut [u16],
) -> Result<(), Fault> {
    check_sizes(m, n)?;
    check_length(inputs, m)?;
    let tally = tally(m as usize, n as usize);
    let draw = |drawing: &mut Drawing| draw(drawing, inputs, n as usize);
    blocks::write((tally, n), draw, inputs, next, rows, outputs)
}

/// Writes the program of S(m, n) with which output i + 1 carries input `wanted[i]`, i from 0.
///
/// Bytes past the stated length are unchanged, and a refusal changes none. Checks: 2, 4, 12, 9, 11.
pub fn program(m: u32, n: u32, wanted: &[u16], program: &mut [u8]) -> Result<(), Fault> {
    check_sizes(m, n)?;
    check_length(wanted, n)?;
    if !wanted.iter().all(|&input| (1..=m).contains(&input.into())) {
        return Err(Fault::Source);
    }
    let mut bits = BitWriter::new(program, tally(m as usize, n as usize).bits())?;
    let wanted: Vec<usize> = wanted.iter().map(|&input| usize::from(input) - 1).collect();
    program_bits(m as usize, &wanted, &mut bits);
    Ok(())
}

/// 2 if m is no number of inputs, then 4 if n is no number of outputs.
fn check_sizes(m: u32, n: u32) -> Result<(), Fault> {
    if !(1..=MAX_SIZE).contains(&m) {
        return Err(Fault::Inputs);
    }
    if !(1..=MAX_SIZE).contains(&n) {
        return Err(Fault::Outputs);
    }
    Ok(())
}

/// N: the smallest power of two not below both.
fn network_size(m: usize, n: usize) -> usize {
    m.max(n).next_power_of_two()
}

/// S(m, n) has two P(N) and the chain of N - 1 rows Y.
pub fn tally(m: usize, n: usize) -> Tally {
    let size = network_size(m, n);
    let network = permutation::tally(size);
    let chain = Tally {
        x: 0,
        y: size - 1,
        g: 0,
    };
    network.and(chain).and(network)
}

/// Draws S on these input wires and gives its n output wires: a P on the inputs and as many
/// dummies as are needed, the chain of Y rows, a P on the chain.
pub fn draw(drawing: &mut Drawing, inputs: &[u16], n: usize) -> Vec<u16> {
    let size = network_size(inputs.len(), n);
    let mut wires = vec![ZERO_WIRE; size];
    let mut work = vec![ZERO_WIRE; size];
    wires[..inputs.len()].copy_from_slice(inputs);
    permutation::draw(drawing, &mut wires, &mut work);
    for i in 1..size {
        wires[i] = drawing.y(wires[i - 1], wires[i]);
    }
    permutation::draw(drawing, &mut wires, &mut work);
    wires.truncate(n);
    wires
}

/// Writes the bits of S's rows, in their order, with which output o carries input `wanted[o]`.
pub fn program_bits(m: usize, wanted: &[usize], bits: &mut BitWriter) {
    let positions = Positions::new(m, wanted);
    permutation::program_bits(positions.input_at, bits);
    for &is_head in &positions.is_head[1..] {
        bits.push(is_head);
    }
    permutation::program_bits(positions.of_output, bits);
}

/// What the two networks do: the first brings an input to each position, the second gives each
/// output one. The chain begins anew at a head.
struct Positions {
    input_at: Vec<usize>,
    is_head: Vec<bool>,
    of_output: Vec<usize>,
}

impl Positions {
    /// Input j, if c(j) outputs want it, has the c(j) positions behind those of the inputs before
    /// it: the first is its head, and its outputs have them as they come. Inputs that none wants,
    /// dummies included, fill the positions without a head.
    fn new(m: usize, wanted: &[usize]) -> Positions {
        let size = network_size(m, wanted.len());
        let mut counts = vec![0; size];
        for &input in wanted {
            counts[input] += 1;
        }
        let mut input_at = vec![0; size];
        let mut is_head = vec![false; size];
        let mut next_of = vec![0; size];
        let mut next = 0;
        for (input, &count) in counts.iter().enumerate() {
            next_of[input] = next;
            if count > 0 {
                input_at[next] = input;
                is_head[next] = true;
            }
            next += count;
        }
        let idle = (0..size).filter(|&input| counts[input] == 0);
        let others = (0..size).filter(|&position| !is_head[position]);
        for (position, input) in others.zip(idle) {
            input_at[position] = input;
        }
        let mut of_output: Vec<usize> = (0..size).collect();
        for (position, &input) in of_output.iter_mut().zip(wanted) {
            *position = next_of[input];
            next_of[input] += 1;
        }
        Positions {
            input_at,
            is_head,
            of_output,
        }
    }
}

#[cfg(test)]
mod tests {
    use super::super::elements::{bit, no_gate, Wires};
    use super::*;
    use crate::random::Random;
    use crate::samples::blocks::Block;
    use crate::samples::selection::{every_selection, random_wanted, CORNERS};

    /// The bits of the program for wanted inputs that count from 1.
    fn bits(m: u32, wanted: &[u16]) -> Vec<u8> {
        let block = Block::S(m, wanted.len() as u32);
        let program = programmed(m, wanted);
        let rows = block.rows() as usize;
        (0..rows).map(|p| bit(&program, p).into()).collect()
    }

    /// The program for wanted inputs, by the call.
    fn programmed(m: u32, wanted: &[u16]) -> Vec<u8> {
        let n = wanted.len() as u32;
        let mut bytes = vec![0x5a; Block::S(m, n).program_bytes()];
        assert_eq!(program(m, n, wanted, &mut bytes), Ok(()));
        bytes
    }

    /// Rows and output wires of S(m, n) on the wires 1 to m.
    fn written(m: u32, n: u32) -> (Vec<u16>, Vec<u16>) {
        let inputs: Vec<u16> = (1..=m as u16).collect();
        let mut rows = vec![9; 3 * Block::S(m, n).rows() as usize];
        let mut outputs = vec![9; n as usize];
        let answer = write(m, n, &inputs, m + 1, &mut rows, &mut outputs);
        assert_eq!(answer, Ok(()));
        (rows, outputs)
    }

    #[test]
    fn program_figures() {
        assert_eq!(bits(2, &[2, 2]), [1, 0, 0]);
        assert_eq!(bits(2, &[2, 1]), [0, 1, 1]);
    }

    #[test]
    fn small_networks() {
        assert_eq!(written(1, 1), (vec![], vec![1]));
        let rows = [[1, 1, 0], [2, 2, 3], [1, 2, 4]];
        assert_eq!(written(1, 2), (rows.concat(), vec![5, 6]));
        let rows = [[1, 1, 2], [2, 3, 4], [1, 3, 5]];
        assert_eq!(written(2, 1), (rows.concat(), vec![6]));
        assert_eq!(written(2, 2), (rows.concat(), vec![6, 7]));
    }

    /// S(3, 4) has the dummy 4 and S(4, 3) an output past n; both have inputs that none wants.
    #[test]
    fn positions_by_hand() {
        let positions = |m, wanted: &[usize]| {
            let positions = Positions::new(m, wanted);
            (positions.input_at, positions.is_head, positions.of_output)
        };
        let heads = vec![true, true, false, false];
        let expected = (vec![0, 2, 1, 3], heads.clone(), vec![1, 0, 2, 3]);
        assert_eq!(positions(3, &[2, 0, 2, 2]), expected);
        let expected = (vec![1, 3, 0, 2], heads, vec![1, 0, 2, 3]);
        assert_eq!(positions(4, &[3, 1, 3]), expected);
    }

    #[test]
    fn rows_and_wires_of_every_size() {
        for (m, n) in CORNERS {
            let block = Block::S(m, n);
            let mut rows = vec![9; 3 * block.rows() as usize];
            let mut drawing = Drawing::new(&mut rows, 1);
            let outputs = draw(&mut drawing, &vec![0; m as usize], n as usize);
            assert_eq!(outputs.len(), n as usize);
            assert_eq!(drawing.finish(), 1 + block.wires_made());

            let mut program = vec![9; block.program_bytes()];
            let mut bits = BitWriter::new(&mut program, block.rows() as usize).expect("room");
            program_bits(m as usize, &vec![0; n as usize], &mut bits);
            assert_eq!(bits.written(), block.rows() as usize);
        }
    }

    /// Each output carries the number of the input that it wants.
    fn assert_delivers(m: u32, wanted: &[u16]) {
        let n = wanted.len() as u32;
        let (rows, outputs) = written(m, n);
        let numbers: Vec<u16> = (0..=m as u16).collect();
        let wires = Wires::run(&rows, &programmed(m, wanted), &numbers, no_gate);
        let delivered: Vec<u16> = outputs.iter().map(|&wire| wires.value(wire)).collect();
        assert_eq!(delivered, wanted);
    }

    #[test]
    fn every_selection_of_few_is_delivered() {
        for m in 1..=4 {
            for n in 1..=4 {
                for wanted in every_selection(m, n) {
                    assert_delivers(m, &wanted);
                }
            }
        }
    }

    #[test]
    fn selections_of_every_size_are_delivered() {
        let mut random = Random::new(1);
        for (m, n) in CORNERS {
            for _ in 0..10 {
                assert_delivers(m, &random_wanted(&mut random, m, n));
            }
        }
    }

    #[test]
    fn writing_checks_sizes_then_list_then_wires_then_buffers() {
        let (mut rows, mut outputs) = ([9; 39], [9; 3]);
        let mut answer = |m, n, inputs: &[u16], next, rows_len, outputs_len| {
            write(
                m,
                n,
                inputs,
                next,
                &mut rows[..rows_len],
                &mut outputs[..outputs_len],
            )
        };
        for size in [0, 513, 65_537, u32::MAX] {
            assert_eq!(answer(size, 0, &[9], 0, 0, 0), Err(Fault::Inputs));
            assert_eq!(answer(2, size, &[9], 0, 0, 0), Err(Fault::Outputs));
        }
        assert_eq!(answer(2, 3, &[9, 9, 9], 0, 0, 0), Err(Fault::Contact));
        assert_eq!(answer(2, 3, &[0, 0], 0, 0, 0), Err(Fault::Fabric));
        assert_eq!(answer(2, 3, &[1, 2], 2, 0, 0), Err(Fault::Fabric));
        assert_eq!(answer(2, 3, &[0, 0], 65_514, 0, 0), Err(Fault::Fabric));
        assert_eq!(answer(2, 3, &[0, 0], u32::MAX, 0, 0), Err(Fault::Fabric));
        assert_eq!(answer(2, 3, &[0, 0], 65_513, 38, 3), Err(Fault::Short));
        assert_eq!(answer(2, 3, &[0, 0], 65_513, 39, 2), Err(Fault::Short));
        assert_eq!(answer(2, 3, &[0, 0], 65_513, 39, 3), Ok(()));
        assert_eq!(outputs, [65_534, 65_535, 65_531]);
    }

    /// S(1, 1) makes no wire, so that no next wire is too high for it.
    #[test]
    fn a_single_wire_passes_no_limit() {
        for next in [8, 65_536, u32::MAX] {
            let mut outputs = [9, 9];
            assert_eq!(write(1, 1, &[7], next, &mut [], &mut outputs), Ok(()));
            assert_eq!(outputs, [7, 9]);
        }
        assert_eq!(write(1, 1, &[0], 0, &mut [], &mut [9]), Err(Fault::Fabric));
    }

    #[test]
    fn programming_checks_sizes_then_list_then_inputs_then_buffer() {
        let mut bytes = [9; 3];
        for size in [0, 513, 65_537, u32::MAX] {
            assert_eq!(program(size, 0, &[0], &mut []), Err(Fault::Inputs));
            assert_eq!(program(2, size, &[0], &mut []), Err(Fault::Outputs));
        }
        assert_eq!(program(3, 2, &[0, 0, 0], &mut []), Err(Fault::Contact));
        for wanted in [[0, 2], [4, 1], [1, 65_535]] {
            assert_eq!(program(3, 2, &wanted, &mut []), Err(Fault::Source));
        }
        let short = program(3, 2, &[3, 3], &mut bytes[..1]);
        assert_eq!(short, Err(Fault::Short));
        assert_eq!(bytes, [9; 3]);
        assert_eq!(program(3, 2, &[3, 3], &mut bytes), Ok(()));
        assert_eq!(bytes[1] >> 5, 0, "13 bits leave three spare ones");
        assert_eq!(bytes[2], 9);
        assert_eq!(program(1, 1, &[1], &mut []), Ok(()));
    }
}
