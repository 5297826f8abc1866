//! A plan's program: bits are gathered in a word, and a level of P walks its loops once.

use mukdalis::{Fault, Plan};

use super::selection_level;
use crate::reference::fabric::count;
use crate::reference::plan::fault;

/// The most places of P.
const PLACES: usize = 512;

/// Writes the plan's program bits. Checks: plan faults, 11.
pub fn write(plan: &Plan, program: &mut [u8]) -> Result<(), Fault> {
    if let Some(fault) = fault(plan) {
        return Err(fault);
    }
    let [u, k, v] = [plan.inputs, plan.gate_count, plan.output_count].map(u32::from);
    let size = count(u, k, v)?;
    let bytes = program.get_mut(..size.program_len()).ok_or(Fault::Short)?;
    let (inputs, gates) = (usize::from(plan.inputs), k.next_power_of_two() as usize);

    // wires, by pin; what stands past the plan's gates wants input 1 and has table 0
    let mut operands = [1_u16; 2 * Plan::MAX_GATES];
    let mut tables = [0; Plan::MAX_GATES];
    for (i, gate) in plan.gates[..usize::from(plan.gate_count)]
        .iter()
        .enumerate()
    {
        operands[2 * i] = gate.first;
        operands[2 * i + 1] = gate.second;
        tables[i] = gate.table as u8;
    }
    let operands = &operands[..2 * gates];
    let mut wanted = [0; PLACES];
    for (wanted, &operand) in wanted.iter_mut().zip(operands) {
        *wanted = if operand <= plan.inputs {
            operand - 1
        } else {
            0
        };
    }
    let mut bits = Bits {
        bytes,
        at: 0,
        word: 0,
        held: 0,
    };
    let mut work = Work::new();
    work.selection(inputs, &wanted[..2 * gates], &mut bits);
    work.universal(
        operands,
        &tables[..gates],
        plan.inputs,
        &mut wanted,
        &mut bits,
    );
    let outputs = &plan.outputs[..usize::from(plan.output_count)];
    for (wanted, &wire) in wanted.iter_mut().zip(outputs) {
        *wanted = wire - plan.inputs - 1;
    }
    work.selection(gates, &wanted[..outputs.len()], &mut bits);
    bits.finish();
    Ok(())
}

/// Bits one after another, the first of a byte lowest. Fewer than eight are held in a word.
struct Bits<'a> {
    bytes: &'a mut [u8],
    at: usize,
    word: u64,
    held: u32,
}

impl Bits<'_> {
    /// The lowest bits of a word, at most 56; those above them are 0.
    fn push(&mut self, bits: u64, count: u32) {
        self.word |= bits << self.held;
        self.held += count;
        while self.held >= 8 {
            self.bytes[self.at] = self.word as u8;
            self.at += 1;
            self.word >>= 8;
            self.held -= 8;
        }
    }

    /// The first bits of several words, those above them 0.
    fn push_words(&mut self, words: &[u64], mut count: u32) {
        for &word in words {
            let here = count.min(64);
            let low = here.min(32);
            self.push(word & 0xffff_ffff, low);
            self.push(word >> 32, here - low);
            count -= here;
        }
    }

    fn finish(self) {
        if self.held > 0 {
            self.bytes[self.at] = self.word as u8;
        }
    }
}

/// Lists to work in.
struct Work {
    counts: [u16; PLACES],
    heads: [u16; PLACES],
    list: [u16; PLACES],
    scratch: [u16; PLACES],
}

impl Work {
    fn new() -> Work {
        Work {
            counts: [0; PLACES],
            heads: [0; PLACES],
            list: [0; PLACES],
            scratch: [0; PLACES],
        }
    }

    /// The bits of U, whose gates' wires follow `before` others.
    fn universal(
        &mut self,
        operands: &[u16],
        tables: &[u8],
        before: u16,
        wanted: &mut [u16; PLACES],
        bits: &mut Bits,
    ) {
        if let [table] = *tables {
            bits.push(table.into(), 4);
            return;
        }
        let half = tables.len() / 2;
        let (upper, lower) = operands.split_at(2 * half);
        self.universal(upper, &tables[..half], before, wanted, bits);
        for (wanted, &operand) in wanted.iter_mut().zip(lower) {
            let gate = operand.wrapping_sub(before + 1);
            *wanted = if usize::from(gate) < half { gate } else { 0 };
        }
        self.selection(half, &wanted[..2 * half], bits);
        for operands in lower.chunks(32) {
            let mut word = 0;
            for (i, &operand) in operands.iter().enumerate() {
                let gate = operand.wrapping_sub(before + 1);
                word |= u64::from(usize::from(gate) < half) << i;
            }
            bits.push(word, operands.len() as u32);
        }
        self.universal(lower, &tables[half..], before + half as u16, wanted, bits);
    }

    /// The bits of S(m, n) for wanted inputs, counted from 0.
    fn selection(&mut self, m: usize, wanted: &[u16], bits: &mut Bits) {
        let size = 1 << selection_level(m, wanted.len());
        let counts = &mut self.counts[..size];
        let heads = &mut self.heads[..size];
        let list = &mut self.list[..size];
        let scratch = &mut self.scratch[..size];
        counts.fill(0);
        for &input in wanted {
            counts[usize::from(input)] += 1;
        }
        // a wanted input at its head, the idle ones where no head is
        const NONE: u16 = u16::MAX;
        list.fill(NONE);
        let mut head = 0;
        for (input, (&count, place)) in counts.iter().zip(&mut *heads).enumerate() {
            *place = head;
            if count > 0 {
                list[usize::from(head)] = input as u16;
            }
            head += count;
        }
        let mut chain = [0_u64; PLACES / 64];
        let mut idle = 0;
        for (position, input) in list.iter_mut().enumerate() {
            let mut is_head = 0;
            if *input == NONE {
                while counts[idle] > 0 {
                    idle += 1;
                }
                *input = idle as u16;
                idle += 1;
            } else {
                is_head = 1;
            }
            if position > 0 {
                let row = position - 1;
                chain[row / 64 % chain.len()] |= is_head << (row % 64);
            }
        }
        network(list, scratch, bits);
        bits.push_words(&chain[..size.div_ceil(64)], size as u32 - 1);
        let list = &mut self.list[..size];
        for (place, &input) in list.iter_mut().zip(wanted) {
            let head = &mut heads[usize::from(input)];
            *place = *head;
            *head += 1;
        }
        for (position, place) in list.iter_mut().enumerate().skip(wanted.len()) {
            *place = position as u16;
        }
        network(list, scratch, bits);
    }
}

/// The five bits of P(4) for the inputs of its first three outputs, each in two bits.
const FOUR: [u8; 64] = four();

const fn four() -> [u8; 64] {
    let mut table = [0; 64];
    let mut index = 0;
    while index < 64 {
        let [p0, p1, p2] = [index % 4, index / 4 % 4, index / 16];
        if p0 != p1 && p1 != p2 && p0 != p2 {
            // the last pair is straight: p2 comes through the upper half, its partner through the lower
            let crossed = p0 == p2 ^ 1;
            let [upper, lower] = if crossed { [p1, p0] } else { [p0, p1] };
            let inputs = (p2 % 2) << (p2 / 2) | (upper % 2) << (upper / 2);
            let halves = upper / 2 * 4 + lower / 2 * 8;
            table[index] = (inputs + halves + if crossed { 16 } else { 0 }) as u8;
        }
        index += 1;
    }
    table
}

/// The bits of P for a mapping, output by output, which is used up.
fn network(perm: &mut [u16], scratch: &mut [u16], bits: &mut Bits) {
    match *perm {
        [] | [_] => return,
        [first, _] => return bits.push(first.into(), 1),
        [a, b, c, _] => {
            let index = usize::from(a | b << 2 | c << 4) % 64;
            return bits.push(FOUR[index].into(), 5);
        }
        _ => {}
    }
    if perm.len() <= 128 {
        level::<1>(perm, scratch, bits);
    } else {
        level::<4>(perm, scratch, bits);
    }
}

/// The bits of P of at most 64 pairs for each of so many words.
fn level<const WORDS: usize>(perm: &mut [u16], scratch: &mut [u16], bits: &mut Bits) {
    let size = perm.len();
    let half = size / 2;
    let scratch = &mut scratch[..size];
    // by input, the output that a walk comes to: the partner of the one that takes the input's partner
    for (output, &input) in perm.iter().enumerate() {
        scratch[usize::from(input ^ 1)] = output as u16 ^ 1;
    }
    // one bit a pair: which are walked, crossed inputs, crossed outputs
    let mut walked = [0_u64; WORDS];
    let mut inputs = [0_u64; WORDS];
    let mut outputs = [0_u64; WORDS];
    let mut start = size - 2;
    let mut word = 0;
    loop {
        let mut output = start;
        loop {
            let pair = output / 2;
            let (upper, lower) = (perm[output], perm[output ^ 1]);
            let input_pair = usize::from(upper) / 2;
            walked[pair / 64 % WORDS] |= 1 << (pair % 64);
            outputs[pair / 64 % WORDS] |= (output as u64 % 2) << (pair % 64);
            inputs[input_pair / 64 % WORDS] |= u64::from(upper % 2) << (input_pair % 64);
            perm[output & !1] = upper / 2;
            perm[output | 1] = lower / 2;
            output = usize::from(scratch[usize::from(upper)]);
            if output == start {
                break;
            }
        }
        while word < WORDS && walked[word] == u64::MAX {
            word += 1;
        }
        if word == WORDS {
            break;
        }
        let pair = 64 * word + walked[word].trailing_ones() as usize;
        if pair >= half {
            break;
        }
        start = 2 * pair;
    }
    let (upper, lower) = scratch.split_at_mut(half);
    let pairs = perm.as_chunks::<2>().0;
    for ((upper, lower), &[first, second]) in upper.iter_mut().zip(&mut *lower).zip(pairs) {
        *upper = first;
        *lower = second;
    }
    bits.push_words(&inputs, half as u32);
    network(upper, perm, bits);
    network(lower, perm, bits);
    // the last pair, which has no row, is straight
    bits.push_words(&outputs, half as u32 - 1);
}

#[cfg(test)]
mod tests {
    use super::*;
    use crate::random::Random;
    use crate::reference::program;
    use crate::samples::plans::{any_plan, shaped_plan, PlanShape};
    use crate::samples::{fill_unused, Counts};

    /// The same answer and the same buffer, from what it held, at lengths around the program's.
    fn compare(plan: &Plan) {
        let [u, k, v] = plan.counts();
        let length = count(u, k, v).map_or(0, |size| size.program_len());
        for length in [length.saturating_sub(1), length, length + 2] {
            let (mut found, mut due) = (vec![0x5a; length], vec![0x5a; length]);
            let answer = program::write(plan, &mut due);
            assert_eq!(write(plan, &mut found), answer, "{:?}", plan.counts());
            assert!(found == due, "{:?}, {length} bytes", plan.counts());
        }
    }

    #[test]
    fn what_the_reference_writes() {
        let mut random = Random::new(3);
        for round in 0..600 {
            let counts = match round % 3 {
                0 => Counts::small(&mut random),
                1 => Counts::random(&mut random),
                _ => Counts::MOST,
            };
            for shape in PlanShape::ALL {
                let mut plan = shaped_plan(&mut random, counts, shape);
                fill_unused(&mut random, &mut plan);
                compare(&plan);
            }
            compare(&any_plan(&mut random, counts));
        }
    }
}
