//! The fabric's table, stretch by stretch: rows of one kind whose wires rise by a step are one loop.

use mukdalis::{Fault, Plan};

use super::{network_rows, selection_level};
use crate::reference::fabric::count;

/// A row: kind, left wire, right wire.
type Row = [u16; 3];

const X: u16 = 1;
const Y: u16 = 2;
const G: u16 = 3;

/// Writes the fabric's table. Checks: 2, 3, 4, 11.
pub fn write(u: u32, k: u32, v: u32, table: &mut [u16]) -> Result<(), Fault> {
    let size = count(u, k, v)?;
    let (inputs, outputs) = (u as usize, v as usize);
    let gates = k.next_power_of_two() as usize;
    let row_count = size.rows as usize;
    let table = table
        .get_mut(..3 + 3 * row_count + outputs)
        .ok_or(Fault::Short)?;
    let (header, rest) = table.split_at_mut(3);
    header.copy_from_slice(&[u as u16, v as u16, size.rows as u16]);
    let (rows, output_wires) = rest.split_at_mut(3 * row_count);
    let (rows, _) = rows.as_chunks_mut::<3>();

    let input_wires: [u16; Plan::MAX_INPUTS] = std::array::from_fn(|i| i as u16 + 1);
    let mut pins = [0; 2 * Plan::MAX_GATES];
    let pins = &mut pins[..2 * gates];
    let mut gate_wires = [0; Plan::MAX_GATES];
    let gate_wires = &mut gate_wires[..gates];
    let mut writer = Writer {
        rows,
        next: u as u16 + 1,
    };
    writer.selection(&input_wires[..inputs], pins);
    writer.universal(pins, gate_wires);
    writer.selection(gate_wires, output_wires);
    Ok(())
}

/// What is not written yet: the rows, and the first wire that they make.
struct Writer<'a> {
    rows: &'a mut [Row],
    next: u16,
}

impl<'a> Writer<'a> {
    /// The next rows of a kind, and the first wire that they make, each so many.
    fn take(&mut self, count: usize, wires: u16) -> (&'a mut [Row], u16) {
        let (taken, rest) = std::mem::take(&mut self.rows).split_at_mut(count);
        self.rows = rest;
        let next = self.next;
        self.next += wires * count as u16;
        (taken, next)
    }

    /// U on these pins; its output wires.
    fn universal(&mut self, pins: &mut [u16], outs: &mut [u16]) {
        if let [left, right] = *pins {
            let (rows, next) = self.take(1, 1);
            rows[0] = [G, left, right];
            outs[0] = next;
            return;
        }
        let half = outs.len() / 2;
        let (upper, lower) = pins.split_at_mut(2 * half);
        self.universal(upper, &mut outs[..half]);
        // the upper half's pins are used up: what is selected goes there
        self.selection(&outs[..half], upper);
        let (rows, next) = self.take(2 * half, 1);
        for (i, ((row, pin), &selected)) in
            rows.iter_mut().zip(&mut *lower).zip(&*upper).enumerate()
        {
            *row = [Y, *pin, selected];
            *pin = next + i as u16;
        }
        self.universal(lower, &mut outs[half..]);
    }

    /// S on these inputs and as many dummies as are needed; its output wires.
    fn selection(&mut self, inputs: &[u16], outputs: &mut [u16]) {
        let level = selection_level(inputs.len(), outputs.len());
        if level == 0 {
            outputs[0] = inputs[0];
            return;
        }
        let half = 1 << (level - 1);
        let count = network_rows(level);
        let (rows, next) = self.take(count, 2);
        let (input_rows, rows) = rows.split_at_mut(half);
        let (pairs, odd) = inputs.as_chunks::<2>();
        let (paired, dummies) = input_rows.split_at_mut(pairs.len());
        for (row, &[left, right]) in paired.iter_mut().zip(pairs) {
            *row = [X, left, right];
        }
        dummies.fill([X, 0, 0]);
        if let ([row, ..], &[left]) = (dummies, odd) {
            *row = [X, left, 0];
        }
        let first = behind_inputs(rows, level, next);

        // the chain: its left wires are the first output and its own, its right ones the other outputs
        let (rows, next) = self.take(2 * half - 1, 1);
        let [before_last, last] = first.last_pair;
        match rows {
            [row] => *row = [Y, before_last, last],
            [row, rising @ .., before, end] => {
                *row = [Y, first.rising, first.rising + 1];
                rise(rising, Y, [next, first.rising + 2], 1);
                let made = next + 2 * half as u16 - 4;
                *before = [Y, made, before_last];
                *end = [Y, made + 1, last];
            }
            _ => unreachable!("a chain has an odd number of rows"),
        }
        let head = match level {
            1 => before_last,
            _ => first.rising,
        };

        let (rows, made) = self.take(count, 2);
        let (input_rows, rows) = rows.split_at_mut(half);
        input_rows[0] = [X, head, next];
        rise(&mut input_rows[1..], X, [next + 1, next + 2], 2);
        let second = behind_inputs(rows, level, made);
        second.put(2 * half, outputs);
    }
}

/// The output wires of P: they rise, but for the last pair, which has no X.
struct Outs {
    rising: u16,
    last_pair: [u16; 2],
}

impl Outs {
    /// The first output wires of all.
    fn put(&self, all: usize, outputs: &mut [u16]) {
        for (i, output) in outputs.iter_mut().enumerate() {
            *output = self.rising + i as u16;
        }
        for (output, wire) in outputs.iter_mut().skip(all - 2).zip(self.last_pair) {
            *output = wire;
        }
    }
}

/// Rows of a kind whose left and right wires rise by a step.
fn rise(rows: &mut [Row], kind: u16, [mut left, mut right]: [u16; 2], step: u16) {
    for row in rows {
        *row = [kind, left, right];
        left += step;
        right += step;
    }
}

/// P inside P, on wires that rise by two from `first` on.
fn network(rows: &mut [Row], level: u32, first: u16, next: u16) -> Outs {
    match level {
        1 => {
            rows[0] = [X, first, first + 2];
            behind_inputs(&mut [], level, next)
        }
        2 => {
            rows.copy_from_slice(&[
                [X, first, first + 2],
                [X, first + 4, first + 6],
                [X, next, next + 2],
                [X, next + 1, next + 3],
                [X, next + 4, next + 6],
            ]);
            Outs {
                rising: next + 8,
                last_pair: [next + 5, next + 7],
            }
        }
        _ => {
            let (input_rows, rest) = rows.split_at_mut(1 << (level - 1));
            rise(input_rows, X, [first, first + 2], 4);
            behind_inputs(rest, level, next)
        }
    }
}

/// The rows of P behind its input rows, which make wires from `next` on: both halves and the output
/// rows.
fn behind_inputs(rows: &mut [Row], level: u32, next: u16) -> Outs {
    if level == 1 {
        return Outs {
            rising: next,
            last_pair: [next, next + 1],
        };
    }
    let count = network_rows(level - 1);
    let (upper_rows, rows) = rows.split_at_mut(count);
    let (lower_rows, rows) = rows.split_at_mut(count);
    let upper_next = next + (1 << level);
    let lower_next = upper_next + 2 * count as u16;
    let upper = network(upper_rows, level - 1, next, upper_next);
    let lower = network(lower_rows, level - 1, next + 1, lower_next);
    let [upper_before, upper_last] = upper.last_pair;
    let [lower_before, lower_last] = lower.last_pair;
    if let [rising @ .., before] = rows {
        rise(rising, X, [upper.rising, lower.rising], 1);
        *before = [X, upper_before, lower_before];
    }
    Outs {
        rising: lower_next + 2 * count as u16,
        last_pair: [upper_last, lower_last],
    }
}

#[cfg(test)]
mod tests {
    use super::*;
    use crate::reference::fabric;

    /// The same answer and the same buffer, from what it held, at every length around the table's.
    fn compare(u: u32, k: u32, v: u32) {
        let length = fabric::count(u, k, v).map_or(0, |size| size.table_len(v));
        for length in [length.saturating_sub(1), length, length + 2] {
            let (mut found, mut due) = (vec![9; length], vec![9; length]);
            let answer = fabric::write(u, k, v, &mut due);
            assert_eq!(write(u, k, v, &mut found), answer, "({u},{k},{v})");
            assert!(found == due, "({u},{k},{v}), {length} entries");
        }
    }

    #[test]
    fn what_the_reference_writes() {
        for u in [0, 1, 2, 3, 5, 8, 31, 33, 63, 64, 65] {
            for k in [0, 1, 2, 3, 5, 8, 17, 50, 100, 128, 188, 256, 257] {
                for v in [0, 1, 2, 3, 7, 16, 33, 64, 65] {
                    compare(u, k, v);
                }
            }
        }
    }
}
