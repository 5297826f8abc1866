//! The fabric of three counts u, k, v: its size, its rows by kind, and its table.
//!
//! K is the smallest power of two not below k. The parts are S(u, 2K), U(K) and S(K, v).

use mukdalis::{Fault, Plan, Sheet, Size};

use super::elements::{Drawing, Tally};
use super::plan::is_count;
use super::selection;

/// Entries of a table before its rows: u, v and the number of rows.
const HEADER: usize = 3;

/// The fabric's rows, wires and program bits. Checks: 2, 3, 4.
pub fn count(u: u32, k: u32, v: u32) -> Result<Size, Fault> {
    let tally = Counts::new(u, k, v)?.tally();
    Ok(Size {
        rows: tally.rows() as u32,
        wires: 1 + u + tally.wires() as u32,
        bits: tally.bits() as u32,
    })
}

/// The rows of each kind in the fabric's parts, and in all of it. Checks: 2, 3, 4.
pub fn count_kinds(u: u32, k: u32, v: u32) -> Result<Sheet, Fault> {
    let counts = Counts::new(u, k, v)?;
    let [input, block, output] = counts.part_tallies().map(Tally::kinds);
    Ok(Sheet {
        input,
        block,
        output,
        sum: counts.tally().kinds(),
    })
}

/// Writes the fabric's table: u, v, the number of rows, the rows, the v output wires.
///
/// Entries past the stated length are unchanged, and a refusal changes none. Checks: 2, 3, 4, 11.
pub fn write(u: u32, k: u32, v: u32, table: &mut [u16]) -> Result<(), Fault> {
    let counts = Counts::new(u, k, v)?;
    let tally = counts.tally();
    let length = HEADER + tally.entries() + counts.outputs;
    let table = table.get_mut(..length).ok_or(Fault::Short)?;
    let (header, rest) = table.split_at_mut(HEADER);
    let (rows, outputs) = rest.split_at_mut(tally.entries());
    let counted = [counts.inputs, counts.outputs, tally.rows()];
    header.copy_from_slice(&counted.map(|count| count as u16));
    counts.draw(rows, outputs);
    Ok(())
}

/// Counts in range, with K for k.
struct Counts {
    inputs: usize,
    gates: usize,
    outputs: usize,
}

impl Counts {
    fn new(u: u32, k: u32, v: u32) -> Result<Counts, Fault> {
        let [inputs, gates, outputs] = [u, k, v].map(|count| count as usize);
        if !is_count(inputs, Plan::MAX_INPUTS) {
            return Err(Fault::Inputs);
        }
        if !is_count(gates, Plan::MAX_GATES) {
            return Err(Fault::Gates);
        }
        if !is_count(outputs, Plan::MAX_OUTPUTS) {
            return Err(Fault::Outputs);
        }
        Ok(Counts {
            inputs,
            gates: gates.next_power_of_two(),
            outputs,
        })
    }

    /// The rows of S(u, 2K), of U(K) and of S(K, v).
    fn part_tallies(&self) -> [Tally; 3] {
        [
            selection::tally(self.inputs, 2 * self.gates),
            universal_tally(self.gates),
            selection::tally(self.gates, self.outputs),
        ]
    }

    fn tally(&self) -> Tally {
        let [input, block, output] = self.part_tallies();
        input.and(block).and(output)
    }

    /// Draws the fabric's rows and gives its output wires.
    fn draw(&self, rows: &mut [u16], outputs: &mut [u16]) {
        let inputs: Vec<u16> = (1..=self.inputs as u16).collect();
        let mut drawing = Drawing::new(rows, 1 + self.inputs as u32);
        let mut pins = selection::draw(&mut drawing, &inputs, 2 * self.gates);
        let mut gates = Vec::with_capacity(self.gates);
        draw_universal(&mut drawing, &mut pins, &mut gates);
        outputs.copy_from_slice(&selection::draw(&mut drawing, &gates, self.outputs));
        drawing.finish();
    }
}

/// Draws U on its pins, two a gate, and adds its output wires to those of the gates before: the
/// upper U of half the size, the S that takes its outputs, a Y row for each pin of the lower, the
/// lower U.
fn draw_universal(drawing: &mut Drawing, pins: &mut [u16], gates: &mut Vec<u16>) {
    if let &mut [left, right] = pins {
        gates.push(drawing.g(left, right));
        return;
    }
    let (upper_pins, lower_pins) = pins.split_at_mut(pins.len() / 2);
    let upper = gates.len();
    draw_universal(drawing, upper_pins, gates);
    let selected = selection::draw(drawing, &gates[upper..], lower_pins.len());
    for (pin, selected) in lower_pins.iter_mut().zip(selected) {
        *pin = drawing.y(*pin, selected);
    }
    draw_universal(drawing, lower_pins, gates);
}

/// The rows of U(K), of K gates.
fn universal_tally(gates: usize) -> Tally {
    if gates == 1 {
        return Tally { x: 0, y: 0, g: 1 };
    }
    let half = universal_tally(gates / 2);
    let mixing = Tally {
        x: 0,
        y: gates,
        g: 0,
    };
    half.and(selection::tally(gates / 2, gates))
        .and(mixing)
        .and(half)
}

#[cfg(test)]
mod tests {
    use super::*;
    use crate::samples::fabric::{sheet_of, table_len};
    use mukdalis::Kinds;

    fn size(rows: u32, wires: u32, bits: u32) -> Result<Size, Fault> {
        Ok(Size { rows, wires, bits })
    }

    fn table(u: u32, k: u32, v: u32) -> Vec<u16> {
        let mut table = vec![9; table_len(u, k, v)];
        assert_eq!(write(u, k, v, &mut table), Ok(()));
        table
    }

    #[test]
    fn count_figures() {
        assert_eq!(count(1, 1, 1), size(4, 8, 7));
        assert_eq!(count(2, 2, 1), size(23, 40, 29));
        assert_eq!(count(3, 3, 2), size(85, 147, 97));
        assert_eq!(count(64, 256, 64), size(31_489, 58_180, 32_257));
    }

    /// The sheet of these figures: X, Y, G and their total, of the three parts and of all.
    fn sheet(figures: [[u32; 4]; 4]) -> Result<Sheet, Fault> {
        let [input, block, output, sum] = figures.map(|[x, y, g, total]| Kinds { x, y, g, total });
        Ok(Sheet {
            input,
            block,
            output,
            sum,
        })
    }

    /// S has 2 N log N - 2N + 2 rows X and N - 1 rows Y. U(K) has two U(K / 2), an S of K positions and
    /// K rows Y; U(1) is a row G.
    #[test]
    fn sheet_figures() {
        let not = [[2, 1, 0, 3], [0, 0, 1, 1], [0, 0, 0, 0], [2, 1, 1, 4]];
        let two_gates = [[10, 3, 0, 13], [2, 3, 2, 7], [2, 1, 0, 3], [14, 7, 2, 23]];
        let three_gates = [
            [34, 7, 0, 41],
            [14, 13, 4, 31],
            [10, 3, 0, 13],
            [58, 23, 4, 85],
        ];
        let largest = [
            [8_194, 511, 0, 8_705],
            [14_846, 3_841, 256, 18_943],
            [3_586, 255, 0, 3_841],
            [26_626, 4_607, 256, 31_489],
        ];
        assert_eq!(count_kinds(1, 1, 1), sheet(not));
        assert_eq!(count_kinds(2, 2, 1), sheet(two_gates));
        assert_eq!(count_kinds(3, 3, 2), sheet(three_gates));
        assert_eq!(count_kinds(64, 256, 64), sheet(largest));
    }

    #[test]
    fn table_figure() {
        let rows = [[1, 1, 0], [2, 2, 3], [1, 2, 4], [3, 5, 6]].concat();
        assert_eq!(table(1, 1, 1), [&[1, 1, 4][..], &rows, &[7]].concat());
    }

    /// S(1, 4) makes wires 2 to 24, of which 23, 24, 20 and 22 are the pins. The upper gate makes
    /// 25, S(1, 2) 26 to 30, the mixing rows 31 and 32, the lower gate 33, S(2, 1) 34 to 38.
    #[test]
    fn two_gates_by_hand() {
        let table = table(1, 2, 1);
        let rows: Vec<&[u16]> = table[3..table.len() - 1].chunks(3).collect();
        assert_eq!(table[..3], [1, 1, 23]);
        assert_eq!(rows[13], [3, 23, 24]);
        assert_eq!(rows[14..17], [[1, 25, 0], [2, 26, 27], [1, 26, 28]]);
        assert_eq!(rows[17..20], [[2, 20, 29], [2, 22, 30], [3, 31, 32]]);
        assert_eq!(rows[20..], [[1, 25, 33], [2, 34, 35], [1, 34, 36]]);
        assert_eq!(table[table.len() - 1], 37);
    }

    #[test]
    fn counts_are_those_of_the_table() {
        for (u, k, v) in [
            (1, 1, 1),
            (64, 1, 1),
            (1, 1, 64),
            (1, 2, 64),
            (5, 7, 3),
            (33, 9, 17),
            (64, 64, 1),
            (17, 129, 33),
            (64, 256, 64),
        ] {
            let table = table(u, k, v);
            let found = sheet_of(&table, k);
            assert_eq!(count_kinds(u, k, v), Ok(found));
            let Kinds { x, y, g, total } = found.sum;
            assert_eq!(u32::from(table[2]), total);
            assert_eq!(
                count(u, k, v),
                size(total, 1 + u + 2 * x + y + g, x + y + 4 * g)
            );
        }
    }

    #[test]
    fn universal_blocks_have_their_rows() {
        for level in 0..=8 {
            let gates = 1 << level;
            let row_count = gates * (level * level + level) + 2 * gates - 1;
            let mut rows = vec![9; 3 * row_count];
            let mut drawing = Drawing::new(&mut rows, 1);
            let mut outputs = Vec::new();
            draw_universal(&mut drawing, &mut vec![0; 2 * gates], &mut outputs);
            drawing.finish();
            assert_eq!(outputs.len(), gates);
            assert_eq!(universal_tally(gates).rows(), row_count);
        }
    }

    #[test]
    fn gates_up_to_a_power_of_two_have_its_table() {
        assert_eq!(table(3, 5, 2), table(3, 8, 2));
        assert_ne!(table(3, 4, 2), table(3, 5, 2));
        assert_eq!(count(3, 129, 2), count(3, 256, 2));
    }

    #[test]
    fn counts_are_checked_in_order_then_the_buffer() {
        for (u, k, v, fault) in [
            (0, 0, 0, Fault::Inputs),
            (65, 257, 65, Fault::Inputs),
            (u32::MAX, 1, 1, Fault::Inputs),
            (1, 0, 0, Fault::Gates),
            (64, 257, 65, Fault::Gates),
            (1, 65_537, 1, Fault::Gates),
            (1, 1, 0, Fault::Outputs),
            (64, 256, 65, Fault::Outputs),
        ] {
            assert_eq!(count(u, k, v), Err(fault));
            assert_eq!(count_kinds(u, k, v), Err(fault));
            assert_eq!(write(u, k, v, &mut []), Err(fault));
        }
        let mut table = [9; 17];
        assert_eq!(write(1, 1, 1, &mut table[..15]), Err(Fault::Short));
        assert_eq!(table, [9; 17]);
        assert_eq!(write(1, 1, 1, &mut table), Ok(()));
        assert_eq!(table[15..], [7, 9]);
    }
}
