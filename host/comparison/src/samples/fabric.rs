//! Fabric tables' lengths and rows by kind, random well-formed tables of any shape, and runs that are
//! not refused.

use mukdalis::{Kinds, Sheet};

use super::blocks::{Block, MOST_WIRES};
use super::Counts;
use crate::random::Random;

/// K for k: the smallest power of two not below it.
pub const UNIVERSAL_SIZES: [u32; 9] = [1, 2, 4, 8, 16, 32, 64, 128, 256];

/// A number of gates k for which K is this size.
pub fn gates_of(random: &mut Random, size: u32) -> u32 {
    let (least, most) = (size as u16 / 2 + 1, size as u16);
    let any = random.between(least, most);
    random.choose(&[least, any, most]).into()
}

/// Rows of U(K): K (n^2 + n) + 2K - 1, n = log K.
fn universal_rows(size: u32) -> u32 {
    let level = size.ilog2();
    size * (level * level + level) + 2 * size - 1
}

/// Rows of a fabric's parts, in the order in which they stand: S(u, 2K), U(K), S(K, v).
fn part_rows(u: u32, k: u32, v: u32) -> [u32; 3] {
    let size = k.next_power_of_two();
    [
        Block::S(u, 2 * size).rows(),
        universal_rows(size),
        Block::S(size, v).rows(),
    ]
}

/// Entries of the fabric's table: 3 + 3R + v, where R are the rows of its parts.
pub fn table_len(u: u32, k: u32, v: u32) -> usize {
    let rows: u32 = part_rows(u, k, v).iter().sum();
    (3 + 3 * rows + v) as usize
}

/// The rows of each kind that stand in the parts of a fabric's table, and in all of it. k is the
/// number of gates that the fabric is for.
pub fn sheet_of(table: &[u16], k: u32) -> Sheet {
    let mut rest = kinds(table);
    let [input, block, output] = part_rows(table[0].into(), k, table[1].into())
        .map(|rows| count_kinds(rest.by_ref().take(rows as usize)));
    Sheet {
        input,
        block,
        output,
        sum: count_kinds(kinds(table)),
    }
}

/// How many of these are 1, 2 and 3, and how many there are.
fn count_kinds(kinds: impl Iterator<Item = u16>) -> Kinds {
    let kinds: Vec<u16> = kinds.collect();
    let of = |number| kinds.iter().filter(|&&kind| kind == number).count() as u32;
    Kinds {
        x: of(1),
        y: of(2),
        g: of(3),
        total: kinds.len() as u32,
    }
}

/// A table by its parts, with its numbers of wires and bits.
#[derive(Clone)]
pub struct Table {
    pub inputs: u16,
    pub rows: Vec<[u16; 3]>,
    pub outputs: Vec<u16>,
    pub wires: u32,
    pub bits: u32,
}

/// The wires that a row makes and the bits that it has, by its kind.
fn made_and_bits(kind: u16) -> (u32, u32) {
    match kind {
        1 => (2, 1),
        2 => (1, 1),
        _ => (1, 4),
    }
}

/// How a random table's rows are chosen.
#[derive(Clone, Copy)]
pub enum Shape {
    /// All of one kind.
    OneKind(u16),
    /// Of any kind, on any wires.
    Any,
    /// Of any kind, on the wires made last: deep.
    Chain,
    /// Of any kind, on wire 0, the inputs and the first rows' wires: wide.
    Wide,
}

impl Shape {
    pub const ALL: [Shape; 6] = [
        Shape::OneKind(1),
        Shape::OneKind(2),
        Shape::OneKind(3),
        Shape::Any,
        Shape::Chain,
        Shape::Wide,
    ];

    fn kind(self, random: &mut Random) -> u16 {
        match self {
            Shape::OneKind(kind) => kind,
            _ => random.between(1, 3),
        }
    }

    /// One of so many made wires.
    fn wire(self, random: &mut Random, made: u32) -> u16 {
        let last = (made - 1).min(u16::MAX.into()) as u16;
        let lowest = match self {
            Shape::Chain => last.saturating_sub(3),
            _ => 0,
        };
        let highest = match self {
            Shape::Wide => last.min(80),
            _ => last,
        };
        random.between(lowest, highest)
    }
}

impl Table {
    /// A table of random counts in range without rows.
    fn without_rows(random: &mut Random) -> Table {
        let Counts(inputs, _, v) = Counts::random(random);
        Table {
            inputs,
            rows: Vec::new(),
            outputs: vec![0; v.into()],
            wires: 1 + u32::from(inputs),
            bits: 0,
        }
    }

    /// A random well-formed table of so many rows, or as many as there are wires for.
    pub fn of_rows(random: &mut Random, shape: Shape, rows: u16) -> Table {
        let mut table = Table::without_rows(random);
        for _ in 0..rows {
            if table.wires + 2 <= MOST_WIRES {
                let kind = shape.kind(random);
                table.add_row(random, shape, kind);
            }
        }
        table.choose_outputs(random);
        table
    }

    /// A random table of exactly so many wires, well-formed unless these are too many. The last row
    /// is an X if `ends_in_pair`.
    pub fn of_wires(random: &mut Random, shape: Shape, wires: u32, ends_in_pair: bool) -> Table {
        let mut table = Table::without_rows(random);
        let before_last = wires - if ends_in_pair { 2 } else { 1 };
        while table.wires < before_last {
            let kind = match shape.kind(random) {
                1 if table.wires + 2 > before_last => 3,
                kind => kind,
            };
            table.add_row(random, shape, kind);
        }
        let last_kind = if ends_in_pair {
            1
        } else {
            random.between(2, 3)
        };
        table.add_row(random, shape, last_kind);
        table.choose_outputs(random);
        table
    }

    fn add_row(&mut self, random: &mut Random, shape: Shape, kind: u16) {
        let wires = [0; 2].map(|_| shape.wire(random, self.wires));
        self.rows.push([kind, wires[0], wires[1]]);
        let (made, bits) = made_and_bits(kind);
        self.wires += made;
        self.bits += bits;
    }

    /// Outputs name any wire, many of them the last one, an input or wire 0.
    fn choose_outputs(&mut self, random: &mut Random) {
        let last = (self.wires - 1).min(u16::MAX.into()) as u16;
        for output in &mut self.outputs {
            let any = random.between(0, last);
            let before = random.between(0, self.inputs);
            *output = random.choose(&[any, any, last, before]);
        }
    }

    /// Wires made before row i, counted from 0.
    pub fn made_before(&self, i: usize) -> u32 {
        let made: u32 = self.rows[..i]
            .iter()
            .map(|row| made_and_bits(row[0]).0)
            .sum();
        1 + u32::from(self.inputs) + made
    }

    /// The table's entries.
    pub fn entries(&self) -> Vec<u16> {
        let [v, rows] = [self.outputs.len(), self.rows.len()]
            .map(|count| u16::try_from(count).expect("a count has 16 bits"));
        let counts = [self.inputs, v, rows];
        [&counts, self.rows.as_flattened(), &self.outputs].concat()
    }
}

/// A random well-formed table of up to so many rows.
pub fn small_table(random: &mut Random, most: u16) -> Table {
    let shape = random.choose(&Shape::ALL);
    let rows = random.between(0, most);
    Table::of_rows(random, shape, rows)
}

/// A run with lent buffers of these lengths.
#[derive(Clone)]
pub struct Run {
    pub table: Vec<u16>,
    pub program: Vec<u8>,
    pub row: Vec<u8>,
    pub work_len: usize,
    pub result_len: usize,
}

impl Run {
    /// A random program and row for a table, with buffers of exact lengths. A table that is not
    /// well-formed is gone by as far as its rows go.
    pub fn of(random: &mut Random, table: &[u16]) -> Run {
        let [inputs, outputs] = [0, 1].map(|i| table.get(i).copied().unwrap_or(0));
        let bits = kinds(table).map(|kind| made_and_bits(kind).1).sum();
        Run {
            table: table.to_vec(),
            program: random_program(random, bits),
            row: random.row(inputs.into()),
            work_len: wires(table),
            result_len: outputs.into(),
        }
    }
}

/// Wires of a table: 0, the inputs, and those that the rows make.
pub fn wires(table: &[u16]) -> usize {
    let inputs = table.first().copied().unwrap_or(0);
    let made: u32 = kinds(table).map(|kind| made_and_bits(kind).0).sum();
    1 + usize::from(inputs) + made as usize
}

/// The kinds of a table's rows, as far as these go.
fn kinds(table: &[u16]) -> impl Iterator<Item = u16> + '_ {
    let rows = table.get(2).copied().unwrap_or(0);
    table.iter().skip(3).step_by(3).take(rows.into()).copied()
}

/// A random program of so many bits, spare bits 0; some have few bits set, or few not set.
pub fn random_program(random: &mut Random, bits: u32) -> Vec<u8> {
    let form = random.between(1, 4);
    let mut byte = || match form {
        1 => random.byte() & random.byte() & random.byte(),
        2 => random.byte() | random.byte() | random.byte(),
        _ => random.byte(),
    };
    let mut program: Vec<u8> = (0..bits.div_ceil(8)).map(|_| byte()).collect();
    if let (Some(last), used @ 1..) = (program.last_mut(), bits % 8) {
        *last &= (1 << used) - 1;
    }
    program
}

#[cfg(test)]
mod tests {
    use super::*;

    #[test]
    fn table_lengths() {
        assert_eq!(table_len(1, 1, 1), 16);
        assert_eq!(table_len(64, 256, 64), 3 + 3 * 31_489 + 64);
    }

    /// The fabric (1, 1, 1): S(1, 2) is its rows X, Y, X, and U(1) its G.
    #[test]
    fn rows_are_counted_part_by_part() {
        let table = [1, 1, 4, 1, 1, 0, 2, 2, 3, 1, 2, 4, 3, 5, 6, 7];
        let parts = |sheet: Sheet| [sheet.input, sheet.block, sheet.output, sheet.sum];
        let figures = parts(sheet_of(&table, 1)).map(|part| [part.x, part.y, part.g, part.total]);
        assert_eq!(figures, [[2, 1, 0, 3], [0, 0, 1, 1], [0; 4], [2, 1, 1, 4]]);
    }

    #[test]
    fn tables_have_the_wires_asked_for() {
        let mut random = Random::new(1);
        for shape in Shape::ALL {
            for (wires, ends_in_pair) in [(100, false), (101, true), (65_537, true)] {
                let table = Table::of_wires(&mut random, shape, wires, ends_in_pair);
                assert_eq!(table.wires, wires);
                assert_eq!(table.rows[table.rows.len() - 1][0] == 1, ends_in_pair);
            }
            assert!(Table::of_rows(&mut random, shape, 40_000).wires <= MOST_WIRES);
        }
    }

    #[test]
    fn spare_bits_are_zero() {
        let mut random = Random::new(1);
        for bits in 0..100 {
            let program = random_program(&mut random, bits);
            assert_eq!(program.len(), bits.div_ceil(8) as usize);
            let spare = 8 * program.len() as u32 - bits;
            assert!(program
                .last()
                .is_none_or(|byte| byte.leading_zeros() >= spare));
        }
    }
}
