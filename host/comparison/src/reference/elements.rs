//! Rows of elements, their program bits, and the run of rows on wires that hold any values.

use std::slice::ChunksExactMut;

use mukdalis::{Fault, Kinds};

/// What a row is. Its discriminant is its number in a table.
#[derive(Clone, Copy)]
pub enum Kind {
    /// Two inputs, two outputs, one bit. Bit 0 straight, bit 1 crossed.
    X = 1,
    /// Two inputs, one output, one bit. Bit 0 gives the left, 1 the right.
    Y = 2,
    /// Two inputs, one output, four bits: its table, lowest bit first.
    G = 3,
}

impl Kind {
    /// The kind of a number, if there is one.
    pub fn from_number(number: u16) -> Option<Kind> {
        match number {
            1 => Some(Kind::X),
            2 => Some(Kind::Y),
            3 => Some(Kind::G),
            _ => None,
        }
    }

    /// Wires that a row makes.
    pub fn outputs(self) -> usize {
        match self {
            Kind::X => 2,
            Kind::Y | Kind::G => 1,
        }
    }

    /// Program bits of a row.
    pub fn bits(self) -> usize {
        match self {
            Kind::X | Kind::Y => 1,
            Kind::G => TABLE_BITS,
        }
    }
}

/// Bits of a gate's table.
pub const TABLE_BITS: usize = 4;

/// Entries of a row in a table: kind, left wire, right wire.
pub const ROW_ENTRIES: usize = 3;

/// Bits of a program byte, the lowest first.
pub const BYTE_BITS: usize = 8;

/// The wire that is constant zero.
pub const ZERO_WIRE: u16 = 0;

/// The highest number of a fabric wire.
pub const LAST_WIRE: usize = 65_535;

/// Numbers of rows of each kind.
#[derive(Clone, Copy, Debug, PartialEq, Eq)]
pub struct Tally {
    pub x: usize,
    pub y: usize,
    pub g: usize,
}

impl Tally {
    pub fn and(self, other: Tally) -> Tally {
        Tally {
            x: self.x + other.x,
            y: self.y + other.y,
            g: self.g + other.g,
        }
    }

    pub fn rows(self) -> usize {
        self.sum(|_| 1)
    }

    /// The rows by kind, as a sheet has them.
    pub fn kinds(self) -> Kinds {
        let [x, y, g, total] = [self.x, self.y, self.g, self.rows()].map(|rows| rows as u32);
        Kinds { x, y, g, total }
    }

    /// Entries of the rows in a table.
    pub fn entries(self) -> usize {
        ROW_ENTRIES * self.rows()
    }

    /// Wires that the rows make.
    pub fn wires(self) -> usize {
        self.sum(Kind::outputs)
    }

    /// Program bits of the rows.
    pub fn bits(self) -> usize {
        self.sum(Kind::bits)
    }

    fn sum(self, of_kind: fn(Kind) -> usize) -> usize {
        self.x * of_kind(Kind::X) + self.y * of_kind(Kind::Y) + self.g * of_kind(Kind::G)
    }
}

/// Draws rows in order into a part of a table that has just their length.
pub struct Drawing<'a> {
    rows: ChunksExactMut<'a, u16>,
    next: u32,
}

impl<'a> Drawing<'a> {
    /// A drawing whose rows make wires from `next` on; none passes the last one.
    pub fn new(rows: &'a mut [u16], next: u32) -> Drawing<'a> {
        let rows = rows.chunks_exact_mut(ROW_ENTRIES);
        Drawing { rows, next }
    }

    /// Draws an X row and gives the two wires that it makes.
    pub fn x(&mut self, left: u16, right: u16) -> [u16; 2] {
        let first = self.draw(Kind::X, left, right);
        [first, first + 1]
    }

    /// Draws a Y row and gives the wire that it makes.
    pub fn y(&mut self, left: u16, right: u16) -> u16 {
        self.draw(Kind::Y, left, right)
    }

    /// Draws a G row and gives the wire that it makes.
    pub fn g(&mut self, left: u16, right: u16) -> u16 {
        self.draw(Kind::G, left, right)
    }

    /// Draws a row and gives the first wire that it makes.
    fn draw(&mut self, kind: Kind, left: u16, right: u16) -> u16 {
        let row = self.rows.next().expect("a place for each row");
        row.copy_from_slice(&[kind as u16, left, right]);
        let first = self.next as u16;
        self.next += kind.outputs() as u32;
        first
    }

    /// The next unmade wire, after all rows.
    pub fn finish(self) -> u32 {
        assert_eq!(self.rows.len(), 0, "a place without a row");
        self.next
    }
}

/// Writes program bits one after another to a lent program: bit p in byte p div 8 at place p mod 8,
/// place 0 lowest; spare bits 0.
pub struct BitWriter<'a> {
    bytes: &'a mut [u8],
    next: usize,
}

impl<'a> BitWriter<'a> {
    /// A writer of so many bits. Check: 11.
    pub fn new(program: &'a mut [u8], bits: usize) -> Result<BitWriter<'a>, Fault> {
        let bytes = program
            .get_mut(..bits.div_ceil(BYTE_BITS))
            .ok_or(Fault::Short)?;
        bytes.fill(0);
        Ok(BitWriter { bytes, next: 0 })
    }

    pub fn push(&mut self, bit: bool) {
        self.bytes[self.next / BYTE_BITS] |= u8::from(bit) << (self.next % BYTE_BITS);
        self.next += 1;
    }

    /// Bits written so far.
    pub fn written(&self) -> usize {
        self.next
    }
}

/// Bits of a program from bit p on, the first of them lowest.
fn bits(program: &[u8], p: usize, count: usize) -> u8 {
    (0..count).fold(0, |bits, i| bits | u8::from(bit(program, p + i)) << i)
}

/// Bit p of a program.
pub fn bit(program: &[u8], p: usize) -> bool {
    program[p / BYTE_BITS] >> (p % BYTE_BITS) & 1 == 1
}

/// The gate action of rows that have no gate.
pub fn no_gate<T>(_: u16, _: T, _: T) -> T {
    panic!("a gate in a block without gates")
}

/// Runs the rows of a table part with a program's bits. `wires` has a place for every wire, with the
/// values of those below `made`, the first one that the rows make; `gate` gives a gate's value from
/// its table and its two operands.
pub fn run_rows<T: Copy>(
    rows: &[u16],
    program: &[u8],
    wires: &mut [T],
    mut made: usize,
    gate: impl Fn(u16, T, T) -> T,
) {
    let mut p = 0;
    for row in rows.chunks_exact(ROW_ENTRIES) {
        let kind = Kind::from_number(row[0]).expect("a kind from 1 to 3");
        let [left, right] = [row[1], row[2]].map(|wire| wires[usize::from(wire)]);
        let [chosen, other] = match bit(program, p) {
            false => [left, right],
            true => [right, left],
        };
        match kind {
            Kind::X => wires[made..made + 2].copy_from_slice(&[chosen, other]),
            Kind::Y => wires[made] = chosen,
            Kind::G => wires[made] = gate(bits(program, p, TABLE_BITS).into(), left, right),
        }
        made += kind.outputs();
        p += kind.bits();
    }
}

/// Values of all wires after rows have run.
pub struct Wires<T>(Vec<T>);

impl<T: Copy + Default> Wires<T> {
    /// Runs rows as `run_rows` does; `before` has the values of all wires below the first one that
    /// the rows make.
    pub fn run(
        rows: &[u16],
        program: &[u8],
        before: &[T],
        gate: impl Fn(u16, T, T) -> T,
    ) -> Wires<T> {
        let kinds = rows.iter().step_by(ROW_ENTRIES);
        let made: usize = kinds
            .filter_map(|&kind| Kind::from_number(kind))
            .map(Kind::outputs)
            .sum();
        let mut wires = before.to_vec();
        wires.resize(before.len() + made, T::default());
        run_rows(rows, program, &mut wires, before.len(), gate);
        Wires(wires)
    }

    pub fn value(&self, wire: u16) -> T {
        self.0[usize::from(wire)]
    }
}

#[cfg(test)]
mod tests {
    use super::*;

    /// The program of these bits, in a buffer of one byte more that held other bits.
    fn program_of(bits: &[bool]) -> Vec<u8> {
        let mut program = vec![0x5a; bits.len().div_ceil(8) + 1];
        let mut writer = BitWriter::new(&mut program, bits.len()).expect("the buffer is longer");
        bits.iter().for_each(|&bit| writer.push(bit));
        assert_eq!(writer.written(), bits.len());
        assert_eq!(program.pop(), Some(0x5a));
        program
    }

    #[test]
    fn the_lowest_bit_of_a_byte_comes_first() {
        let mut bits = [false; 10];
        bits[0] = true;
        bits[3] = true;
        bits[8] = true;
        assert_eq!(program_of(&bits), [0x09, 0x01]);
        assert_eq!(program_of(&bits[..8]), [0x09]);
        assert_eq!(program_of(&[]), []);
    }

    #[test]
    fn bits_are_read_where_they_were_written() {
        let bits: Vec<bool> = (0..21).map(|p| p * p % 5 == 1).collect();
        let program = program_of(&bits);
        let read: Vec<bool> = (0..bits.len()).map(|p| bit(&program, p)).collect();
        assert_eq!(read, bits);
    }

    #[test]
    fn a_short_program_is_refused_as_it_was() {
        let mut program = [9; 2];
        assert!(matches!(
            BitWriter::new(&mut program, 17),
            Err(Fault::Short)
        ));
        assert_eq!(program, [9; 2]);
    }

    /// The second row takes the first one's outputs, wires 3 and 4.
    #[test]
    fn a_row_is_straight_or_crossed_by_its_bit() {
        let mut rows = [9; 6];
        let mut drawing = Drawing::new(&mut rows, 3);
        assert_eq!(drawing.x(1, 2), [3, 4]);
        assert_eq!(drawing.x(4, 0), [5, 6]);
        assert_eq!(drawing.finish(), 7);
        assert_eq!(rows, [1, 1, 2, 1, 4, 0]);
        let values = |program: u8| {
            let wires = Wires::run(&rows, &[program], &['z', 'a', 'b'], no_gate);
            [3, 4, 5, 6].map(|wire| wires.value(wire))
        };
        assert_eq!(values(0b00), ['a', 'b', 'b', 'z']);
        assert_eq!(values(0b01), ['b', 'a', 'a', 'z']);
        assert_eq!(values(0b10), ['a', 'b', 'z', 'b']);
        assert_eq!(values(0b11), ['b', 'a', 'z', 'a']);
    }

    /// The second row takes the first one's output, wire 3.
    #[test]
    fn a_row_gives_left_or_right_by_its_bit() {
        let mut rows = [9; 6];
        let mut drawing = Drawing::new(&mut rows, 3);
        assert_eq!(drawing.y(1, 2), 3);
        assert_eq!(drawing.y(0, 3), 4);
        assert_eq!(drawing.finish(), 5);
        assert_eq!(rows, [2, 1, 2, 2, 0, 3]);
        let values = |program: u8| {
            let wires = Wires::run(&rows, &[program], &['z', 'a', 'b'], no_gate);
            [3, 4].map(|wire| wires.value(wire))
        };
        assert_eq!(values(0b00), ['a', 'z']);
        assert_eq!(values(0b01), ['b', 'z']);
        assert_eq!(values(0b10), ['a', 'a']);
        assert_eq!(values(0b11), ['b', 'b']);
    }

    /// The gate's four bits come after the bit of the row before it.
    #[test]
    fn a_gate_has_its_table_and_operands() {
        let mut rows = [9; 6];
        let mut drawing = Drawing::new(&mut rows, 2);
        assert_eq!(drawing.y(0, 1), 2);
        assert_eq!(drawing.g(1, 2), 3);
        assert_eq!(drawing.finish(), 4);
        assert_eq!(rows, [2, 0, 1, 3, 1, 2]);
        let gate = |table: u16, a: u16, b: u16| 100 * a + 10 * b + table;
        let wires = Wires::run(&rows, &[6 << 1], &[3, 5], gate);
        assert_eq!(wires.value(3), 500 + 30 + 6);
        let wires = Wires::run(&rows, &[8 << 1 | 1], &[3, 5], gate);
        assert_eq!(wires.value(3), 500 + 50 + 8);
    }
}
