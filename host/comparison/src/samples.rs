//! Random accepted plans and their files, drawings, edits, calls of the block library, fabric tables,
//! and series of intervals, from which the comparisons make their cases.

pub mod blocks;
pub mod damage;
pub mod drawings;
pub mod edits;
pub mod fabric;
pub mod gates;
pub mod permutation;
pub mod plans;
pub mod programs;
pub mod selection;
pub mod series;

use std::ops::Range;

use mukdalis::{Gate, Plan};

use crate::random::Random;

/// Bytes of the longest plan file.
pub const LONGEST_FILE: usize = 1670;

/// The table of AND, which an absent table means.
const AND: u16 = 8;

/// The highest table, which has four lines.
const LAST_TABLE: u16 = 15;

/// The tables that need two lines only, as a file has where it leaves the second operand out: each
/// at its table byte.
const TWO_LINES: [u16; 4] = [0, 1, 8, 9];

/// The highest table byte of two lines.
const LAST_TWO_LINES: u16 = TWO_LINES.len() as u16 - 1;

/// Counts at and beside their limits, and some whose low byte alone would be in range.
pub const LIMIT_COUNTS: [u16; 13] = [
    0, 1, 2, 63, 64, 65, 255, 256, 257, 0x0140, 0x0201, 0x4000, 0xffff,
];

/// A plan's numbers of inputs, gates and outputs: u, k, v.
#[derive(Clone, Copy)]
pub struct Counts(pub u16, pub u16, pub u16);

impl Counts {
    /// Those of which times and instructions are measured.
    pub const MEASURED: [Counts; 5] = [
        Counts(1, 1, 1),
        Counts(25, 50, 1),
        Counts(64, 64, 64),
        Counts(64, 188, 33),
        Counts::MOST,
    ];

    pub const LEAST: Counts = Counts(1, 1, 1);
    pub const MOST: Counts = Counts(
        Plan::MAX_INPUTS as u16,
        Plan::MAX_GATES as u16,
        Plan::MAX_OUTPUTS as u16,
    );

    /// Counts in range, most of them small, many at a limit or beside it.
    pub fn random(random: &mut Random) -> Counts {
        let Counts(u, k, v) = Counts::MOST;
        let mut count = |most: u16| match random.between(1, 5) {
            1 => random.choose(&[1, 2, most - 1, most]),
            2 => random.between(1, most),
            _ => random.between(1, 8),
        };
        Counts(count(u), count(k), count(v))
    }

    /// Counts of up to a few, for plans of which every byte is tried.
    pub fn small(random: &mut Random) -> Counts {
        let mut count = |most| random.between(1, most);
        Counts(count(4), count(5), count(3))
    }
}

/// A random accepted plan. Many operands and tables are what an absent field means, and many tables
/// need two lines only.
pub fn accepted_plan(random: &mut Random, Counts(u, k, v): Counts) -> Plan {
    let mut plan = Plan {
        inputs: u,
        gate_count: k,
        output_count: v,
        ..Plan::ZERO
    };
    for (own, gate) in (u + 1..=u + k).zip(&mut plan.gates) {
        *gate = accepted_gate(random, own);
    }
    for output in &mut plan.outputs[..usize::from(v)] {
        *output = random.between(u + 1, u + k);
    }
    plan.settle_figures();
    plan
}

/// A random gate that is accepted with this wire.
fn accepted_gate(random: &mut Random, own: u16) -> Gate {
    let first = random.between(1, own - 1);
    let first = random.choose(&[first, first, own - 1]);
    let second = random.between(1, own - 1);
    let second = random.choose(&[second, second, first]);
    let any = random.between(0, LAST_TABLE);
    let two_lines = random.choose(&TWO_LINES);
    let table = random.choose(&[any, any, two_lines, AND]);
    Gate {
        first,
        second,
        table,
    }
}

/// The table byte of a table that needs two lines only.
fn two_line_byte(table: u16) -> Option<u16> {
    let mut bytes = 0..=LAST_TWO_LINES;
    bytes.find(|&byte| TWO_LINES[usize::from(byte)] == table)
}

/// Fills the unused places of a plan whose counts are in range with anything.
pub fn fill_unused(random: &mut Random, plan: &mut Plan) {
    for gate in &mut plan.gates[usize::from(plan.gate_count)..] {
        gate.first = random.word() as u16;
        gate.second = random.word() as u16;
        gate.table = random.word() as u16;
    }
    for output in &mut plan.outputs[usize::from(plan.output_count)..] {
        *output = random.word() as u16;
    }
    for uses in &mut plan.uses[usize::from(plan.inputs + plan.gate_count)..] {
        *uses = random.word() as u16;
    }
}

/// Which fields stand in a file although they equal their defaults.
#[derive(Clone, Copy)]
pub enum Standing {
    None,
    Some,
    All,
}

impl Standing {
    pub const ALL: [Standing; 3] = [Standing::None, Standing::Some, Standing::All];

    fn decide(self, random: &mut Random) -> bool {
        match self {
            Standing::None => false,
            Standing::Some => random.one_in(2),
            Standing::All => true,
        }
    }
}

/// The file of a random accepted plan, with any fields standing.
pub fn accepted_file(random: &mut Random, counts: Counts) -> PlanFile {
    let plan = accepted_plan(random, counts);
    PlanFile::random(random, &plan)
}

/// A field of a plan file, with what decides whether a value of it is good.
#[derive(Clone, Copy)]
pub enum Field {
    Count { most: u16 },
    Map,
    Operand { own: u16, last: u16 },
    Table { most: u16 },
    Output { first: u16, last: u16 },
}

impl Field {
    /// Values at and beside the field's limits, for a table those of two lines and of four.
    pub fn limits(self) -> Vec<u16> {
        match self {
            Field::Count { most } => vec![0, 1, most, most + 1, 256, u16::MAX],
            Field::Map => vec![0, 7, 8, 16, 128, 255],
            Field::Operand { own, last } => {
                vec![0, 1, own - 1, own, own + 1, last, last + 1, 256, u16::MAX]
            }
            Field::Table { .. } => vec![0, 1, 2, 3, 4, 7, 8, 9, 15, 16, 128, 255],
            Field::Output { first, last } => {
                vec![0, first - 1, first, last, last + 1, last + 256, u16::MAX]
            }
        }
    }

    /// Whether the field has two bytes.
    fn is_number(self) -> bool {
        !matches!(self, Field::Map | Field::Table { .. })
    }
}

/// A plan file with the place of each of its fields.
#[derive(Clone, Default)]
pub struct PlanFile {
    pub bytes: Vec<u8>,
    pub fields: Vec<(usize, Field)>,
}

impl PlanFile {
    /// The file of an accepted plan, or of a drawing: every field that differs from its default
    /// stands, a second operand also where the table needs four lines, and of the others those that
    /// `standing` adds.
    pub fn new(random: &mut Random, plan: &Plan, standing: Standing) -> PlanFile {
        let Counts(most_inputs, most_gates, most_outputs) = Counts::MOST;
        let (u, k, v) = (plan.inputs, plan.gate_count, plan.output_count);
        let mut file = PlanFile::default();
        file.put(Field::Count { most: most_inputs }, u);
        file.put(Field::Count { most: most_gates }, k);
        file.put(Field::Count { most: most_outputs }, v);
        for (own, gate) in (u + 1..=u + k).zip(&plan.gates) {
            file.put_gate(random, gate, own, u + k, standing);
        }
        for &output in &plan.outputs[..usize::from(v)] {
            let (first, last) = (u + 1, u + k);
            file.put(Field::Output { first, last }, output);
        }
        file
    }

    /// The same with any fields standing.
    pub fn random(random: &mut Random, plan: &Plan) -> PlanFile {
        let standing = random.choose(&Standing::ALL);
        PlanFile::new(random, plan, standing)
    }

    /// Where the map byte of gate g, from 1, stands.
    pub fn map_offset(&self, g: u16) -> usize {
        let maps = self.fields.iter();
        let mut maps = maps.filter(|(_, field)| matches!(field, Field::Map));
        maps.nth(usize::from(g) - 1).expect("the gate is there").0
    }

    /// The places of the bytes of gate g, from 1.
    fn gate_places(&self, g: u16) -> Range<usize> {
        let start = self.map_offset(g);
        let mut behind = self.fields.iter().filter(|&&(at, _)| at > start);
        let next = behind.find(|(_, field)| matches!(field, Field::Map | Field::Output { .. }));
        start..next.expect("an output is there").0
    }

    /// The gate whose wire is `own`, in a plan whose last wire is `last`.
    fn put_gate(
        &mut self,
        random: &mut Random,
        gate: &Gate,
        own: u16,
        last: u16,
        standing: Standing,
    ) {
        let two_lines = two_line_byte(gate.table);
        let mut stands = |due: bool| due || standing.decide(random);
        let first = stands(gate.first != own - 1);
        let second = stands(gate.second != gate.first || two_lines.is_none());
        let table = stands(gate.table != AND);
        let map = u16::from(first) | u16::from(second) << 1 | u16::from(table) << 2;
        self.put(Field::Map, map);
        if first {
            self.put(Field::Operand { own, last }, gate.first);
        }
        if second {
            self.put(Field::Operand { own, last }, gate.second);
        }
        if table {
            let (most, byte) = match two_lines {
                Some(byte) if !second => (LAST_TWO_LINES, byte),
                _ => (LAST_TABLE, gate.table),
            };
            self.put(Field::Table { most }, byte);
        }
    }

    fn put(&mut self, field: Field, value: u16) {
        self.fields.push((self.bytes.len(), field));
        let [low, high] = value.to_le_bytes();
        self.bytes.push(low);
        if field.is_number() {
            self.bytes.push(high);
        }
    }
}

#[cfg(test)]
mod tests {
    use super::*;
    use crate::reference::plan::read;

    #[test]
    fn the_longest_file_has_every_field_of_the_most_gates_and_outputs() {
        let mut random = Random::new(1);
        let plan = accepted_plan(&mut random, Counts::MOST);
        let file = PlanFile::new(&mut random, &plan, Standing::All);
        assert_eq!(file.bytes.len(), LONGEST_FILE);
        assert_eq!(read(&file.bytes), Ok(plan));
    }

    #[test]
    fn two_lines_are_those_of_equal_operand_bits() {
        for (byte, table) in (0..).zip(TWO_LINES) {
            assert_eq!(table, byte & 1 | (byte >> 1) << 3);
            assert_eq!(two_line_byte(table), Some(byte));
        }
        let others = (0..=LAST_TABLE).filter(|&table| two_line_byte(table).is_none());
        assert_eq!(others.count(), 12);
    }

    /// The limit of the file's one table byte.
    fn table_limit(file: &PlanFile) -> Option<u16> {
        file.fields.iter().find_map(|&(_, field)| match field {
            Field::Table { most } => Some(most),
            _ => None,
        })
    }

    /// A gate of equal operands, with every table, in its shortest file.
    #[test]
    fn a_second_operand_stands_where_the_table_needs_four_lines() {
        let mut random = Random::new(2);
        let mut plan = accepted_plan(&mut random, Counts::LEAST);
        for table in 0..=LAST_TABLE {
            plan.gates[0].table = table;
            let file = PlanFile::new(&mut random, &plan, Standing::None);
            let (limit, fields) = match table {
                0 | 1 | 9 => (Some(LAST_TWO_LINES), 6),
                AND => (None, 5),
                _ => (Some(LAST_TABLE), 7),
            };
            assert_eq!(table_limit(&file), limit, "table {table}");
            assert_eq!(file.fields.len(), fields, "table {table}");
            assert_eq!(read(&file.bytes), Ok(plan));
        }
    }

    /// Tables of two lines, and of four behind a second operand that equals the first: each in more
    /// than one of twenty gates.
    #[test]
    fn gates_of_equal_operands_have_tables_of_either_form_often() {
        let mut random = Random::new(3);
        let (mut short, mut long) = (0, 0);
        for _ in 0..1_000 {
            let plan = accepted_plan(&mut random, Counts(3, 1, 1));
            let file = PlanFile::random(&mut random, &plan);
            let gate = plan.gates[0];
            match table_limit(&file) {
                Some(LAST_TWO_LINES) => short += 1,
                Some(_) if gate.first == gate.second => long += 1,
                _ => {}
            }
        }
        assert!(short > 50 && long > 50, "{short} and {long}");
    }
}
