//! Small files with one gate of every map byte and every table byte, and what documents 01 and 02
//! say of that gate.

use mukdalis::{Fault, Gate, Plan, Refusal};

use super::drawings::shuffled;
use super::{accepted_plan, Counts, PlanFile, AND, LAST_TABLE, TWO_LINES};
use crate::random::Random;

/// The highest map byte: one bit for each of a gate's three fields.
const LAST_MAP: u8 = 7;

/// How many map bytes are tried: the last is one too high.
pub const TRIED_MAPS: usize = LAST_MAP as usize + 2;

/// A gate of a small plan or drawing whose bytes are tried. No other gate draws from it, so that it
/// is in no ring, whatever it draws from.
pub struct TriedGate {
    /// Its number, from 1.
    pub number: u16,
    own: u16,
    /// The wires that its standing operands name.
    wires: [u16; 2],
    /// The file's bytes before the gate's.
    before: Vec<u8>,
    /// The file's bytes behind the gate's.
    behind: Vec<u8>,
}

impl TriedGate {
    /// The first gate of a random plan, a middle one and the last, on wires before their own.
    pub fn of_plan(random: &mut Random) -> [TriedGate; 3] {
        let counts = tried_counts(random);
        let plan = accepted_plan(random, counts);
        tried_numbers(&plan).map(|number| {
            let mut wires: Vec<u16> = (1..plan.inputs + number).collect();
            random.shuffle(&mut wires);
            TriedGate::new(random, &plan, number, [wires[0], wires[1]])
        })
    }

    /// Those of a plan drawn in a random order, on any wires but their own, first on later ones.
    pub fn of_drawing(random: &mut Random) -> [TriedGate; 3] {
        let counts = tried_counts(random);
        let plan = accepted_plan(random, counts);
        let drawing = shuffled(random, &plan);
        tried_numbers(&drawing).map(|number| {
            let own = drawing.inputs + number;
            let mut wires: Vec<u16> = (1..=drawing.inputs + drawing.gate_count).collect();
            wires.retain(|&wire| wire != own);
            random.shuffle(&mut wires);
            wires.sort_by_key(|&wire| wire < own);
            TriedGate::new(random, &drawing, number, [wires[0], wires[1]])
        })
    }

    /// The gate of this number; gates that draw from it draw from input 1 instead.
    fn new(random: &mut Random, plan: &Plan, number: u16, wires: [u16; 2]) -> TriedGate {
        let own = plan.inputs + number;
        let mut plan = *plan;
        for gate in &mut plan.gates[..usize::from(plan.gate_count)] {
            for operand in [&mut gate.first, &mut gate.second] {
                if *operand == own {
                    *operand = 1;
                }
            }
        }
        let file = PlanFile::random(random, &plan);
        let places = file.gate_places(number);
        TriedGate {
            number,
            own,
            wires,
            before: file.bytes[..places.start].to_vec(),
            behind: file.bytes[places.end..].to_vec(),
        }
    }

    /// The file with every map byte, every choice of operands and every ending of the gate.
    pub fn files(&self) -> impl Iterator<Item = GateFile> + '_ {
        self.starts().flat_map(move |start| {
            Ending::all().map(move |ending| start.file(ending, &self.behind))
        })
    }

    fn starts(&self) -> impl Iterator<Item = Start> + '_ {
        (0..TRIED_MAPS as u8).flat_map(move |map| {
            let operands = self.operands(map).into_iter();
            operands.map(move |operands| Start::new(&self.before, map, operands))
        })
    }

    /// The operands with this map byte: a second one that stands equals the first, or does not.
    fn operands(&self, map: u8) -> Vec<[u16; 2]> {
        let first = match stands(map, 0) {
            true => self.wires[0],
            false => self.own - 1,
        };
        let mut operands = vec![[first, first]];
        if stands(map, 1) {
            let other = self.wires.into_iter().find(|&wire| wire != first);
            operands.extend(other.map(|other| [first, other]));
        }
        operands
    }
}

/// Counts with two wires before the first gate, and a gate between the first and the last.
fn tried_counts(random: &mut Random) -> Counts {
    let mut count = |least, most| random.between(least, most);
    Counts(count(2, 4), count(3, 5), count(1, 3))
}

fn tried_numbers(plan: &Plan) -> [u16; 3] {
    let k = plan.gate_count;
    [1, k.div_ceil(2), k]
}

fn stands(map: u8, bit: u8) -> bool {
    map >> bit & 1 == 1
}

/// A file with a tried gate.
pub struct GateFile {
    pub bytes: Vec<u8>,
    pub map: u8,
    /// The gate, with its operands as drawn, or a refusal. None where the map byte names a table
    /// that is not there, or the other way round: what is then due is left to the reference.
    pub due: Option<Result<Gate, Refusal>>,
}

/// What stands behind the operands of a tried gate.
#[derive(Clone, Copy)]
enum Ending {
    /// Nothing: the file is cut.
    Cut,
    /// The next gate or the first output.
    NoTable,
    /// The same behind a table byte.
    Table(u8),
}

impl Ending {
    fn all() -> impl Iterator<Item = Ending> {
        let without = [Ending::Cut, Ending::NoTable].into_iter();
        without.chain((0..=u8::MAX).map(Ending::Table))
    }
}

/// A file up to the operands of its tried gate.
struct Start {
    bytes: Vec<u8>,
    map_offset: usize,
    map: u8,
    operands: [u16; 2],
}

impl Start {
    fn new(before: &[u8], map: u8, operands: [u16; 2]) -> Start {
        let mut bytes = before.to_vec();
        bytes.push(map);
        for (bit, operand) in (0..).zip(operands) {
            if stands(map, bit) {
                bytes.extend(operand.to_le_bytes());
            }
        }
        Start {
            bytes,
            map_offset: before.len(),
            map,
            operands,
        }
    }

    fn file(&self, ending: Ending, behind: &[u8]) -> GateFile {
        let start = &self.bytes[..];
        let bytes = match ending {
            Ending::Cut => start.to_vec(),
            Ending::NoTable => [start, behind].concat(),
            Ending::Table(byte) => [start, &[byte], behind].concat(),
        };
        GateFile {
            bytes,
            map: self.map,
            due: self.due(ending),
        }
    }

    fn due(&self, ending: Ending) -> Option<Result<Gate, Refusal>> {
        let refused = |fault, at| Refusal {
            fault,
            at: at as u64,
        };
        if self.map > LAST_MAP {
            return Some(Err(refused(Fault::Map, self.map_offset)));
        }
        let end = self.bytes.len();
        match (ending, stands(self.map, 2)) {
            (Ending::Cut, _) => Some(Err(refused(Fault::Cut, end))),
            (Ending::NoTable, false) => Some(Ok(self.gate(AND))),
            (Ending::Table(byte), true) => {
                let gate = self.table(byte).map(|table| self.gate(table));
                Some(gate.ok_or(refused(Fault::Table, end)))
            }
            _ => None,
        }
    }

    /// The table of a table byte within its limit: of four lines where the second operand stands,
    /// equal to the first or not, otherwise of two.
    fn table(&self, byte: u8) -> Option<u16> {
        let byte = u16::from(byte);
        match stands(self.map, 1) {
            true => (byte <= LAST_TABLE).then_some(byte),
            false => TWO_LINES.get(usize::from(byte)).copied(),
        }
    }

    fn gate(&self, table: u16) -> Gate {
        let [first, second] = self.operands;
        Gate {
            first,
            second,
            table,
        }
    }
}

#[cfg(test)]
mod tests {
    use super::super::drawings::drawn_as;
    use super::*;
    use crate::reference::{drawn, plan};

    /// Every map byte with every choice of operands, 13 in all: cut, without a table, and with each
    /// table byte.
    #[test]
    fn every_map_and_table_byte_comes_once() {
        let mut random = Random::new(1);
        for gate in TriedGate::of_plan(&mut random) {
            let mut files: Vec<Vec<u8>> = gate.files().map(|file| file.bytes).collect();
            assert_eq!(files.len(), 13 * (2 + 256));
            files.sort_unstable();
            files.dedup();
            assert_eq!(files.len(), 13 * (2 + 256));
        }
    }

    /// The answer to a file in the plain reading, with the gate of this number.
    fn plain(file: &[u8], number: u16) -> Result<Gate, Refusal> {
        plan::read(file).map(|plan| plan.gates[usize::from(number) - 1])
    }

    /// The same in the drawn reading, with the operands as drawn.
    fn as_drawn(file: &[u8], number: u16) -> Result<Gate, Refusal> {
        let drawn = drawn::read(file)?;
        let drawing = drawn_as(&drawn.plan, drawn.drawn_numbers());
        Ok(drawing.gates[usize::from(number) - 1])
    }

    fn check_due(gates: [TriedGate; 3], answer: fn(&[u8], u16) -> Result<Gate, Refusal>) {
        for gate in gates {
            for GateFile { bytes, due, .. } in gate.files() {
                if let Some(due) = due {
                    assert_eq!(answer(&bytes, gate.number), due, "{bytes:?}");
                }
            }
        }
    }

    #[test]
    fn the_reference_gives_what_is_due() {
        let mut random = Random::new(2);
        for _ in 0..4 {
            check_due(TriedGate::of_plan(&mut random), plain);
            check_due(TriedGate::of_drawing(&mut random), as_drawn);
        }
    }

    #[test]
    fn tried_gates_of_drawings_draw_from_later_ones() {
        let mut random = Random::new(3);
        for _ in 0..100 {
            let [first, middle, last] = TriedGate::of_drawing(&mut random);
            for gate in [first, middle] {
                assert!(gate.wires[0] > gate.own);
            }
            assert!(last.wires.iter().all(|&wire| wire < last.own));
        }
    }
}
