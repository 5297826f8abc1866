//! Plans: the record, laid out as `include/mukdalis.h` declares it, and its calls.

use crate::fault::{answer, Fault, Refusal};
use crate::raw;

/// A gate: two operands, which are wires below its own, and a table.
///
/// With operand bits a, b its bit is bit 2a + b of the table, bit 0 lowest.
#[repr(C)]
#[derive(Clone, Copy, Debug, PartialEq, Eq)]
pub struct Gate {
    /// The first operand.
    pub first: u16,
    /// The second operand.
    pub second: u16,
    /// 0 to 15: AND is 8, XOR 6, OR 14.
    pub table: u16,
}

/// A plan in memory. Wires 1 to u are its inputs, wire u + g is gate g.
///
/// Gates, outputs and wires count from 1 and lie in the arrays from 0. The first k gates, v outputs
/// and u + k uses are used. Reading zeroes the other places; no call looks at them.
///
/// The last two fields are figures, counted from the others: every call that takes a plan checks
/// them. Reading and the edits, [`Plan::replace_gate`], [`Plan::append_gate`] and
/// [`Plan::replace_output`], settle them; for a record that is made or changed by hand
/// [`Plan::settle_figures`] does.
///
/// ```
/// use mukdalis::{check, Fault, Gate, Plan};
///
/// // Input 1 XOR input 2.
/// let mut plan = Plan { inputs: 2, gate_count: 1, output_count: 1, ..Plan::ZERO };
/// plan.gates[0] = Gate { first: 1, second: 2, table: 6 };
/// plan.outputs[0] = 3;
/// assert_eq!(check(&plan), Err(Fault::Tally));
///
/// plan.settle_figures();
/// assert_eq!(check(&plan), Ok(()));
/// assert_eq!((plan.gate_places, &plan.uses[..4]), (1, &[1, 1, 1, 0][..]));
/// ```
#[repr(C)]
#[derive(Clone, Copy, Debug, PartialEq, Eq)]
pub struct Plan {
    /// u.
    pub inputs: u16,
    /// k.
    pub gate_count: u16,
    /// v.
    pub output_count: u16,
    /// The gates, in the order of their wires.
    pub gates: [Gate; Plan::MAX_GATES],
    /// The gate wires, u + 1 to u + k, that the outputs name.
    pub outputs: [u16; Plan::MAX_OUTPUTS],
    /// K, the smallest power of two not below k: the gates of the plan's fabric.
    pub gate_places: u16,
    /// How many operand places and outputs name each wire, wire w at w - 1; a gate of equal operands
    /// counts twice. Those of the wires 1 to u + k add up to 2k + v.
    pub uses: [u16; Plan::MAX_WIRES],
}

/// A plan that was read from a drawing.
#[derive(Clone, Copy, Debug, PartialEq, Eq)]
pub struct DrawnPlan {
    /// The plan: the drawn gates, each behind those that feed it.
    pub plan: Plan,
    /// The drawn number, from 1, of the gate at each place; 0 in unused places.
    pub drawn: [u16; Plan::MAX_GATES],
}

impl DrawnPlan {
    /// The drawn numbers of the plan's gates, in the order of their places.
    pub fn drawn_numbers(&self) -> &[u16] {
        &self.drawn[..usize::from(self.plan.gate_count)]
    }
}

impl Gate {
    /// An unused place.
    pub const ZERO: Gate = Gate {
        first: 0,
        second: 0,
        table: 0,
    };
}

impl Plan {
    /// The most inputs.
    pub const MAX_INPUTS: usize = 64;
    /// The most gates.
    pub const MAX_GATES: usize = 256;
    /// The most outputs.
    pub const MAX_OUTPUTS: usize = 64;
    /// The most wires: inputs and gates.
    pub const MAX_WIRES: usize = Plan::MAX_INPUTS + Plan::MAX_GATES;
    /// Bytes of the longest plan file.
    pub const MAX_FILE_LEN: usize = 1670;

    /// The all-zero record. It is no accepted plan.
    pub const ZERO: Plan = Plan {
        inputs: 0,
        gate_count: 0,
        output_count: 0,
        gates: [Gate::ZERO; Plan::MAX_GATES],
        outputs: [0; Plan::MAX_OUTPUTS],
        gate_places: 0,
        uses: [0; Plan::MAX_WIRES],
    };

    /// u, k and v, as the fabric's calls take them.
    ///
    /// ```
    /// let plan = mukdalis::read(&[1, 0, 1, 0, 1, 0, 4, 1, 2, 0])?;
    /// let [u, k, v] = plan.counts();
    /// assert_eq!(mukdalis::count_fabric(u, k, v)?.rows, 4);
    /// # Ok::<(), Box<dyn std::error::Error>>(())
    /// ```
    pub fn counts(&self) -> [u32; 3] {
        [self.inputs, self.gate_count, self.output_count].map(u32::from)
    }

    /// How many operand places and outputs name a wire, by the record's figures: `None` for a number
    /// that is no wire of the plan, which has 1 to u + k.
    ///
    /// ```
    /// // Input 1 AND input 2, then that XOR input 1, which is the output.
    /// let plan = mukdalis::read(&[2, 0, 2, 0, 1, 0, 3, 1, 0, 2, 0, 6, 1, 0, 6, 4, 0])?;
    /// assert_eq!([1, 2, 3, 4].map(|wire| plan.uses_of(wire)), [2, 1, 1, 1].map(Some));
    /// assert_eq!([0, 5].map(|wire| plan.uses_of(wire)), [None; 2]);
    /// # Ok::<(), mukdalis::Refusal>(())
    /// ```
    pub fn uses_of(&self, wire: u16) -> Option<u16> {
        let place = usize::from(wire).checked_sub(1)?;
        self.uses[..self.wires()].get(place).copied()
    }

    /// Counts K and the uses of the wires 1 to u + k, for a record that was made or changed by hand.
    /// All other places stay as they were.
    pub fn settle_figures(&mut self) {
        let [_, k, v] = self.counts().map(|count| count as usize);
        let gates = &self.gates[..k.min(Plan::MAX_GATES)];
        let outputs = &self.outputs[..v.min(Plan::MAX_OUTPUTS)];
        let operands = gates.iter().flat_map(|gate| [gate.first, gate.second]);
        let mut uses = [0; Plan::MAX_WIRES];
        for wire in operands.chain(outputs.iter().copied()) {
            let place = usize::from(wire).wrapping_sub(1);
            if let Some(count) = uses.get_mut(place) {
                *count += 1;
            }
        }
        let wires = self.wires();
        self.uses[..wires].copy_from_slice(&uses[..wires]);
        self.gate_places = self.gate_count.checked_next_power_of_two().unwrap_or(0);
    }

    /// u + k, or the most.
    fn wires(&self) -> usize {
        let [u, k, _] = self.counts().map(|count| count as usize);
        (u + k).min(Plan::MAX_WIRES)
    }
}

/// Reads a plan file. The plan has no plan fault, its figures are settled, and its unused places are
/// zero.
///
/// The file: u, k, v, two bytes each, low byte first, as all numbers of two bytes. Per gate a map
/// byte, then the fields whose map bit stands: bit 0 first operand (two bytes; absent: the wire
/// just before the gate), bit 1 second operand (two bytes; absent: the same as the first), bit 2
/// table (one byte; absent: 8). Last v outputs, two bytes each.
///
/// A table byte has four lines where the second operand stands, equal to the first or not: it is the
/// gate's table, 0 to 15. It has two lines where the second operand is absent: it is 0 to 3, bit 0
/// the gate's bit on operand bit 0, bit 1 that on 1, and becomes the table 0, 1, 8 or 9.
///
/// # Errors
///
/// In this order: stub at 0; inputs at 0; gates at 2; outputs at 4; per gate cut, then map, and per
/// field that stands cut, then operand or table; per output cut, then source; tail at the first byte
/// after the last output. The other offsets are those of the field's first byte.
///
/// ```
/// use mukdalis::{read, Fault, Refusal};
///
/// // NOT: a gate of table 1 whose operands are both input 1.
/// let file = [1, 0, 1, 0, 1, 0, 4, 1, 2, 0];
/// let plan = read(&file)?;
/// assert_eq!(plan.counts(), [1, 1, 1]);
/// assert_eq!((plan.gates[0].first, plan.gates[0].second, plan.gates[0].table), (1, 1, 1));
///
/// assert_eq!(read(&file[..9]), Err(Refusal { fault: Fault::Cut, at: 8 }));
///
/// // The same file with other table bytes: 2, which gives what the input gives, and 4.
/// assert_eq!(read(&[1, 0, 1, 0, 1, 0, 4, 2, 2, 0])?.gates[0].table, 8);
/// let above = read(&[1, 0, 1, 0, 1, 0, 4, 4, 2, 0]);
/// assert_eq!(above, Err(Refusal { fault: Fault::Table, at: 7 }));
/// # Ok::<(), Refusal>(())
/// ```
pub fn read(file: &[u8]) -> Result<Plan, Refusal> {
    let raw::Read { number, at, plan } = raw::plan_read(file);
    match answer(number) {
        Ok(()) => Ok(plan),
        Err(fault) => Err(Refusal { fault, at }),
    }
}

/// Reads a plan file whose gates stand in the order in which they were drawn: an operand may be any
/// wire from 1 to u + k, so that a gate may stand before what feeds it.
///
/// The bytes are those of [`read`]; absent fields mean what they mean there, in drawn numbers. The
/// plan is made by taking again and again the lowest-numbered gate whose operands are inputs or
/// gates already taken; operands and outputs are renumbered to match, and the figures are those of
/// the renumbered plan. It gives what the drawing gives. A file that [`read`] reads gives the same
/// plan, with the drawn numbers 1 to k.
///
/// # Errors
///
/// Those of [`read`] in its order, but operand if a wire is 0 or above u + k; then ring exactly if
/// gates are left over, at the map byte of the lowest of them. An operand that a table ignores
/// counts.
///
/// ```
/// use mukdalis::{read, read_drawn, Fault, Refusal};
///
/// // Wires 1 and 2 are inputs. Gate 1 is drawn from gate 3, wire 5; gates 2 to 4 from inputs.
/// let mut file = [2, 0, 4, 0, 1, 0, 1, 5, 0, 1, 1, 0, 1, 2, 0, 3, 1, 0, 2, 0, 3, 0];
/// let drawn = read_drawn(&file)?;
/// assert_eq!(drawn.drawn_numbers(), [2, 3, 1, 4]);
///
/// // Gate 1 stands at place 3, behind gate 3 at place 2, and the output names it there.
/// assert_eq!((drawn.plan.gates[2].first, drawn.plan.outputs[0]), (4, 5));
/// assert_eq!(read(&file), Err(Refusal { fault: Fault::Operand, at: 7 }));
///
/// // Gate 3 drawn from gate 1: both are left over, and gate 1's map byte is at 6.
/// file[13] = 3;
/// assert_eq!(read_drawn(&file), Err(Refusal { fault: Fault::Ring, at: 6 }));
/// # Ok::<(), Refusal>(())
/// ```
pub fn read_drawn(file: &[u8]) -> Result<DrawnPlan, Refusal> {
    let raw::Drawn {
        number,
        at,
        plan,
        drawn,
    } = raw::plan_read_drawn(file);
    match answer(number) {
        Ok(()) => Ok(DrawnPlan { plan, drawn }),
        Err(fault) => Err(Refusal { fault, at }),
    }
}

/// Whether a plan in memory is accepted, that is, has no plan fault.
///
/// # Errors
///
/// The first plan fault: inputs, gates, outputs; per gate operand for both operands, then table;
/// then source over the outputs; then tally if K or the uses of one of the wires 1 to u + k are not
/// the counted ones.
///
/// ```
/// use mukdalis::{check, read, Fault};
///
/// let mut plan = read(&[1, 0, 1, 0, 1, 0, 4, 1, 2, 0])?;
/// assert_eq!(check(&plan), Ok(()));
/// plan.uses[0] += 1;
/// assert_eq!(check(&plan), Err(Fault::Tally));
/// plan.gates[0].table = 16;
/// assert_eq!(check(&plan), Err(Fault::Table));
/// # Ok::<(), mukdalis::Refusal>(())
/// ```
pub fn check(plan: &Plan) -> Result<(), Fault> {
    // SAFETY: the plan goes by value, and every value of its fields is allowed.
    answer(unsafe { raw::mkd_plan_fault(*plan) })
}

/// Evaluates a plan on an input row: `row[i - 1]` is the bit of input i, and the first v entries of
/// `result` become the bits, 0 or 1, of the wires that the outputs name, in their order.
///
/// The row has u entries, `result` v or more; entries past v are unchanged.
///
/// # Errors
///
/// In this order: the plan faults, see [`check`]; contact if the row has another length or an entry
/// that is not 0 or 1; short if `result` has less than v entries. `result` is then unchanged.
///
/// ```
/// use mukdalis::{evaluate, read};
///
/// // Input 1 AND input 2, then that XOR input 1.
/// let plan = read(&[2, 0, 2, 0, 1, 0, 3, 1, 0, 2, 0, 6, 1, 0, 6, 4, 0])?;
/// for (row, output) in [([0, 0], 0), ([1, 0], 1), ([0, 1], 0), ([1, 1], 0)] {
///     let mut result = [9; 2];
///     evaluate(&plan, &row, &mut result)?;
///     assert_eq!(result, [output, 9]);
/// }
/// # Ok::<(), Box<dyn std::error::Error>>(())
/// ```
pub fn evaluate(plan: &Plan, row: &[u8], result: &mut [u8]) -> Result<(), Fault> {
    // SAFETY: both pointers and lengths are slices', which do not overlap since one is borrowed
    // for writing; the call stays within them and keeps no pointer.
    answer(unsafe {
        raw::mkd_plan_evaluate(
            *plan,
            row.as_ptr(),
            row.len(),
            result.as_mut_ptr(),
            result.len(),
        )
    })
}

/// Saves a plan: gives its shortest file. [`read`] of it gives the plan, with its unused places
/// zero, and no file that [`read`] reads as this plan is shorter.
///
/// The file is laid out as [`read`] says. Only fields that differ from what their absence means
/// stand: the first operand if it is not the wire just before the gate, the table if it is not 8.
/// The second operand is left out exactly if it equals the first and the table has bits 1 and 2
/// clear, so that two lines say it: the tables 0, 1, 8 and 9. The file has at most
/// [`Plan::MAX_FILE_LEN`] bytes.
///
/// # Errors
///
/// The first plan fault, see [`check`].
///
/// ```
/// use mukdalis::{read, save, Fault};
///
/// // NOT, with all three fields standing. Both operands equal what their absence means, and the
/// // table needs two lines only: the table byte alone is left.
/// let mut plan = read(&[1, 0, 1, 0, 1, 0, 7, 1, 0, 1, 0, 1, 2, 0])?;
/// let file = save(&plan)?;
/// assert_eq!(file, [1, 0, 1, 0, 1, 0, 4, 1, 2, 0]);
/// assert_eq!(read(&file), Ok(plan));
///
/// // With table 6 the second operand stands, though it equals the first.
/// plan.gates[0].table = 6;
/// assert_eq!(save(&plan)?, [1, 0, 1, 0, 1, 0, 6, 1, 0, 6, 2, 0]);
///
/// plan.outputs[0] = 1;
/// assert_eq!(save(&plan), Err(Fault::Source));
/// # Ok::<(), Box<dyn std::error::Error>>(())
/// ```
pub fn save(plan: &Plan) -> Result<Vec<u8>, Fault> {
    let mut file = [0; Plan::MAX_FILE_LEN];
    let raw::Saved { number, length } = raw::plan_save(plan, &mut file);
    answer(number).map(|()| file[..length as usize].to_vec())
}
