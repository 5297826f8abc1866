//! Edits of a plan in memory, which keep its figures: K and the uses of its wires.

use crate::fault::{answer, Fault};
use crate::plan::{Gate, Plan};
use crate::raw;

impl Plan {
    /// The plan with another gate in place of gate `gate`, from 1 to k.
    ///
    /// Its figures are settled. All other places, used or not, are as they were.
    ///
    /// # Errors
    ///
    /// In this order: the plan faults, see [`check`](crate::check); place if `gate` is 0 or above k;
    /// operand if the new gate's first or second operand is wire 0 or not below its own wire,
    /// u + `gate`; table if its table is above 15.
    ///
    /// ```
    /// use mukdalis::{read, Fault, Gate};
    ///
    /// // Input 1 AND input 2, then that XOR input 1.
    /// let plan = read(&[2, 0, 2, 0, 1, 0, 3, 1, 0, 2, 0, 6, 1, 0, 6, 4, 0])?;
    /// assert_eq!([1, 2, 3].map(|wire| plan.uses_of(wire)), [2, 1, 1].map(Some));
    ///
    /// // Gate 2 becomes input 2 alone: a gate of equal operands uses its wire twice.
    /// let follow = Gate { first: 2, second: 2, table: 8 };
    /// let edited = plan.replace_gate(2, follow)?;
    /// assert_eq!([1, 2, 3].map(|wire| edited.uses_of(wire)), [1, 3, 0].map(Some));
    ///
    /// assert_eq!(plan.replace_gate(3, follow), Err(Fault::Place));
    /// assert_eq!(plan.replace_gate(2, Gate { first: 4, ..follow }), Err(Fault::Operand));
    /// # Ok::<(), Box<dyn std::error::Error>>(())
    /// ```
    pub fn replace_gate(&self, gate: u32, new_gate: Gate) -> Result<Plan, Fault> {
        edited(raw::plan_replace_gate(self, gate, new_gate))
    }

    /// The plan with a gate more, behind its last one; no wire's number changes.
    ///
    /// Its figures are settled: nothing uses the new wire, u + k + 1, and K doubles where k was a
    /// power of two. All other places, used or not, are as they were.
    ///
    /// # Errors
    ///
    /// In this order: the plan faults, see [`check`](crate::check); gates if the plan has
    /// [`Plan::MAX_GATES`]; operand if the new gate's first or second operand is wire 0 or not below
    /// its own wire; table if its table is above 15.
    ///
    /// ```
    /// use mukdalis::{read, Gate};
    ///
    /// // NOT of input 1, wire 2. A gate more gives its NOT in turn, wire 3, and becomes the output.
    /// let plan = read(&[1, 0, 1, 0, 1, 0, 4, 1, 2, 0])?;
    /// let longer = plan.append_gate(Gate { first: 2, second: 2, table: 1 })?;
    /// assert_eq!((plan.gate_places, longer.gate_places), (1, 2));
    /// assert_eq!([2, 3].map(|wire| longer.uses_of(wire)), [3, 0].map(Some));
    ///
    /// let shown = longer.replace_output(1, 3)?;
    /// assert_eq!([2, 3].map(|wire| shown.uses_of(wire)), [2, 1].map(Some));
    /// # Ok::<(), Box<dyn std::error::Error>>(())
    /// ```
    pub fn append_gate(&self, new_gate: Gate) -> Result<Plan, Fault> {
        edited(raw::plan_append_gate(self, new_gate))
    }

    /// The plan with another wire in place of that of output `output`, from 1 to v.
    ///
    /// Its figures are settled. All other places, used or not, are as they were.
    ///
    /// # Errors
    ///
    /// In this order: the plan faults, see [`check`](crate::check); place if `output` is 0 or above v;
    /// source if the wire is not in u + 1 to u + k.
    ///
    /// ```
    /// use mukdalis::{read, Fault};
    ///
    /// // Input 1 AND input 2, then that XOR input 1; the output is the second gate, then the first.
    /// let plan = read(&[2, 0, 2, 0, 1, 0, 3, 1, 0, 2, 0, 6, 1, 0, 6, 4, 0])?;
    /// let edited = plan.replace_output(1, 3)?;
    /// assert_eq!([3, 4].map(|wire| plan.uses_of(wire)), [1, 1].map(Some));
    /// assert_eq!([3, 4].map(|wire| edited.uses_of(wire)), [2, 0].map(Some));
    ///
    /// assert_eq!(plan.replace_output(2, 3), Err(Fault::Place));
    /// assert_eq!(plan.replace_output(1, 2), Err(Fault::Source));
    /// # Ok::<(), Box<dyn std::error::Error>>(())
    /// ```
    pub fn replace_output(&self, output: u32, wire: u16) -> Result<Plan, Fault> {
        edited(raw::plan_replace_output(self, output, wire))
    }
}

fn edited(raw::Edit { number, plan }: raw::Edit) -> Result<Plan, Fault> {
    answer(number).map(|()| plan)
}
