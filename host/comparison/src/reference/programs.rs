//! What the programs `twintest` and `fabricsheet` print for a file.

use std::fmt::Write;

use mukdalis::{Fault, Kinds, Plan, Refusal};

use super::{fabric, plan, program, run};

/// A program that reads a plan on standard input.
#[derive(Clone, Copy, Debug)]
pub enum Program {
    Twintest,
    Fabricsheet,
}

impl Program {
    pub const ALL: [Program; 2] = [Program::Twintest, Program::Fabricsheet];

    /// The name of its file.
    pub fn name(self) -> &'static str {
        match self {
            Program::Twintest => "twintest",
            Program::Fabricsheet => "fabricsheet",
        }
    }

    /// All that it prints for a file: a refusal alone, or what it shows of the plan.
    pub fn text(self, file: &[u8]) -> String {
        let show = match self {
            Program::Twintest => show_rows,
            Program::Fabricsheet => show_sheet,
        };
        match read_small(file) {
            Err(refusal) => format!("{refusal}\n"),
            Ok(plan) => show(&plan).expect("an accepted plan has a fabric and a program"),
        }
    }
}

/// The most gates of a plan that is shown.
pub const SHOWN_GATES: u16 = 64;

/// The most inputs whose every row is shown; those past it stay 0.
const SHOWN_INPUTS: u16 = 6;

/// The answer to an accepted plan of more than `SHOWN_GATES` gates.
const TOO_MANY_GATES: Refusal = Refusal {
    fault: Fault::Short,
    at: 0,
};

/// Reads a plan that is shown.
fn read_small(file: &[u8]) -> Result<Plan, Refusal> {
    match plan::read(file)? {
        plan if plan.gate_count > SHOWN_GATES => Err(TOO_MANY_GATES),
        plan => Ok(plan),
    }
}

/// The counts, then for each row its inputs, the plan's outputs and the fabric's.
fn show_rows(plan: &Plan) -> Result<String, Fault> {
    let [u, k, v] = plan.counts();
    let size = fabric::count(u, k, v)?;
    let mut table = vec![0; 3 + 3 * size.rows as usize + v as usize];
    fabric::write(u, k, v, &mut table)?;
    let mut bits = vec![0; size.bits.div_ceil(8) as usize];
    program::write(plan, &mut bits)?;

    let (rows, wires) = (size.rows, size.wires);
    let mut text = format!(
        "u {u} k {k} v {v} rows {rows} wires {wires} bits {}\n",
        size.bits
    );
    let mut work = vec![0; wires as usize];
    let (mut by_plan, mut by_fabric) = (vec![0; v as usize], vec![0; v as usize]);
    for r in 0..1u64 << plan.inputs.min(SHOWN_INPUTS) {
        let row: Vec<u8> = (0..u).map(|i| (r >> i & 1) as u8).collect();
        plan::evaluate(plan, &row, &mut by_plan)?;
        run::run(&table, &bits, &row, &mut work, &mut by_fabric)?;
        let [row, by_plan, by_fabric] = [&row, &by_plan, &by_fabric].map(|bits| digits(bits));
        let _ = writeln!(text, "{row} {by_plan} {by_fabric}");
    }
    Ok(text)
}

fn digits(bits: &[u8]) -> String {
    bits.iter().map(|bit| bit.to_string()).collect()
}

/// The rows by kind of the fabric's three parts, then of its whole table.
fn show_sheet(plan: &Plan) -> Result<String, Fault> {
    let [u, k, v] = plan.counts();
    let sheet = fabric::count_kinds(u, k, v)?;
    let parts = [
        ("input", sheet.input),
        ("block", sheet.block),
        ("output", sheet.output),
        ("sum", sheet.sum),
    ];
    let line = |(name, Kinds { x, y, g, total })| format!("{name} {x} {y} {g} {total}\n");
    Ok(parts.map(line).concat())
}
