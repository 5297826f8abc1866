//! Cases and answers as text, for the report of a difference.

use std::fmt::Write;

use mukdalis::{raw, Fault, Gate, Plan};

use crate::samples::blocks::{Programming, Writing};
use crate::samples::fabric::Run;
use crate::samples::series::{SeriesCase, Step};

pub fn show_number(number: u32) -> String {
    match Fault::from_number(number) {
        Some(fault) => format!("{number} {}", fault.word()),
        None if number == 0 => "0 done".to_string(),
        None => format!("{number}, which is no refusal"),
    }
}

pub fn show_read(read: &raw::Read) -> String {
    let number = show_number(read.number);
    format!("{number} at {}, {}", read.at, show_plan(&read.plan))
}

pub fn show_drawn(read: &raw::Drawn) -> String {
    let number = show_number(read.number);
    let (plan, drawn) = (show_plan(&read.plan), up_to_last(&read.drawn, &0));
    format!("{number} at {}, {plan} drawn {drawn:?}", read.at)
}

pub fn show_saved(saved: &raw::Saved) -> String {
    format!("{}, {} bytes", show_number(saved.number), saved.length)
}

pub fn show_edit(edit: &raw::Edit) -> String {
    format!("{}, {}", show_number(edit.number), show_plan(&edit.plan))
}

/// All places of a plan up to the last that is not zero: counts and K in decimal, the rest in hex.
pub fn show_plan(plan: &Plan) -> String {
    let (u, k, v) = (plan.inputs, plan.gate_count, plan.output_count);
    let mut text = format!("u {u} k {k} v {v} gates");
    for gate in up_to_last(&plan.gates, &Gate::ZERO) {
        let _ = write!(text, " {:x}.{:x}.{:x}", gate.first, gate.second, gate.table);
    }
    text.push_str(" outputs");
    for output in up_to_last(&plan.outputs, &0) {
        let _ = write!(text, " {output:x}");
    }
    let _ = write!(text, " places {} uses", plan.gate_places);
    for uses in up_to_last(&plan.uses, &0) {
        let _ = write!(text, " {uses:x}");
    }
    text
}

fn up_to_last<'a, T: PartialEq>(places: &'a [T], zero: &T) -> &'a [T] {
    let used = places.iter().rposition(|place| place != zero);
    &places[..used.map_or(0, |last| last + 1)]
}

/// The first place where two plans differ, counted from 0.
pub fn first_difference(expected: &Plan, found: &Plan) -> String {
    let counts = |plan: &Plan| (plan.inputs, plan.gate_count, plan.output_count);
    if counts(expected) != counts(found) {
        return "the plan's counts".to_string();
    }
    if let Some(g) = (0..Plan::MAX_GATES).find(|&g| expected.gates[g] != found.gates[g]) {
        return format!("the plan's gates[{g}]");
    }
    if let Some(j) = (0..Plan::MAX_OUTPUTS).find(|&j| expected.outputs[j] != found.outputs[j]) {
        return format!("the plan's outputs[{j}]");
    }
    if expected.gate_places != found.gate_places {
        return "the plan's gate_places".to_string();
    }
    if let Some(w) = (0..Plan::MAX_WIRES).find(|&w| expected.uses[w] != found.uses[w]) {
        return format!("the plan's uses[{w}]");
    }
    "the number or the offset".to_string()
}

/// The same of two drawn reads: their plans, or else their drawn numbers.
pub fn first_drawn_difference(expected: &raw::Drawn, found: &raw::Drawn) -> String {
    let mut places = 0..Plan::MAX_GATES;
    match places.find(|&p| expected.drawn[p] != found.drawn[p]) {
        Some(p) if expected.plan == found.plan => format!("drawn[{p}]"),
        _ => first_difference(&expected.plan, &found.plan),
    }
}

pub fn show_writing(case: &Writing) -> String {
    let Writing { block, next, .. } = case;
    format!("{block:?} next {next} inputs {}", show_list(&case.inputs))
}

pub fn show_programming(case: &Programming) -> String {
    format!("{:?} wanted {}", case.block, show_list(&case.wanted))
}

pub fn show_counts([u, k, v]: [u32; 3]) -> String {
    format!("u {u} k {k} v {v}")
}

pub fn show_run(case: &Run) -> String {
    let fabric = show_fabric(&case.table, &case.program);
    format!("{fabric}\nrow {}", hex(&case.row))
}

/// A table and its program; of a long one only the start.
fn show_fabric(table: &[u16], program: &[u8]) -> String {
    format!(
        "table {} entries {:?}\nprogram {} bytes {:02x?}",
        table.len(),
        &table[..table.len().min(300)],
        program.len(),
        &program[..program.len().min(100)],
    )
}

/// A series; of many fresh entries only the first.
pub fn show_series(case: &SeriesCase) -> String {
    let SeriesCase {
        hold, intervals, ..
    } = case;
    let step = match &case.step {
        Step::Plan(plan) => show_plan(plan),
        Step::Fabric { table, program } => show_fabric(table, program),
    };
    let fresh = &case.fresh[..case.fresh.len().min(300)];
    let (count, fresh, start) = (case.fresh.len(), hex(fresh), hex(&case.start));
    format!("hold {hold} intervals {intervals}\n{step}\nfresh {count}: {fresh}\nstart {start}")
}

fn show_list(list: &[u16]) -> String {
    format!("{} entries {list:?}", list.len())
}

pub fn hex(bytes: &[u8]) -> String {
    let mut text = format!("{} bytes", bytes.len());
    for byte in bytes {
        let _ = write!(text, " {byte:02x}");
    }
    text
}
