//! The library's exports as `include/mukdalis.h` declares them: its records and its calls.
//!
//! The functions at the crate's root make these calls safe. The records are public so that a test
//! can compare their layout with the header's.

use crate::fabric::Kinds;
use crate::plan::{Gate, Plan};

/// `struct mkd_read`: number and offset 0 with the plan, or a refusal with the all-zero record.
#[repr(C)]
#[derive(Clone, Copy, Debug, PartialEq, Eq)]
pub struct Read {
    pub number: u32,
    pub at: u64,
    pub plan: Plan,
}

/// `struct mkd_drawn`: number and offset 0 with the plan and the drawn number at each place, or a
/// refusal with both all zero.
#[repr(C)]
#[derive(Clone, Copy, Debug, PartialEq, Eq)]
pub struct Drawn {
    pub number: u32,
    pub at: u64,
    pub plan: Plan,
    pub drawn: [u16; Plan::MAX_GATES],
}

/// `struct mkd_saved`: number 0 with the bytes of the file, or a refusal with length 0.
#[repr(C)]
#[derive(Clone, Copy, Debug, PartialEq, Eq)]
pub struct Saved {
    pub number: u32,
    pub length: u64,
}

/// `struct mkd_edit`: number 0 with the edited plan, or a refusal with the plan as it went in.
#[repr(C)]
#[derive(Clone, Copy, Debug, PartialEq, Eq)]
pub struct Edit {
    pub number: u32,
    pub plan: Plan,
}

/// `struct mkd_counts`: number 0 with a block's or a fabric's counts, or a refusal with counts 0.
#[repr(C)]
#[derive(Clone, Copy, Debug, PartialEq, Eq)]
pub struct Counts {
    pub number: u32,
    pub rows: u32,
    pub wires: u32,
    pub bits: u32,
}

/// `struct mkd_sheet`: number 0 with a fabric's rows by kind, or a refusal with figures 0.
#[repr(C)]
#[derive(Clone, Copy, Debug, PartialEq, Eq)]
pub struct FabricSheet {
    pub number: u32,
    pub input: Kinds,
    pub block: Kinds,
    pub output: Kinds,
    pub sum: Kinds,
}

extern "C" {
    fn mkd_plan_read(file: *const u8, len: usize) -> Read;
    fn mkd_plan_read_drawn(file: *const u8, len: usize) -> Drawn;
    pub(crate) fn mkd_plan_fault(plan: Plan) -> u32;
    pub(crate) fn mkd_plan_evaluate(
        plan: Plan,
        row: *const u8,
        row_len: usize,
        result: *mut u8,
        result_len: usize,
    ) -> u32;
    pub(crate) fn mkd_plan_series(
        plan: Plan,
        hold: u32,
        intervals: u32,
        fresh: *const u8,
        fresh_len: usize,
        start: *const u8,
        start_len: usize,
        results: *mut u8,
        results_len: usize,
        end: *mut u8,
        end_len: usize,
    ) -> u32;
    fn mkd_plan_save(plan: Plan, file: *mut u8, len: usize) -> Saved;
    fn mkd_plan_replace_gate(plan: Plan, gate: u32, new_gate: Gate) -> Edit;
    fn mkd_plan_append_gate(plan: Plan, new_gate: Gate) -> Edit;
    fn mkd_plan_replace_output(plan: Plan, output: u32, wire: u16) -> Edit;
    fn mkd_permutation_count(n: u32) -> Counts;
    pub(crate) fn mkd_permutation_write(
        n: u32,
        inputs: *const u16,
        inputs_len: usize,
        next: u32,
        rows: *mut u16,
        rows_len: usize,
        outputs: *mut u16,
        outputs_len: usize,
    ) -> u32;
    pub(crate) fn mkd_permutation_program(
        n: u32,
        wanted: *const u16,
        wanted_len: usize,
        program: *mut u8,
        program_len: usize,
    ) -> u32;
    fn mkd_selection_count(m: u32, n: u32) -> Counts;
    pub(crate) fn mkd_selection_write(
        m: u32,
        n: u32,
        inputs: *const u16,
        inputs_len: usize,
        next: u32,
        rows: *mut u16,
        rows_len: usize,
        outputs: *mut u16,
        outputs_len: usize,
    ) -> u32;
    pub(crate) fn mkd_selection_program(
        m: u32,
        n: u32,
        wanted: *const u16,
        wanted_len: usize,
        program: *mut u8,
        program_len: usize,
    ) -> u32;
    fn mkd_count(u: u32, k: u32, v: u32) -> Counts;
    fn mkd_fabric_sheet(u: u32, k: u32, v: u32) -> FabricSheet;
    pub(crate) fn mkd_fabric(u: u32, k: u32, v: u32, table: *mut u16, table_len: usize) -> u32;
    pub(crate) fn mkd_program(plan: Plan, program: *mut u8, program_len: usize) -> u32;
    pub(crate) fn mkd_run(
        table: *const u16,
        table_len: usize,
        program: *const u8,
        program_len: usize,
        row: *const u8,
        row_len: usize,
        work: *mut u8,
        work_len: usize,
        result: *mut u8,
        result_len: usize,
    ) -> u32;
    pub(crate) fn mkd_run_series(
        table: *const u16,
        table_len: usize,
        program: *const u8,
        program_len: usize,
        hold: u32,
        intervals: u32,
        fresh: *const u8,
        fresh_len: usize,
        start: *const u8,
        start_len: usize,
        work: *mut u8,
        work_len: usize,
        results: *mut u8,
        results_len: usize,
        end: *mut u8,
        end_len: usize,
    ) -> u32;
}

/// `mkd_plan_read` of a whole file.
pub fn plan_read(file: &[u8]) -> Read {
    // SAFETY: the pointer and length are a slice's; the call only reads it and keeps no pointer.
    unsafe { mkd_plan_read(file.as_ptr(), file.len()) }
}

/// `mkd_plan_read_drawn` of a whole file.
pub fn plan_read_drawn(file: &[u8]) -> Drawn {
    // SAFETY: the pointer and length are a slice's; the call only reads it and keeps no pointer.
    unsafe { mkd_plan_read_drawn(file.as_ptr(), file.len()) }
}

/// `mkd_plan_save` of a plan into a lent buffer.
pub fn plan_save(plan: &Plan, file: &mut [u8]) -> Saved {
    // SAFETY: the plan goes by value, and every value of its fields is allowed; the pointer and
    // length are a slice's, which is borrowed for writing; the call stays within it and keeps no
    // pointer.
    unsafe { mkd_plan_save(*plan, file.as_mut_ptr(), file.len()) }
}

/// `mkd_plan_replace_gate` of a plan.
pub fn plan_replace_gate(plan: &Plan, gate: u32, new_gate: Gate) -> Edit {
    // SAFETY: all goes by value, and every value is allowed.
    unsafe { mkd_plan_replace_gate(*plan, gate, new_gate) }
}

/// `mkd_plan_append_gate` of a plan.
pub fn plan_append_gate(plan: &Plan, new_gate: Gate) -> Edit {
    // SAFETY: all goes by value, and every value is allowed.
    unsafe { mkd_plan_append_gate(*plan, new_gate) }
}

/// `mkd_plan_replace_output` of a plan.
pub fn plan_replace_output(plan: &Plan, output: u32, wire: u16) -> Edit {
    // SAFETY: all goes by value, and every value is allowed.
    unsafe { mkd_plan_replace_output(*plan, output, wire) }
}

/// `mkd_permutation_count` of a size.
pub fn count_permutation(n: u32) -> Counts {
    // SAFETY: all goes by value, and every value is allowed.
    unsafe { mkd_permutation_count(n) }
}

/// `mkd_selection_count` of two sizes.
pub fn count_selection(m: u32, n: u32) -> Counts {
    // SAFETY: all goes by value, and every value is allowed.
    unsafe { mkd_selection_count(m, n) }
}

/// `mkd_count` of three counts.
pub fn count(u: u32, k: u32, v: u32) -> Counts {
    // SAFETY: all goes by value, and every value is allowed.
    unsafe { mkd_count(u, k, v) }
}

/// `mkd_fabric_sheet` of three counts.
pub fn count_kinds(u: u32, k: u32, v: u32) -> FabricSheet {
    // SAFETY: all goes by value, and every value is allowed.
    unsafe { mkd_fabric_sheet(u, k, v) }
}
