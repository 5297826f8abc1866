//! The contact fabric library for Rust programs: safe calls of the exports that
//! `include/mukdalis.h` documents.
//!
//! A plan is a small Boolean circuit. One fixed table, the fabric, stands for every plan of its
//! counts; a plan is loaded beside it as program bits. Every call takes all inputs and refuses bad
//! ones with a [`Fault`], and then changes no buffer.
//!
//! From a plan file to a run, which gives what the plan gives:
//!
//! ```
//! use mukdalis::{count_fabric, evaluate, program_plan, read, run_fabric, write_fabric};
//!
//! // Two inputs, two gates, one output: input 1 AND input 2, then that XOR input 1.
//! let plan = read(&[2, 0, 2, 0, 1, 0, 3, 1, 0, 2, 0, 6, 1, 0, 6, 4, 0])?;
//!
//! let [u, k, v] = plan.counts();
//! let size = count_fabric(u, k, v)?;
//! let mut table = vec![0; size.table_len(v)];
//! let mut program = vec![0; size.program_len()];
//! write_fabric(u, k, v, &mut table)?;
//! program_plan(&plan, &mut program)?;
//!
//! let mut work = vec![0; size.work_len()];
//! for (row, output) in [([0, 0], 0), ([1, 0], 1), ([0, 1], 0), ([1, 1], 0)] {
//!     let (mut by_plan, mut by_fabric) = ([9], [9]);
//!     evaluate(&plan, &row, &mut by_plan)?;
//!     run_fabric(&table, &program, &row, &mut work, &mut by_fabric)?;
//!     assert_eq!((by_plan, by_fabric), ([output], [output]));
//! }
//! # Ok::<(), Box<dyn std::error::Error>>(())
//! ```
//!
//! [`save`] gives a plan's shortest file, and [`read_drawn`] reads a plan whose gates stand as they
//! were drawn. [`Plan::replace_gate`], [`Plan::append_gate`] and [`Plan::replace_output`] edit a plan,
//! and [`Plan::uses_of`] says how often a wire is used. [`evaluate_series`] and [`run_series`] go over
//! a series of intervals, in which the last outputs of one are the last inputs of the next.
//!
//! The library itself is the archive `libcapi.a`, which `rt lib` in `crates/capi` writes. The package
//! takes it from `crates/capi/out` of the repository, or from the folder that MUKDALIS_LIB_DIR names.
//!
//! [`raw`] has the records of the header and the calls that hand one back.

mod blocks;
mod edits;
mod fabric;
mod fault;
mod plan;
mod series;

pub use blocks::{
    count_permutation, count_selection, program_permutation, program_selection, write_permutation,
    write_selection, BlockSize, MAX_SIZE,
};
pub use fabric::{
    count_fabric, count_kinds, program_plan, run_fabric, write_fabric, Kinds, Sheet, Size,
};
pub use fault::{Fault, Refusal};
pub use plan::{check, evaluate, read, read_drawn, save, DrawnPlan, Gate, Plan};
pub use series::{evaluate_series, run_series, Series, MAX_INTERVALS};

pub mod raw;
