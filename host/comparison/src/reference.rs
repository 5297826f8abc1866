//! The second implementation, in plain safe Rust from documents 01 and 02 alone: one module a
//! subject.

pub mod drawn;
pub mod plan;
pub mod saving;

pub mod edits;
pub mod incremental;

pub mod elements;

mod blocks;
pub mod permutation;
pub mod selection;

pub mod fabric;
pub mod program;
pub mod run;

pub mod series;

pub mod programs;
