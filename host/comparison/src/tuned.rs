//! The fabric's table and a plan's program once more, in safe Rust written for speed: what the
//! benchmark holds the library to. [`mod@crate::reference`] is the implementation to be read.
//!
//! Checks are the reference's own. Nothing is on the heap, and no list of wires is kept where two
//! numbers say it.

pub mod fabric;
pub mod program;

/// The rows of P(2 ^ level).
fn network_rows(level: u32) -> usize {
    let size = 1 << level;
    size * level as usize - size + 1
}

/// The level of S(m, n): N, its positions, is 2 ^ level, the least power of two not below both.
fn selection_level(m: usize, n: usize) -> u32 {
    m.max(n).next_power_of_two().ilog2()
}
