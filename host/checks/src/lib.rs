//! The checks of the repository's text: what must hold before anything is proved. They need no
//! library.
//!
//! A check is a function of text, with tests that plant what it must refuse and what must pass, and
//! a `problems` that reads the repository at a root. `check_repository` makes them all.
//!
//! Behind the proofs, `refusals` holds each wrong version to be refused for itself.

use std::io;
use std::path::Path;

pub mod apart;
pub mod arrays;
pub mod contracts;
pub mod edits;
pub mod names;
pub mod reading_order;
pub mod refusals;
pub mod specs;
pub mod storeys;

mod antt;
mod files;
mod listing;
mod rattle;

/// What a check found.
pub struct Report {
    /// A line for each problem: the file, the line in it, what is wrong.
    pub problems: Vec<String>,
    /// What was looked at.
    pub seen: String,
}

/// A check of the repository at a root.
pub type Check = fn(&Path) -> io::Result<Report>;

/// Every check by its name.
pub const CHECKS: [(&str, Check); 8] = [
    ("contracts", contracts::problems),
    ("names", names::problems),
    ("specs", specs::problems),
    ("storeys", storeys::problems),
    ("names apart", apart::problems),
    ("reading order", reading_order::problems),
    ("edits", edits::problems),
    ("arrays", arrays::problems),
];
