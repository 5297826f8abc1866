//! Checks that the prover refuses each wrong version of the must-fail edits for itself.
//!
//! Usage: `check_refusals ROOT [TOLD]`, after `rt ci` there, with what that wrote in the file TOLD.
//! Prints a line for each wrong version that was not refused, and one for all. Exit status: 0 where
//! each was, 1 where not.
//!
//! `check_refusals --quote ROOT [CRATE..]` prints, for each version of these crates or of all, where
//! the prover refuses it and in what words.

use std::path::Path;
use std::process::ExitCode;
use std::{env, fs, io};

use checks::{refusals, Report};

fn main() -> io::Result<ExitCode> {
    let mut words: Vec<String> = env::args().skip(1).collect();
    let quotes = words.first().is_some_and(|word| word == "--quote");
    if quotes {
        words.remove(0);
    }
    let root = words.first().cloned().unwrap_or_else(|| ".".into());
    let root = Path::new(&root);
    let rest = words.get(1..).unwrap_or_default();
    if quotes {
        for line in refusals::quoted(root, rest)? {
            println!("{line}");
        }
        return Ok(ExitCode::SUCCESS);
    }
    let told = rest.first().map(fs::read_to_string).transpose()?;
    let Report { problems, seen } = refusals::unrefused(root, told.as_deref())?;
    for problem in &problems {
        println!("{problem}");
    }
    println!("refusals: {seen}, {} not refused", problems.len());
    Ok(if problems.is_empty() {
        ExitCode::SUCCESS
    } else {
        ExitCode::FAILURE
    })
}
