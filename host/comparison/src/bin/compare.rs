//! Compares the library with the reference on many cases, the same ones every time.
//!
//! Prints what it compared. Exit status 1, with the first differing case, if they differ.

use std::process::ExitCode;

use comparison::Comparison;

const SEED: u64 = 0x6d75_6b64_616c_6973;

fn main() -> ExitCode {
    println!("seed {SEED:#x}");
    match Comparison::run(SEED) {
        Ok(comparison) => {
            print!("{comparison}");
            ExitCode::SUCCESS
        }
        Err(difference) => {
            print!("{difference}");
            ExitCode::FAILURE
        }
    }
}
