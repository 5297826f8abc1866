//! Makes every check of the repository's text.
//!
//! Usage: `check_repository ROOT`. Prints a line for each problem and one for each check, then the
//! bytes of arrays that each call holds at one time, and the functions that hold them.
//! Exit status: 0 where all is well, 1 where not.

use std::path::Path;
use std::process::ExitCode;
use std::{env, io};

use checks::{arrays, Report, CHECKS};

fn main() -> io::Result<ExitCode> {
    let root = env::args().nth(1).unwrap_or_else(|| ".".into());
    let mut status = ExitCode::SUCCESS;
    for (name, check) in CHECKS {
        let Report { problems, seen } = check(Path::new(&root))?;
        for problem in &problems {
            println!("{problem}");
        }
        if !problems.is_empty() {
            status = ExitCode::FAILURE;
        }
        println!("{name}: {seen}, {} problems", problems.len());
    }
    println!("bytes of arrays at one time:");
    for line in arrays::counted(Path::new(&root))?.lines() {
        println!("{line}");
    }
    Ok(status)
}
