//! Reads a plan file by the library and shows what the plan gives.
//!
//! Usage: `show_plan FILE`, or `show_plan -` for standard input. Prints the counts u, k, v, then
//! a line per input row r from 0 below 2 to the power min(u, 6): inputs 1 to u as digits (input i
//! is bit i - 1 of r) and the outputs. `show_plan --drawn FILE` reads a file whose gates stand as they
//! were drawn, and shows behind the counts the drawn number of the gate at each place of the plan. A
//! refusal prints `refused N at P`.
//! Exit status: 0 for a plan, 1 for a refusal, 2 for bad usage or a failed read or write.

use std::error::Error;
use std::ffi::OsString;
use std::fmt::Write as _;
use std::io::{self, Read, Write};
use std::process::ExitCode;
use std::{env, fs};

use mukdalis::{evaluate, read, read_drawn, DrawnPlan, Plan};

/// The most inputs whose every row is shown; those past it stay 0.
const SHOWN_INPUTS: u16 = 6;

fn main() -> ExitCode {
    match run() {
        Ok(status) => status,
        Err(error) => {
            eprintln!("show_plan: {error}");
            ExitCode::from(2)
        }
    }
}

fn run() -> Result<ExitCode, Box<dyn Error>> {
    let mut arguments: Vec<OsString> = env::args_os().skip(1).collect();
    let is_drawn = arguments.first().is_some_and(|first| first == "--drawn");
    if is_drawn {
        arguments.remove(0);
    }
    let file = read_argument(&arguments)?;
    let shown = match is_drawn {
        true => read_drawn(&file).map(|drawn| show_drawn(&drawn)),
        false => read(&file).map(|plan| show(&plan)),
    };
    let (text, status) = match shown {
        Ok(text) => (text?, ExitCode::SUCCESS),
        Err(refusal) => (format!("{refusal}\n"), ExitCode::FAILURE),
    };
    io::stdout().write_all(text.as_bytes())?;
    Ok(status)
}

/// The bytes of the file that the one argument names.
fn read_argument(arguments: &[OsString]) -> Result<Vec<u8>, Box<dyn Error>> {
    let [path] = arguments else {
        return Err("usage: show_plan [--drawn] FILE (or - for standard input)".into());
    };
    if path == "-" {
        let mut file = Vec::new();
        io::stdin().read_to_end(&mut file)?;
        return Ok(file);
    }
    fs::read(path).map_err(|error| format!("{}: {error}", path.display()).into())
}

/// The counts, then the rows.
fn show(plan: &Plan) -> Result<String, Box<dyn Error>> {
    Ok(show_counts(plan) + &show_rows(plan)?)
}

/// The counts, the drawn number at each place, then the rows.
fn show_drawn(drawn: &DrawnPlan) -> Result<String, Box<dyn Error>> {
    let numbers = drawn.drawn_numbers().iter().map(u16::to_string);
    let numbers: Vec<String> = numbers.collect();
    let (counts, rows) = (show_counts(&drawn.plan), show_rows(&drawn.plan)?);
    Ok(format!("{counts}drawn {}\n{rows}", numbers.join(" ")))
}

fn show_counts(plan: &Plan) -> String {
    let [u, k, v] = plan.counts();
    format!("u {u} k {k} v {v}\n")
}

/// A line per input row.
fn show_rows(plan: &Plan) -> Result<String, Box<dyn Error>> {
    let (u, v) = (plan.inputs, plan.output_count);
    let mut text = String::new();
    for r in 0..1u64 << u.min(SHOWN_INPUTS) {
        let row: Vec<u8> = (0..u).map(|i| (r >> i & 1) as u8).collect();
        let mut outputs = vec![0; usize::from(v)];
        evaluate(plan, &row, &mut outputs)?;
        writeln!(text, "{} {}", digits(&row), digits(&outputs))?;
    }
    Ok(text)
}

fn digits(bits: &[u8]) -> String {
    bits.iter().map(|bit| bit.to_string()).collect()
}
