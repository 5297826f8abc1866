//! Counts the instructions of the fabric's table and of a plan's program bits, by the library, by
//! the Rust that is written for speed and by the reference, and prints one table.
//!
//! Usage: `cargo run --release --bin count_instructions`; it takes about a minute. It needs
//! `valgrind`, and says so, with exit status 1, where that is missing. No count is judged.
//!
//! Times on a shared machine are not steady; counts are: the same binary gives the same ones. A case
//! is one call with one random accepted plan of its counts (u,k,v), of each shape one, and the mean
//! is printed: in all, and for each row of the table or each program bit. What a call does is
//! counted, with the copy of a record that goes by value, and nothing of what comes before or after.
//! An instruction that moves or clears many bytes counts as valgrind counts it.
//!
//! The program starts itself under `valgrind --tool=callgrind` once for each case; with the name of
//! a side, a call and three counts it makes that case's calls.

use std::env;
use std::hint::black_box;
use std::process::{Command, ExitCode};

use comparison::random::Random;
use comparison::samples::plans::{shaped_plan, PlanShape};
use comparison::samples::Counts;
use comparison::{reference, tuned};
use mukdalis::{count_fabric, program_plan, write_fabric, Fault, Plan, Size};

const SEED: u64 = 0x696e_7374_7275_6374;

/// The function whose instructions are counted, as valgrind names it.
const COUNTED: &str = "*counted_call*";

#[derive(Clone, Copy, PartialEq)]
enum Side {
    Library,
    Tuned,
    Reference,
}

impl Side {
    const ALL: [(&'static str, Side); 3] = [
        ("library", Side::Library),
        ("tuned", Side::Tuned),
        ("reference", Side::Reference),
    ];
}

#[derive(Clone, Copy, PartialEq)]
enum Call {
    Table,
    Program,
}

impl Call {
    const ALL: [(&'static str, Call); 2] = [("table", Call::Table), ("program", Call::Program)];

    fn title(self) -> &'static str {
        match self {
            Call::Table => "fabric table",
            Call::Program => "program bits",
        }
    }

    /// What the instructions are counted for: rows of the table, or program bits.
    fn parts(self, size: Size) -> u32 {
        match self {
            Call::Table => size.rows,
            Call::Program => size.bits,
        }
    }

    /// How often the call is made.
    fn rounds(self) -> usize {
        match self {
            Call::Table => 1,
            Call::Program => PlanShape::ALL.len(),
        }
    }
}

fn main() -> ExitCode {
    let words: Vec<String> = env::args().skip(1).collect();
    match words.as_slice() {
        [] => print_table(),
        [side, call, counts @ ..] => match case(side, call, counts) {
            Some((side, call, counts)) => make_calls(side, call, counts),
            None => usage(),
        },
        _ => usage(),
    }
}

fn usage() -> ExitCode {
    eprintln!("usage: count_instructions [library|tuned|reference table|program U K V]");
    ExitCode::FAILURE
}

/// The case that these words name.
fn case(side: &str, call: &str, counts: &[String]) -> Option<(Side, Call, Counts)> {
    let (_, side) = *Side::ALL.iter().find(|(name, _)| *name == side)?;
    let (_, call) = *Call::ALL.iter().find(|(name, _)| *name == call)?;
    let counts: Option<Vec<u16>> = counts.iter().map(|word| word.parse().ok()).collect();
    let [u, k, v] = counts?.try_into().ok()?;
    count_fabric(u.into(), k.into(), v.into()).ok()?;
    Some((side, call, Counts(u, k, v)))
}

/// Makes the case's calls, each by the function that is counted.
fn make_calls(side: Side, call: Call, counts: Counts) -> ExitCode {
    let Counts(u, k, v) = counts;
    let [u, k, v] = [u, k, v].map(u32::from);
    let size = count_fabric(u, k, v).expect("the counts are in range");
    let answer = match call {
        Call::Table => {
            let write = match side {
                Side::Library => write_fabric,
                Side::Tuned => tuned::fabric::write,
                Side::Reference => reference::fabric::write,
            };
            let mut table = vec![9; size.table_len(v)];
            counted_call(&mut || write(u, k, v, &mut table))
        }
        Call::Program => {
            let write: fn(&Plan, &mut [u8]) -> Result<(), Fault> = match side {
                Side::Library => program_plan,
                Side::Tuned => tuned::program::write,
                Side::Reference => reference::program::write,
            };
            let mut random = Random::new(SEED);
            let mut program = vec![9; size.program_len()];
            PlanShape::ALL.into_iter().try_for_each(|shape| {
                let plan = shaped_plan(&mut random, counts, shape);
                counted_call(&mut || write(&plan, &mut program))
            })
        }
    };
    answer.expect("the counts are in range and the plans accepted");
    ExitCode::SUCCESS
}

/// Valgrind counts what happens in here.
#[inline(never)]
fn counted_call(call: &mut dyn FnMut() -> Result<(), Fault>) -> Result<(), Fault> {
    black_box(black_box(call)())
}

fn print_table() -> ExitCode {
    println!(
        "{:29} {:>9} {:>24} {:>24}",
        "", "", "instructions a call", "a row, a program bit"
    );
    println!(
        "{:16}{:13} {:>9} {:>10} {:>10} {:>10} {:>7} {:>7} {:>7} {:>15}",
        "call",
        "size",
        "parts",
        "Rattle",
        "tuned",
        "Rust",
        "Rattle",
        "tuned",
        "Rust",
        "Rattle / tuned"
    );
    for (call_name, call) in Call::ALL {
        for counts in Counts::MEASURED {
            let Counts(u, k, v) = counts;
            let size = count_fabric(u.into(), k.into(), v.into());
            let parts = call.parts(size.expect("the counts are in range"));
            let mut counted = [0.0; 3];
            for ((side_name, _), counted) in Side::ALL.iter().zip(&mut counted) {
                let words = [u, k, v].map(|count| count.to_string());
                match instructions(side_name, call_name, &words) {
                    Ok(instructions) => *counted = instructions as f64 / call.rounds() as f64,
                    Err(problem) => {
                        eprintln!("{problem}");
                        return ExitCode::FAILURE;
                    }
                }
            }
            let [rattle, tuned, rust] = counted;
            let [rattle_part, tuned_part, rust_part] = counted.map(|all| all / f64::from(parts));
            println!(
                "{:16}{:13} {parts:>9} {rattle:>10.0} {tuned:>10.0} {rust:>10.0} {rattle_part:>7.1} {tuned_part:>7.1} {rust_part:>7.1} {:>15.2}",
                call.title(),
                format!("({u},{k},{v})"),
                rattle / tuned
            );
        }
    }
    ExitCode::SUCCESS
}

/// The instructions of one case's calls, as valgrind says it collected them.
fn instructions(side: &str, call: &str, counts: &[String]) -> Result<u64, String> {
    let own = env::current_exe().map_err(|error| error.to_string())?;
    let run = Command::new("valgrind")
        .args(["--tool=callgrind", "--callgrind-out-file=/dev/null"])
        .arg(format!("--toggle-collect={COUNTED}"))
        .arg(own)
        .args([side, call])
        .args(counts)
        .output()
        .map_err(|error| format!("valgrind does not start ({error}); it is needed here"))?;
    let said = String::from_utf8_lossy(&run.stderr);
    if !run.status.success() {
        return Err(format!("under valgrind the case fails:\n{said}"));
    }
    said.lines()
        .find_map(|line| line.split_once("Collected :"))
        .and_then(|(_, number)| number.trim().parse().ok())
        .filter(|&instructions| instructions > 0)
        .ok_or_else(|| format!("valgrind says no number of instructions:\n{said}"))
}

#[cfg(test)]
mod tests {
    use super::*;

    fn words(counts: [&str; 3]) -> Vec<String> {
        counts.map(String::from).to_vec()
    }

    #[test]
    fn every_case_is_made() {
        for (side_name, side) in Side::ALL {
            for (call_name, call) in Call::ALL {
                let counts = words(["25", "50", "1"]);
                let found = case(side_name, call_name, &counts).expect("it is a case");
                let (found_side, found_call, Counts(u, k, v)) = found;
                assert!(found_side == side && found_call == call);
                assert_eq!([u, k, v], [25, 50, 1]);
                assert_eq!(make_calls(side, call, found.2), ExitCode::SUCCESS);
            }
        }
    }

    #[test]
    fn other_words_are_refused() {
        let counts = words(["1", "1", "1"]);
        assert!(case("library", "table", &counts).is_some());
        assert!(case("plain", "table", &counts).is_none());
        assert!(case("library", "run", &counts).is_none());
        assert!(case("library", "table", &counts[..2]).is_none());
        assert!(case("library", "table", &words(["1", "257", "1"])).is_none());
        assert!(case("library", "table", &words(["1", "one", "1"])).is_none());
    }
}
