//! `include/mukdalis.h` and `include/example.c` compile without a warning, as C11 and as C++. The
//! header's calls, constants and stated lengths are what they say, its records, refusals and limits
//! are this package's, and the example prints what it should.

use std::mem::{offset_of, size_of};
use std::path::{Path, PathBuf};
use std::process::Command;

use mukdalis::raw::{Counts, Drawn, Edit, FabricSheet, Read, Saved};
use mukdalis::{Fault, Gate, Kinds, Plan, Size, MAX_INTERVALS, MAX_SIZE};

const C11: &[&str] = &["cc", "-std=c11"];
const CPP: &[&str] = &["c++", "-x", "c++", "-std=c++11"];

fn in_repository(path: &str) -> PathBuf {
    Path::new(env!("CARGO_MANIFEST_DIR"))
        .join("../..")
        .join(path)
}

fn warnings_are_errors(compiler: &[&str]) -> Command {
    let mut command = Command::new(compiler[0]);
    command
        .args(&compiler[1..])
        .args(["-Wall", "-Wextra", "-pedantic", "-Werror"])
        .arg("-I")
        .arg(in_repository("include"));
    command
}

/// Compiles a C program, links it with the library, and gives what it prints.
fn output_of(source: &str) -> String {
    let source = in_repository(source);
    let name = source.file_stem().expect("a source has a name");
    let program = Path::new(env!("CARGO_TARGET_TMPDIR")).join(name);
    let compiled = warnings_are_errors(C11)
        .arg(&source)
        .arg(env!("MUKDALIS_ARCHIVE"))
        .arg("-o")
        .arg(&program)
        .status()
        .expect("cc starts");
    assert!(compiled.success(), "{} compiles", source.display());
    let output = Command::new(&program).output().expect("the program starts");
    let text = String::from_utf8_lossy(&output.stdout).into_owned();
    assert!(output.status.success(), "{text}");
    text
}

fn words<const N: usize>(numbers: [usize; N]) -> String {
    numbers.map(|number| number.to_string()).join(" ")
}

#[test]
fn records_and_refusals_are_the_packages() {
    let layout = words([
        size_of::<Gate>(),
        offset_of!(Gate, second),
        offset_of!(Gate, table),
        size_of::<Plan>(),
        offset_of!(Plan, gates),
        offset_of!(Plan, outputs),
        offset_of!(Plan, gate_places),
        offset_of!(Plan, uses),
        size_of::<Read>(),
        offset_of!(Read, at),
        offset_of!(Read, plan),
        size_of::<Drawn>(),
        offset_of!(Drawn, at),
        offset_of!(Drawn, plan),
        offset_of!(Drawn, drawn),
        size_of::<Saved>(),
        offset_of!(Saved, length),
        size_of::<Edit>(),
        offset_of!(Edit, plan),
        size_of::<Counts>(),
        offset_of!(Counts, rows),
        offset_of!(Counts, wires),
        offset_of!(Counts, bits),
        size_of::<Kinds>(),
        offset_of!(Kinds, y),
        offset_of!(Kinds, g),
        offset_of!(Kinds, total),
        size_of::<FabricSheet>(),
        offset_of!(FabricSheet, input),
        offset_of!(FabricSheet, block),
        offset_of!(FabricSheet, output),
        offset_of!(FabricSheet, sum),
    ]);
    let faults = Fault::TABLE.map(|(fault, word)| format!("{word} {}", fault.number()));
    let expected = format!("{layout}\n{}\n", faults.join(" "));
    assert_eq!(output_of("host/mukdalis/tests/header.c"), expected);
}

#[test]
fn limits_are_the_packages() {
    let Size { rows, wires, bits } = Size::LARGEST;
    let [size, rows, wires, bits] = [MAX_SIZE, rows, wires, bits].map(|limit| limit as usize);
    let limits = words([
        Plan::MAX_INPUTS,
        Plan::MAX_GATES,
        Plan::MAX_OUTPUTS,
        Plan::MAX_WIRES,
        Plan::MAX_FILE_LEN,
        size,
        rows,
        wires,
        bits,
        MAX_INTERVALS as usize,
    ]);
    assert_eq!(output_of("host/mukdalis/tests/lengths.c"), limits + "\n");
}

/// The example's plan is the bench sheet's, of 17 bytes; its output field begins at byte 15. The
/// latch sheds from a fault to a reset.
#[test]
fn the_example_prints_the_bench_sheets_lines() {
    let expected = "\
u 2 k 2 v 1 rows 23 wires 40 bits 29
00 0 0
10 1 1
01 0 0
11 0 0
saved 17 bytes
uses 2 1, edited 1 2
gate 3: refused 18
cut: refused 5 at 15
latch 00 0 0
latch 10 1 1
latch 00 1 1
latch 01 0 0
latch 00 0 0
latch 10 1 1
latch holds 1 1
";
    assert_eq!(output_of("include/example.c"), expected);
}

/// Where there is no C++ compiler, this says so and passes.
#[test]
fn all_compile_as_cpp() {
    if Command::new(CPP[0]).arg("--version").output().is_err() {
        println!("no command {}: not tried", CPP[0]);
        return;
    }
    for source in [
        "host/mukdalis/tests/header.c",
        "host/mukdalis/tests/lengths.c",
        "include/example.c",
    ] {
        let compiled = warnings_are_errors(CPP)
            .arg("-fsyntax-only")
            .arg(in_repository(source))
            .status()
            .expect("c++ starts");
        assert!(compiled.success(), "{source} compiles as C++");
    }
}
