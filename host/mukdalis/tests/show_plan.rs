//! The program `show_plan` on the example plans, on refused files and on bad usage.

use std::io::Write;
use std::path::PathBuf;
use std::process::{Command, Output, Stdio};

fn show_plan(arguments: &[&str], input: &[u8]) -> Output {
    let mut program = Command::new(env!("CARGO_BIN_EXE_show_plan"))
        .args(arguments)
        .stdin(Stdio::piped())
        .stdout(Stdio::piped())
        .stderr(Stdio::piped())
        .spawn()
        .expect("the program starts");
    let mut stdin = program.stdin.take().expect("its input is a pipe");
    stdin.write_all(input).expect("its input takes the file");
    drop(stdin);
    program.wait_with_output().expect("the program ends")
}

fn assert_shows(arguments: &[&str], input: &[u8], status: i32, text: &str) {
    let output = show_plan(arguments, input);
    assert_eq!(String::from_utf8_lossy(&output.stdout), text);
    assert_eq!(output.status.code(), Some(status));
}

fn example(name: &str) -> String {
    let folder = PathBuf::from(env!("CARGO_MANIFEST_DIR")).join("../../plans");
    folder.join(name).display().to_string()
}

#[test]
fn example_plans() {
    let example_text = "u 2 k 2 v 1\n00 0\n10 1\n01 0\n11 0\n";
    assert_shows(&[&example("example.plan")], &[], 0, example_text);
    assert_shows(&[&example("not.plan")], &[], 0, "u 1 k 1 v 1\n0 1\n1 0\n");
}

/// Its gates 2 and 3 feed gate 1; the plain reading refuses gate 1's first operand.
#[test]
fn the_drawn_example() {
    let drawn = example("drawn.plan");
    let output = show_plan(&["--drawn", &drawn], &[]);
    assert_eq!(output.status.code(), Some(0));
    let text = String::from_utf8_lossy(&output.stdout).into_owned();
    let lines: Vec<&str> = text.lines().collect();
    assert_eq!(lines.len(), 2 + 16);
    assert_eq!(lines[..2], ["u 4 k 4 v 2", "drawn 2 3 1 4"]);
    assert_eq!(lines[2..6], ["0000 00", "1000 00", "0100 00", "1100 11"]);
    assert_eq!(lines[17], "1111 01");
    assert_shows(&[&drawn], &[], 1, "refused 7 at 7\n");
}

#[test]
fn a_plan_is_drawn_in_its_own_order() {
    let text = "u 2 k 2 v 1\ndrawn 1 2\n00 0\n10 1\n01 0\n11 0\n";
    assert_shows(&["--drawn", &example("example.plan")], &[], 0, text);
}

/// Gates 2 and 3 feed each other, and gate 1 draws from gate 2.
#[test]
fn a_cycle_is_refused() {
    let file = [1, 0, 3, 0, 1, 0, 1, 3, 0, 1, 4, 0, 1, 3, 0, 2, 0];
    assert_shows(&["--drawn", "-"], &file, 1, "refused 15 at 6\n");
    assert_shows(&["-"], &file, 1, "refused 7 at 7\n");
    let without_gate_1 = [1, 0, 3, 0, 1, 0, 1, 1, 0, 1, 4, 0, 1, 3, 0, 2, 0];
    assert_shows(&["--drawn", "-"], &without_gate_1, 1, "refused 15 at 9\n");
}

#[test]
fn a_plan_on_standard_input() {
    let not = [1, 0, 1, 0, 1, 0, 4, 1, 2, 0];
    assert_shows(&["-"], &not, 0, "u 1 k 1 v 1\n0 1\n1 0\n");
}

#[test]
fn inputs_past_the_sixth_stay_zero() {
    let last_input = [7, 0, 1, 0, 1, 0, 0, 8, 0];
    let output = show_plan(&["-"], &last_input);
    let text = String::from_utf8_lossy(&output.stdout).into_owned();
    let lines: Vec<&str> = text.lines().collect();
    assert_eq!(lines.len(), 65);
    assert_eq!(lines[0], "u 7 k 1 v 1");
    assert_eq!(lines[64], "1111110 0");
}

#[test]
fn refused_files() {
    assert_shows(&["-"], &[], 1, "refused 1 at 0\n");
    assert_shows(&["-"], &[1, 0, 1, 0, 1, 0, 8], 1, "refused 6 at 6\n");
}

#[test]
fn bad_usage() {
    assert_shows(&[], &[], 2, "");
    assert_shows(&["-", "-"], &[], 2, "");
    assert_shows(&["--drawn"], &[], 2, "");
    assert_shows(&["-", "--drawn"], &[], 2, "");
    assert_shows(&["--drawn", "-", "-"], &[], 2, "");
    assert_shows(&[&example("missing.plan")], &[], 2, "");
}
