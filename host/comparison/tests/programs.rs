//! The reference of `twintest` and `fabricsheet` on the stored files, the long texts of `twintest` by
//! rule, and every sheet by rule.
//!
//! The short texts are written by hand from documents 01 and 02. The long ones follow from what their
//! plans say, without evaluation; their sizes from document 01's numbers of rows:
//!
//! | (u, k, v) | S(u, 2K) | U(K) | S(K, v) | rows | of them X | wires, 1 + u + rows + X | bits, rows + 3K |
//! |---|---|---|---|---|---|---|---|
//! | (6, 64, 3) | 1665 | 2815 | 705 | 5185 | 1538 + 2046 + 642 | 9418 | 5377 |
//! | (64, 3, 3) | 705 | 31 | 13 | 749 | 642 + 14 + 10 | 1480 | 761 |
//!
//! A sheet's figures follow from the rows of its parts, log to base 2:
//!
//! | | X | Y | G |
//! |---|---|---|---|
//! | S of N positions: two P(N) and a chain | 2 N log N - 2N + 2 | N - 1 | 0 |
//! | U(K), n = log K: K / s blocks S(s / 2, s) and K rows Y for each s of 2, 4, .., K; K gates | K (n^2 - n) + 2K - 2 | 2Kn - K + 1 | K |

use comparison::reference::programs::Program;
use comparison::samples::programs::{stored, Stored};

const NAMES: [&str; 15] = [
    "example",
    "gates_64",
    "gates_65",
    "inputs_64",
    "not",
    "refused_10_tail",
    "refused_1_stub",
    "refused_2_inputs",
    "refused_3_gates",
    "refused_4_outputs",
    "refused_5_cut",
    "refused_6_map",
    "refused_7_operand",
    "refused_8_table",
    "refused_9_source",
];

fn files() -> Vec<Stored> {
    stored().expect("the stored files are there")
}

fn stored_as(name: &str) -> Stored {
    let mut files = files().into_iter();
    files.find(|stored| stored.name == name).expect(name)
}

#[test]
fn stored_texts() {
    let files = files();
    let names: Vec<&str> = files.iter().map(|stored| stored.name.as_str()).collect();
    assert_eq!(names, NAMES);
    for stored in &files {
        for program in Program::ALL {
            let (text, name) = (program.text(&stored.file), &stored.name);
            assert_eq!(text, stored.text(program), "{program:?} {name}");
        }
    }
}

/// Of 6 inputs and k gates: AND of inputs 1 and 2, each next gate AND of the one before and a
/// further input, round and round, the last gate (table 4) input 1 and not the one before. The
/// outputs are the first gate and the last two.
fn chain(k: u16) -> Vec<u8> {
    let u = 6;
    let mut file = numbers(&[u, k, 3]);
    file.push(3);
    file.extend(numbers(&[1, 2]));
    for g in 2..k {
        file.push(2);
        file.extend(numbers(&[1 + g % u]));
    }
    file.push(7);
    file.extend(numbers(&[1, u + k - 1]));
    file.push(4);
    file.extend(numbers(&[u + 1, u + k - 1, u + k]));
    file
}

fn numbers(numbers: &[u16]) -> Vec<u8> {
    numbers.iter().flat_map(|n| n.to_le_bytes()).collect()
}

/// A line per row r below 64: u digits, and twice the outputs that `outputs` gives for r.
fn lines(u: usize, outputs: fn(u32) -> [bool; 3]) -> String {
    (0..64)
        .map(|r| {
            let inputs: String = (0..6).map(|i| digit(r >> i & 1 == 1)).collect();
            let outputs: String = outputs(r).map(digit).iter().collect();
            format!("{inputs:0<u$} {outputs} {outputs}\n")
        })
        .collect()
}

fn digit(bit: bool) -> char {
    if bit {
        '1'
    } else {
        '0'
    }
}

/// Only row 63 has every input; input 1 stands in the odd rows.
#[test]
fn chains_by_rule() {
    let stored = stored_as("gates_64");
    let counts = "u 6 k 64 v 3 rows 5185 wires 9418 bits 5377\n";
    let rows = lines(6, |r| [r % 4 == 3, r == 63, r % 2 == 1 && r != 63]);
    assert_eq!(stored.file, chain(64));
    assert_eq!(stored.text(Program::Twintest), format!("{counts}{rows}"));

    let longer = stored_as("gates_65");
    assert_eq!(longer.file, chain(65));
    for program in Program::ALL {
        assert_eq!(longer.text(program), "refused 11 at 0\n");
    }
}

/// XOR of inputs 1 and 6; of 64, which stays 0, and 1; NOR of 63 and 64.
#[test]
fn sixty_four_inputs_by_rule() {
    let stored = stored_as("inputs_64");
    let mut file = numbers(&[64, 3, 3]);
    for (first, second, table) in [(1, 6, 6), (64, 1, 6), (63, 64, 1)] {
        file.push(7);
        file.extend(numbers(&[first, second]));
        file.push(table);
    }
    file.extend(numbers(&[65, 66, 67]));
    let counts = "u 64 k 3 v 3 rows 749 wires 1480 bits 761\n";
    let rows = lines(64, |r| [(r % 2 == 1) != (r >= 32), r % 2 == 1, true]);
    assert_eq!(stored.file, file);
    assert_eq!(stored.text(Program::Twintest), format!("{counts}{rows}"));
}

/// A line of a sheet: rows X, Y and G, and their total.
fn sheet_line(name: &str, [x, y, g]: [u32; 3]) -> String {
    format!("{name} {x} {y} {g} {}\n", x + y + g)
}

/// The rows of S with N positions.
fn selection(size: u32) -> [u32; 3] {
    [2 * size * size.ilog2() + 2 - 2 * size, size - 1, 0]
}

/// The rows of U(K).
fn universal(size: u32) -> [u32; 3] {
    let n = size.ilog2();
    [
        size * (n * n - n) + 2 * size - 2,
        2 * size * n + 1 - size,
        size,
    ]
}

/// Every shown plan, with the positions of S(u, 2K), K, and the positions of S(K, v).
#[test]
fn sheets_by_rule() {
    for (name, input, gates, output) in [
        ("example", 4, 2, 2),
        ("gates_64", 128, 64, 64),
        ("inputs_64", 64, 4, 4),
        ("not", 2, 1, 1),
    ] {
        let parts = [selection(input), universal(gates), selection(output)];
        let sum = [0, 1, 2].map(|kind| parts.iter().map(|part| part[kind]).sum());
        let [input, block, output] = parts;
        let lines = [
            sheet_line("input", input),
            sheet_line("block", block),
            sheet_line("output", output),
            sheet_line("sum", sum),
        ];
        assert_eq!(stored_as(name).text(Program::Fabricsheet), lines.concat());
    }
}
