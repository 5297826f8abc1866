//! The example plans of `plans/`: the library reads each file, plain or drawn, evaluates the plan
//! and runs its fabric, and both give what the plan's rule says. Its gates are those that document
//! 01 alone gives. The library saves the plan in no more bytes than its file has. What
//! `plans/README.md` and the worked example of `README.md` show is what the library gives.

use std::fs;
use std::path::{Path, PathBuf};

use comparison::random::Random;
use comparison::reference::plan::used_gates;
use comparison::reference::programs::Program;
use comparison::samples::drawings::drawn_as;
use comparison::samples::{PlanFile, Standing};
use mukdalis::{
    count_fabric, evaluate, program_plan, read, read_drawn, run_fabric, save, write_fabric, Fault,
    Gate, Plan,
};

/// An example plan: its file, its counts u, k, v, and its rule, the outputs on a row of inputs. A
/// drawing, which the plain reading refuses, has the drawn number at each place.
struct Example {
    file: &'static str,
    counts: [u32; 3],
    drawn: Option<&'static [u16]>,
    rule: fn(&[bool]) -> Vec<bool>,
}

/// In the order of their names.
const EXAMPLES: [Example; 6] = [
    Example {
        file: "count.plan",
        counts: [56, 256, 6],
        drawn: None,
        rule: |inputs| {
            let closed = closed(inputs);
            (0..6).map(|bit| closed >> bit & 1 == 1).collect()
        },
    },
    Example {
        file: "drawn.plan",
        counts: [4, 4, 2],
        drawn: Some(&[2, 3, 1, 4]),
        rule: |inputs| {
            let main = inputs[0] && inputs[1] && !inputs[2];
            vec![main, main || inputs[3]]
        },
    },
    Example {
        file: "example.plan",
        counts: [2, 2, 1],
        drawn: None,
        rule: |inputs| vec![inputs[0] && !inputs[1]],
    },
    Example {
        file: "majority.plan",
        counts: [3, 4, 1],
        drawn: None,
        rule: |inputs| vec![closed(inputs) >= 2],
    },
    Example {
        file: "not.plan",
        counts: [1, 1, 1],
        drawn: None,
        rule: |inputs| vec![!inputs[0]],
    },
    Example {
        file: "shed.plan",
        counts: [6, 17, 4],
        drawn: None,
        rule: |inputs| {
            let n = usize::from(inputs[4]) + 2 * usize::from(inputs[5]);
            let mut strings = inputs[..4].to_vec();
            let asked_for = strings.iter_mut().rev().filter(|string| **string);
            asked_for.take(n).for_each(|string| *string = false);
            strings
        },
    },
];

fn closed(contacts: &[bool]) -> usize {
    contacts.iter().filter(|&&contact| contact).count()
}

/// The most inputs whose every row is tried, those past them open.
const FEW_INPUTS: u32 = 6;

const SEED: u64 = 0x706c_616e_7300_0001;

fn repository() -> PathBuf {
    Path::new(env!("CARGO_MANIFEST_DIR")).join("../..")
}

fn text_of(path: &str) -> String {
    fs::read_to_string(repository().join(path)).expect(path)
}

fn file_of(name: &str) -> Vec<u8> {
    fs::read(repository().join("plans").join(name)).expect(name)
}

/// A plan with the fabric of its counts and its program, all by the library.
struct Loaded {
    plan: Plan,
    counts: [u32; 3],
    table: Vec<u16>,
    program: Vec<u8>,
    wires: usize,
}

/// The plan of an example, by the reading that it is for.
fn plan_of(example: &Example) -> Plan {
    let file = file_of(example.file);
    match example.drawn {
        Some(_) => read_drawn(&file).expect("the gates have an order").plan,
        None => read(&file).expect("the file is a plan"),
    }
}

impl Loaded {
    fn new(plan: Plan) -> Loaded {
        let counts = plan.counts();
        let [u, k, v] = counts;
        let size = count_fabric(u, k, v).expect("the counts are in range");
        let mut table = vec![0; size.table_len(v)];
        write_fabric(u, k, v, &mut table).expect("the table has room");
        let mut program = vec![0; size.program_len()];
        program_plan(&plan, &mut program).expect("the program has room");
        Loaded {
            plan,
            counts,
            table,
            program,
            wires: size.work_len(),
        }
    }

    fn evaluated(&self, row: &[u8]) -> Vec<u8> {
        let mut result = vec![0xa5; self.plan.output_count.into()];
        evaluate(&self.plan, row, &mut result).expect("the row is accepted");
        result
    }

    /// The bits of all wires, and those of the outputs.
    fn run(&self, row: &[u8]) -> (Vec<u8>, Vec<u8>) {
        let mut work = vec![0xa5; self.wires];
        let mut result = vec![0xa5; self.plan.output_count.into()];
        run_fabric(&self.table, &self.program, row, &mut work, &mut result)
            .expect("the row is accepted");
        (work, result)
    }
}

/// Every row of few inputs. Of more, every row of the first ones, and 40 random rows for each share
/// of closed contacts from none to all in eighths.
fn rows(random: &mut Random, u: u32) -> Vec<Vec<u8>> {
    let row = |r: u64| (0..u).map(|i| (r >> i & 1) as u8).collect();
    let mut rows: Vec<Vec<u8>> = (0..1 << u.min(FEW_INPUTS)).map(row).collect();
    if u > FEW_INPUTS {
        for share in 0..=8 {
            let mut contact = || u8::from(random.between(1, 8) <= share);
            rows.extend((0..40).map(|_| (0..u).map(|_| contact()).collect::<Vec<u8>>()));
        }
    }
    rows
}

#[test]
fn every_plan_has_a_rule() {
    let folder = fs::read_dir(repository().join("plans")).expect("the folder is there");
    let mut names: Vec<String> = folder
        .map(|entry| entry.expect("the folder is read").file_name())
        .map(|name| name.into_string().expect("the name is text"))
        .filter(|name| name != "README.md")
        .collect();
    names.sort();
    assert_eq!(names, EXAMPLES.map(|example| example.file));
}

#[test]
fn plans_and_their_fabrics_follow_the_rules() {
    let mut random = Random::new(SEED);
    for example in EXAMPLES {
        let loaded = Loaded::new(plan_of(&example));
        assert_eq!(loaded.counts, example.counts, "{}", example.file);
        for row in rows(&mut random, loaded.counts[0]) {
            let inputs: Vec<bool> = row.iter().map(|&bit| bit == 1).collect();
            let outputs: Vec<u8> = (example.rule)(&inputs).into_iter().map(u8::from).collect();
            assert_eq!(loaded.evaluated(&row), outputs, "{} {row:?}", example.file);
            assert_eq!(loaded.run(&row).1, outputs, "{} {row:?}", example.file);
        }
    }
}

/// A drawing has its drawn numbers and is no plan; a plan is drawn in its own order.
#[test]
fn drawings_are_read_in_their_order() {
    for example in EXAMPLES {
        let file = file_of(example.file);
        let drawn = read_drawn(&file).expect(example.file);
        match example.drawn {
            Some(numbers) => {
                assert_eq!(drawn.drawn_numbers(), numbers);
                let refusal = read(&file).expect_err("a gate stands before what feeds it");
                assert_eq!(refusal.fault, Fault::Operand);
            }
            None => {
                let in_order: Vec<u16> = (1..=drawn.plan.gate_count).collect();
                assert_eq!(drawn.drawn_numbers(), in_order);
                assert_eq!(Ok(drawn.plan), read(&file));
            }
        }
    }
}

/// A saved plan is read as the same plan, the drawing's too. Every file that the plain reading reads is
/// already its plan's shortest, so that its own bytes come back, and come back too from a longer file
/// in which every field stands.
#[test]
fn plans_are_saved_in_no_more_bytes() {
    let mut random = Random::new(SEED);
    for example in EXAMPLES {
        let plan = plan_of(&example);
        let saved = save(&plan).expect("the plan is accepted");
        assert_eq!(read(&saved), Ok(plan), "{}", example.file);
        if example.drawn.is_none() {
            assert_eq!(saved, file_of(example.file), "{}", example.file);
        }
        let longer = PlanFile::new(&mut random, &plan, Standing::All).bytes;
        assert!(longer.len() > saved.len(), "{}", example.file);
        let plan = read(&longer).expect("the file is a plan");
        assert_eq!(save(&plan), Ok(saved), "{}", example.file);
    }
}

fn byte(file: &mut impl Iterator<Item = u8>) -> u8 {
    file.next().expect("the file goes on")
}

fn number(file: &mut impl Iterator<Item = u8>) -> u16 {
    u16::from_le_bytes([byte(file), byte(file)])
}

/// The map byte and the gate of every gate in a file, by document 01: a table byte is the table,
/// whether or not the second operand stands.
fn gates_by_document_01(file: &[u8]) -> Vec<(u8, Gate)> {
    let mut file = file.iter().copied();
    let [u, k, _] = [(); 3].map(|()| number(&mut file));
    let gate = |own: u16| {
        let map = byte(&mut file);
        let stands = |bit: u8| map >> bit & 1 == 1;
        let first = if stands(0) {
            number(&mut file)
        } else {
            own - 1
        };
        let second = if stands(1) { number(&mut file) } else { first };
        let table = if stands(2) { byte(&mut file) } else { 8 };
        let gate = Gate {
            first,
            second,
            table: table.into(),
        };
        (map, gate)
    };
    (u + 1..=u + k).map(gate).collect()
}

/// By document 02 a table byte without a second operand has two lines. The examples that have one
/// mean what they mean by document 01. The gates of a drawing are compared in drawn order, with
/// their operands in drawn numbers.
#[test]
fn plans_have_the_gates_that_document_01_gives() {
    let has_two_lines = |map: &u8| map & 6 == 4;
    let mut of_two_lines = Vec::new();
    for example in EXAMPLES {
        let file = file_of(example.file);
        let (maps, gates): (Vec<u8>, Vec<Gate>) = gates_by_document_01(&file).into_iter().unzip();
        let plan = plan_of(&example);
        let drawing = match example.drawn {
            Some(numbers) => drawn_as(&plan, numbers),
            None => plan,
        };
        assert_eq!(used_gates(&drawing), gates, "{}", example.file);
        if maps.iter().any(has_two_lines) {
            of_two_lines.push(example.file);
        }
    }
    assert_eq!(of_two_lines, ["drawn.plan", "not.plan"]);
}

/// The file's bytes where they are few, otherwise how many.
#[test]
fn the_list_of_plans_shows_their_counts_and_bytes() {
    let list = text_of("plans/README.md");
    for example in EXAMPLES {
        let [u, k, v] = example.counts;
        let start = format!("| `{}` | {u} | {k} | {v} | ", example.file);
        let file = file_of(example.file);
        let bytes = match file.len() {
            0..=32 => hex(&file),
            33..=999 => format!("{} bytes", file.len()),
            long => format!("{},{:03} bytes", long / 1000, long % 1000),
        };
        let lines: Vec<&str> = list.lines().filter(|l| l.starts_with(&start)).collect();
        assert_eq!(lines.len(), 1, "{start}");
        assert!(lines[0].ends_with(&format!(" | {bytes} |")), "{bytes}");
        if let Some(drawn) = example.drawn {
            let drawn = format!("`drawn {}`", numbers(drawn));
            assert!(list.contains(&drawn), "{drawn}");
        }
    }
}

fn hex(bytes: &[u8]) -> String {
    let bytes: Vec<String> = bytes.iter().map(|byte| format!("{byte:02x}")).collect();
    bytes.join(" ")
}

fn assert_shows(page: &str, text: &str) {
    assert!(page.contains(text), "README.md does not show: {text}");
}

/// The example plan: its bytes, which are the first cells of a table, and twintest's lines.
#[test]
fn the_worked_example_shows_the_plan() {
    let page = text_of("README.md");
    let file = file_of("example.plan");
    let fields: Vec<&str> = page.lines().filter_map(bytes_first).collect();
    assert_eq!(fields.join(" "), hex(&file));
    for program in Program::ALL {
        let text = program.text(&file);
        let lines: Vec<String> = text.lines().map(|l| format!("    {l}\n")).collect();
        assert_shows(&page, &lines.concat());
    }
}

/// The first cell of a table's line if it holds bytes in hex.
fn bytes_first(line: &str) -> Option<&str> {
    let cell = line.strip_prefix("| ")?.split(" | ").next()?;
    let is_byte = |text: &str| text.len() == 2 && u8::from_str_radix(text, 16).is_ok();
    cell.split(' ').all(is_byte).then_some(cell)
}

/// NOT in its fabric: the table, the program, and every wire on both rows.
#[test]
fn the_worked_example_shows_the_fabric() {
    let page = text_of("README.md");
    let not = Loaded::new(read(&file_of("not.plan")).expect("the file is a plan"));
    let (header, rest) = not.table.split_at(3);
    let (rows, outputs) = rest.split_at(rest.len() - 1);
    let parts = [header].into_iter().chain(rows.chunks(3)).chain([outputs]);
    let parts: Vec<String> = parts.map(numbers).collect();
    assert_shows(&page, &format!("    {}\n", parts.join(" | ")));
    assert_shows(&page, &format!("hex {}", hex(&not.program)));
    for input in [0, 1] {
        let (work, result) = not.run(&[input]);
        let wires = numbers(&work).replace(' ', " | ");
        assert_shows(&page, &format!("| {input} | {wires} | {} |\n", result[0]));
    }
}

fn numbers<T: ToString>(numbers: &[T]) -> String {
    let numbers: Vec<String> = numbers.iter().map(ToString::to_string).collect();
    numbers.join(" ")
}
