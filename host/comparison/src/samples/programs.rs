//! Files for the programs `twintest` and `fabricsheet`: the stored ones with their texts, and random
//! ones by kind.

use std::fs;
use std::io;
use std::path::Path;

use super::plans::{shaped_plan, PlanShape};
use super::{accepted_file, accepted_plan, Counts, PlanFile, Standing, LONGEST_FILE};
use crate::random::Random;
use crate::reference::programs::{Program, SHOWN_GATES};

/// A stored file, and all that each program prints for it.
pub struct Stored {
    pub name: String,
    pub file: Vec<u8>,
    /// In the order of `Program::ALL`.
    texts: Vec<String>,
}

impl Stored {
    pub fn text(&self, program: Program) -> &str {
        &self.texts[program as usize]
    }
}

/// The stored files of `tests/programs`, by name: NAME.plan, with NAME.PROGRAM.txt for each program,
/// or NAME.txt where all print the same.
pub fn stored() -> io::Result<Vec<Stored>> {
    let folder = Path::new(env!("CARGO_MANIFEST_DIR")).join("tests/programs");
    let mut files = Vec::new();
    for entry in fs::read_dir(folder)? {
        let path = entry?.path();
        if path
            .extension()
            .is_some_and(|extension| extension == "plan")
        {
            let texts = Program::ALL.iter().map(|&program| text_of(&path, program));
            files.push(Stored {
                name: path.file_stem().unwrap_or_default().display().to_string(),
                file: fs::read(&path)?,
                texts: texts.collect::<io::Result<_>>()?,
            });
        }
    }
    files.sort_by(|one, other| one.name.cmp(&other.name));
    Ok(files)
}

/// The text that is stored for a program beside a plan file.
fn text_of(plan: &Path, program: Program) -> io::Result<String> {
    let common = plan.with_extension("txt");
    if common.exists() {
        return fs::read_to_string(common);
    }
    fs::read_to_string(plan.with_extension(format!("{}.txt", program.name())))
}

/// Files of one kind.
pub struct Kind {
    pub name: &'static str,
    pub files: Vec<Vec<u8>>,
}

/// The random files, the same ones for the same numbers.
pub fn random_files(random: &mut Random) -> Vec<Kind> {
    let mut kind = |name, files: fn(&mut Random) -> Vec<Vec<u8>>| Kind {
        name,
        files: files(random),
    };
    vec![
        kind("plans of every shape, every K", every_shape),
        kind("plans of every k that is shown", every_gate_count),
        kind("plans of counts at their corners", corners),
        kind("plans of more gates", more_gates),
        kind("one field at its limits", fields_at_limits),
        kind("cut files", cut_files),
        kind("bytes after the end", longer_files),
        kind("random bytes", random_bytes),
    ]
}

fn every_shape(random: &mut Random) -> Vec<Vec<u8>> {
    let mut files = Vec::new();
    for size in [1, 2, 4, 8, 16, 32, SHOWN_GATES] {
        for shape in PlanShape::ALL {
            for _ in 0..3 {
                let Counts(u, _, v) = Counts::random(random);
                let k = random.between(size / 2 + 1, size);
                let plan = shaped_plan(random, Counts(u, k, v), shape);
                files.push(PlanFile::random(random, &plan).bytes);
            }
        }
    }
    files
}

fn every_gate_count(random: &mut Random) -> Vec<Vec<u8>> {
    let mut file = |k| {
        let Counts(u, _, v) = Counts::random(random);
        accepted_file(random, Counts(u, k, v)).bytes
    };
    (1..=SHOWN_GATES).map(&mut file).collect()
}

/// Inputs at and beside the most whose every row is shown, too.
fn corners(random: &mut Random) -> Vec<Vec<u8>> {
    let mut files = Vec::new();
    for u in [1, 5, 6, 7, 63, 64] {
        for k in [1, 2, SHOWN_GATES - 1, SHOWN_GATES] {
            for v in [1, 63, 64] {
                files.push(accepted_file(random, Counts(u, k, v)).bytes);
            }
        }
    }
    files
}

/// Plans of too many gates to be shown. In each an output is then damaged: that comes first.
fn more_gates(random: &mut Random) -> Vec<Vec<u8>> {
    let mut files = Vec::new();
    for k in [SHOWN_GATES + 1, 66, 100, 127, 128, 129, 255, 256] {
        let Counts(u, _, v) = Counts::random(random);
        let file = accepted_file(random, Counts(u, k, v));
        let last = file.fields[file.fields.len() - 1];
        files.push(file.with_field(last, u + k + 1).bytes);
        files.push(file.bytes);
    }
    files
}

fn fields_at_limits(random: &mut Random) -> Vec<Vec<u8>> {
    let mut files = Vec::new();
    for _ in 0..12 {
        let counts = Counts::small(random);
        let file = accepted_file(random, counts);
        for &field in &file.fields {
            let value = random.choose(&field.1.limits());
            files.push(file.with_field(field, value).bytes);
        }
    }
    files
}

/// Small files cut at every byte, and others somewhere.
fn cut_files(random: &mut Random) -> Vec<Vec<u8>> {
    let mut files = Vec::new();
    for _ in 0..3 {
        let counts = Counts::small(random);
        let file = accepted_file(random, counts);
        files.extend(file.cuts().map(<[u8]>::to_vec));
    }
    for _ in 0..30 {
        let counts = Counts::random(random);
        let mut file = accepted_file(random, counts).bytes;
        file.truncate(random.between(0, file.len() as u16 - 1).into());
        files.push(file);
    }
    files
}

/// Longest plans, and plans with bytes after the last output: up to so many that the length's low
/// 16 bits are as before.
fn longer_files(random: &mut Random) -> Vec<Vec<u8>> {
    let mut files = Vec::new();
    for _ in 0..5 {
        let plan = accepted_plan(random, Counts::MOST);
        let longest = PlanFile::new(random, &plan, Standing::All);
        let counts = Counts::small(random);
        let small = accepted_file(random, counts);
        for file in [longest, small] {
            let to_longest = LONGEST_FILE - file.bytes.len();
            for extra in [0, 1, 2, 300, to_longest, to_longest + 1, 1 << 16] {
                files.push(file.with_tail(random, extra));
            }
        }
    }
    files
}

/// Random bytes alone, and after a header in range.
fn random_bytes(random: &mut Random) -> Vec<Vec<u8>> {
    let mut files = Vec::new();
    for _ in 0..20 {
        let len = random.between(0, 2_000);
        files.push(random.bytes(len.into()));
        let Counts(u, k, v) = Counts::random(random);
        let header = [u, k, v].map(u16::to_le_bytes).concat();
        let body = random.bytes(100).into_iter().map(|byte| byte % 8);
        files.push(header.into_iter().chain(body).collect());
    }
    files
}
