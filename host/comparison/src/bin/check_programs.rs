//! Runs the programs `twintest` and `fabricsheet` on many files and compares what they print with the
//! reference.
//!
//! Usage: `check_programs [ROOT]`, the repository in which the programs were built, each in
//! crates/NAME/out; without it, the one that this program is of. Prints what it compared. Exit status
//! 1, with the first differing case, if a program prints anything else, ends by a signal, or ends a
//! shown plan with a status other than 0.

use std::error::Error;
use std::io::{self, Write};
use std::path::{Path, PathBuf};
use std::process::{Child, Command, ExitCode, Output, Stdio};
use std::time::Duration;
use std::{env, fs, thread};

use comparison::random::Random;
use comparison::reference::programs::Program;
use comparison::samples::programs::{random_files, stored};

const SEED: u64 = 0x7072_6f67_7261_6d73;

/// One place for each number that a program may refuse with, and place 0 for a shown plan.
const ANSWERS: usize = 12;

/// Time for a program to read the first bytes of a file before it gets the others.
const PAUSE: Duration = Duration::from_millis(20);

fn main() -> ExitCode {
    match run() {
        Ok(()) => ExitCode::SUCCESS,
        Err(error) => {
            eprintln!("check_programs: {error}");
            ExitCode::FAILURE
        }
    }
}

fn run() -> Result<(), Box<dyn Error>> {
    let root = env::args_os().nth(1).map_or_else(own, PathBuf::from);
    println!("seed {SEED:#x}");
    let stored = stored()?;
    let kinds = random_files(&mut Random::new(SEED));
    println!("stored files, whole and in two pieces: {}", stored.len());
    for kind in &kinds {
        println!("{}: {}", kind.name, kind.files.len());
    }

    for program in Program::ALL {
        let mut check = Check::new(program, &root)?;
        for case in &stored {
            for feed in [Feed::Whole, Feed::InPieces] {
                check.compare(&case.name, &case.file, case.text(program), feed)?;
            }
        }
        for kind in &kinds {
            for file in &kind.files {
                check.compare(kind.name, file, &program.text(file), Feed::Whole)?;
            }
        }
        check.finish()?;
    }
    Ok(())
}

fn own() -> PathBuf {
    Path::new(env!("CARGO_MANIFEST_DIR")).join("../..")
}

/// How the program gets a file: one read may give all of it, or not.
#[derive(Clone, Copy, Debug)]
enum Feed {
    Whole,
    InPieces,
}

struct Check {
    program: Program,
    path: PathBuf,
    /// How often each answer was given.
    answers: [u32; ANSWERS],
}

impl Check {
    fn new(program: Program, root: &Path) -> Result<Check, Box<dyn Error>> {
        let name = program.name();
        let path = root.join(format!("crates/{name}/out/{name}"));
        let path =
            fs::canonicalize(&path).map_err(|error| format!("{}: {error}", path.display()))?;
        Ok(Check {
            program,
            path,
            answers: [0; ANSWERS],
        })
    }

    /// Compares what the program prints for a file with the expected text.
    fn compare(
        &mut self,
        case: &str,
        file: &[u8],
        expected: &str,
        feed: Feed,
    ) -> Result<(), Box<dyn Error>> {
        let output = output(&self.path, file, feed)?;
        let answer = number(expected);
        let ended = match output.status.code() {
            Some(status) => status == 0 || answer != 0,
            None => false,
        };
        if !ended || output.stdout != expected.as_bytes() {
            return Err(self.difference(case, file, feed, expected, &output).into());
        }
        self.answers[answer] += 1;
        Ok(())
    }

    /// Prints the totals. Fails if an answer was never due.
    fn finish(&self) -> Result<(), Box<dyn Error>> {
        let name = self.program.name();
        print!("{name}, shown: {}", self.answers[0]);
        for (number, times) in self.answers.iter().enumerate().skip(1) {
            print!(", refused {number}: {times}");
        }
        println!();
        if let Some(number) = self.answers.iter().position(|&times| times == 0) {
            return Err(format!("{name}: no file had the answer {number}").into());
        }
        let total: u32 = self.answers.iter().sum();
        println!("{name}: {total} texts compared, no difference");
        Ok(())
    }

    fn difference(
        &self,
        case: &str,
        file: &[u8],
        feed: Feed,
        expected: &str,
        output: &Output,
    ) -> String {
        let bytes: Vec<String> = file.iter().map(|byte| format!("{byte:02x}")).collect();
        format!(
            "a difference in: {case}\nfile, {feed:?}: {} bytes {}\nreference:\n{expected}\
             {}, {}:\n{}\nits errors:\n{}",
            file.len(),
            bytes.join(" "),
            self.program.name(),
            output.status,
            String::from_utf8_lossy(&output.stdout),
            String::from_utf8_lossy(&output.stderr)
        )
    }
}

/// The number of the refusal in a text, 0 if it shows a plan.
fn number(text: &str) -> usize {
    let refused = text.strip_prefix("refused ");
    let number = refused.and_then(|rest| rest.split(' ').next());
    number.map_or(0, |number| number.parse().expect("a refusal has a number"))
}

fn output(program: &Path, file: &[u8], feed: Feed) -> io::Result<Output> {
    let mut child = Command::new(program)
        .stdin(Stdio::piped())
        .stdout(Stdio::piped())
        .stderr(Stdio::piped())
        .spawn()?;
    let fed = give(&mut child, file, feed);
    let output = child.wait_with_output()?;
    match fed {
        // The program may end without reading past the longest plan.
        Err(error) if error.kind() != io::ErrorKind::BrokenPipe => Err(error),
        _ => Ok(output),
    }
}

/// Writes the file to the program's input and closes it.
fn give(child: &mut Child, file: &[u8], feed: Feed) -> io::Result<()> {
    let mut stdin = child.stdin.take().expect("the input is a pipe");
    match feed {
        Feed::Whole => stdin.write_all(file),
        Feed::InPieces => {
            let (first, rest) = file.split_at(file.len() / 2);
            stdin.write_all(first)?;
            thread::sleep(PAUSE);
            stdin.write_all(rest)
        }
    }
}
