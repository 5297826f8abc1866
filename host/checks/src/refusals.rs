//! What the prover says of the must-fail edits: it has to refuse each wrong version for itself.
//!
//! `rt ci` tries each file of edits as a whole, and tells the first of what the prover says. For a
//! file of one version that is enough, where it is an error of the version's own function. Of every
//! other file the whole log is made, by tools/proved.py, over the libraries that `rt ci` proved.

use std::collections::HashMap;
use std::path::Path;
use std::process::Command;
use std::{fs, io};

use crate::edits::{place, versions, Version};
use crate::files::{self, File};
use crate::rattle::is_word;
use crate::Report;

/// Where the logs are written.
const LOGS: &str = "target/must-fail";

/// The files of a function's proof.
const PROOF_FILES: [&str; 3] = ["Proof.antt", "Answers.antt", "Invariants.antt"];

/// What an error says that only shows that the edit took a name away.
const NAMES_GONE: [&str; 3] = ["has no field", "is not in scope", "has no `"];

/// How a line may begin that says so and is broken, of which `rt ci` tells the first part alone.
const MAY_BE_GONE: [&str; 2] = ["`: module `", "`: record `"];

/// The functions that call one another, by their crate and name, each with the name of the cycle.
type Cycles = HashMap<(String, String), String>;

/// Every version in the repository at `root` that the prover did not refuse for itself. `told` is
/// what `rt ci` wrote, if that is at hand.
pub fn unrefused(root: &Path, told: Option<&str>) -> io::Result<Report> {
    let edits = files::directly_in(root, "must-fail", "edit")?;
    let cycles = cycles(root)?;
    let is_told = |edit: &File| {
        let line = told.and_then(|told| told_of(told, &edit.path));
        let is_settled = |version: &Version| {
            line.is_some_and(|line| subject(&cycles, edit, version).is_refused_in(line))
        };
        matches!(&versions(&edit.text)[..], [version] if is_settled(version))
    };
    let open: Vec<&File> = edits.iter().filter(|edit| !is_told(edit)).collect();
    let logs = logs(root, &open)?;
    let mut problems = Vec::new();
    for (edit, log) in open.iter().zip(&logs) {
        for version in versions(&edit.text) {
            let subject = subject(&cycles, edit, &version);
            if let Some(problem) = subject.not_refused(log) {
                let Version { label, refused, .. } = version;
                problems.push(format!("{}: {label}: {refused} {problem}", edit.path));
            }
        }
    }
    let all: usize = edits.iter().map(|edit| versions(&edit.text).len()).sum();
    let seen = format!(
        "{all} versions, {} logs of {} files",
        open.len(),
        edits.len()
    );
    Ok(Report { problems, seen })
}

/// For each version of these crates, or of all if none is named, the first thing that the prover says
/// of its own function: where, which goal, and the message.
pub fn quoted(root: &Path, crates: &[String]) -> io::Result<Vec<String>> {
    let mut edits = files::directly_in(root, "must-fail", "edit")?;
    edits.retain(|edit| {
        let (name, _) = place(&edit.path);
        crates.is_empty() || crates.iter().any(|one| one == name)
    });
    let cycles = cycles(root)?;
    let logs = logs(root, &edits.iter().collect::<Vec<_>>())?;
    let mut lines = Vec::new();
    for (edit, log) in edits.iter().zip(&logs) {
        for version in versions(&edit.text) {
            let Version { label, refused, .. } = version;
            lines.push(format!("{}: {label}: {refused}", edit.path));
            let subject = subject(&cycles, edit, &version);
            let problem = subject.not_refused(log);
            lines.extend(problem.map(|problem| format!("  {problem}")));
            let said = said_of(&subject, log).into_iter();
            lines.extend(said.map(|line| format!("  {}", line.trim_end())));
        }
    }
    Ok(lines)
}

/// What the prover says of each of these edits.
fn logs(root: &Path, edits: &[&File]) -> io::Result<Vec<String>> {
    let folder = root.join(LOGS);
    if folder.is_dir() {
        fs::remove_dir_all(&folder)?;
    }
    if edits.is_empty() {
        return Ok(Vec::new());
    }
    let mut command = Command::new("python3");
    command.args(["tools/proved.py", "logs", LOGS]);
    command.args(edits.iter().map(|edit| &edit.path));
    if !command.current_dir(root).status()?.success() {
        return Err(io::Error::other("tools/proved.py made no logs"));
    }
    let log = |edit: &&File| {
        let (name, file) = place(&edit.path);
        fs::read_to_string(folder.join(format!("{name}/{file}.log"))).map(|log| joined(&log))
    };
    edits.iter().map(log).collect()
}

/// A log in which what an error says of a name stands on the error's line: the prover may break it.
fn joined(log: &str) -> String {
    let breaks = NAMES_GONE.iter().map(|words| format!("\n  {words}"));
    breaks.fold(log.to_string(), |log, words| {
        log.replace(&words, &words.replace("\n  ", " "))
    })
}

/// The line in which `rt ci` quotes what the prover says of an edit, from the quote on, where it is
/// no error that may go on about a name.
fn told_of<'a>(told: &'a str, path: &str) -> Option<&'a str> {
    let (name, file) = place(path);
    let head = format!("rt: must-fail {name}/{file}.edit: refused, as it must be: ");
    let line = told.lines().find_map(|line| line.strip_prefix(&head));
    line.filter(|line| !MAY_BE_GONE.iter().any(|words| line.contains(words)))
}

/// The functions of the sources that call one another.
fn cycles(root: &Path) -> io::Result<Cycles> {
    let mut found = Cycles::new();
    for source in files::below(root, "src", "rt")? {
        let inside = source.path.strip_prefix("crates/").unwrap_or_default();
        let name = inside.split('/').next().unwrap_or_default();
        for (function, cycle) in cycles_in(&source.text) {
            found.insert((name.to_string(), function), cycle);
        }
    }
    Ok(found)
}

/// The functions of a source that are marked `#[cycle(NAME)]`, each with that name.
fn cycles_in(source: &str) -> Vec<(String, String)> {
    let mut found = Vec::new();
    let mut cycle = None;
    for line in source.lines().map(str::trim_start) {
        if let Some(rest) = line.strip_prefix("#[cycle(") {
            cycle = rest.split(')').next();
        } else if !line.starts_with("#[") {
            let name = line.split_once("fn ").map(|(_, rest)| rest);
            let name = name.and_then(|rest| rest.split(|c| !is_word(c)).next());
            if let (Some(name), Some(cycle)) = (name, cycle) {
                found.push((name.to_string(), cycle.to_string()));
            }
            cycle = None;
        }
    }
    found
}

/// The function or law that a version changes.
struct Subject<'a> {
    name: &'a str,
    /// The cycle of calls that it is in.
    cycle: Option<&'a str>,
}

fn subject<'a>(cycles: &'a Cycles, edit: &File, version: &Version<'a>) -> Subject<'a> {
    let (crate_name, _) = place(&edit.path);
    let name = version.refused;
    let function = name.rsplit("::").next().unwrap_or(name);
    let cycle = cycles.get(&(crate_name.to_string(), function.to_string()));
    Subject {
        name,
        cycle: cycle.map(String::as_str),
    }
}

/// The first thing that a log says of the function or law itself, with the lines that go on with it;
/// for goals that were left to the prover, what each of them is.
fn said_of<'a>(subject: &Subject, log: &'a str) -> Vec<&'a str> {
    let mut lines = log.lines();
    let Some(first) = lines.find(|line| subject.is_refused_in(line)) else {
        return Vec::new();
    };
    let mut said = vec![first];
    match goals_left(first) {
        Some((file, goals)) => {
            let is_one = |line: &&str| {
                goals.iter().any(|goal| {
                    let head = format!("note: `{goal}` of {file} must prove: ");
                    line.starts_with(&head)
                })
            };
            said.extend(log.lines().filter(is_one));
        }
        None => said.extend(lines.take_while(|line| line.starts_with(' '))),
    }
    said
}

impl Subject<'_> {
    /// What keeps a log from showing that the function or law is refused for itself.
    fn not_refused(&self, log: &str) -> Option<&'static str> {
        let lines = || log.lines();
        if lines().any(|line| self.is_refused_in(line)) {
            return None;
        }
        let gone = lines().any(|line| self.is_error_in(line) && names_gone(line));
        Some(if gone {
            "is refused only since its proof has names that the edit takes away"
        } else {
            "is not refused"
        })
    }

    /// Whether a line of a log refuses the function or law for itself: by an error of its own, or since
    /// goals that were left to the prover were not proved.
    fn is_refused_in(&self, line: &str) -> bool {
        if let Some(rest) = line.strip_prefix("fn ") {
            let own = format!("::{}: no proof: ", self.name);
            return rest.contains(&own) && goals_left(line).is_some();
        }
        self.is_error_in(line) && !names_gone(line)
    }

    /// Whether a line of a log is an error of the function's own proof, or of the law, that does not
    /// only wait for something else that was refused.
    fn is_error_in(&self, line: &str) -> bool {
        let Some((place, message)) = line.split_once(": error: ") else {
            return false;
        };
        // `1 declaration that depends on .., was not checked: ..`
        let rest = message.trim_start_matches(|c: char| c.is_ascii_digit());
        if rest.len() < message.len() && rest.starts_with(" declaration") {
            return false;
        }
        match proof_folder(place) {
            Some(folder) => self.is_proved_in(folder),
            None => message.starts_with(&format!("`{}`: ", self.name)),
        }
    }

    /// Whether the function's proof is in this folder, or that of a cycle of calls that it is in.
    fn is_proved_in(&self, folder: &str) -> bool {
        let last = folder.rsplit('/').next().unwrap_or(folder);
        let Some(cycle) = last.strip_prefix('+') else {
            return folder.ends_with(&format!("/{}", self.name.replace("::", "/")));
        };
        // One that calls itself and no other gives the cycle its name.
        let own = self.name.rsplit("::").next().unwrap_or(self.name);
        self.cycle.unwrap_or(own) == cycle
    }
}

/// Whether an error only says that a name is not there.
fn names_gone(line: &str) -> bool {
    NAMES_GONE.iter().any(|words| line.contains(words))
}

/// The folder of the function whose proof a place PATH:LINE:COLUMN is in.
fn proof_folder(place: &str) -> Option<&str> {
    let (path, _) = place.split_once(':')?;
    let (folder, file) = path.rsplit_once('/')?;
    PROOF_FILES.contains(&file).then_some(folder)
}

/// The goals that a line says were not proved, and the file that their answers could stand in.
fn goals_left(line: &str) -> Option<(&str, Vec<&str>)> {
    let (head, rest) = line.split_once("; `search` did not prove ")?;
    let (_, file) = head.split_once(" in ")?;
    let goals = rest.split("; ").next().unwrap_or(rest);
    let goals = goals.split('`').skip(1).step_by(2).collect();
    Some((file.trim_start_matches("./"), goals))
}

#[cfg(test)]
mod tests {
    use super::*;

    const LOG: &str = "\
./proofs/rules/one/Proof.antt:9:12: error: `within`: as printed, the two types differ
  computed as far as they go, 7 (expected) and 8 (found)
./proofs/rules/one/Proof.antt:9:1: note: a trial run of this declaration was refused too
./proofs/rules/one/Proof.antt:9:13: error: 1 declaration that depends on `within`, which was rejected, was not checked: one_spec
./proofs/rules/two/Proof.antt:9:12: error: 1 declaration that depends on `close`, which was not admitted, was not checked: two_spec
./proofs/rules/two/Proof.antt:9:14: error: 2 declarations that depend on `close`, which was not admitted, were not checked: a, b
./proofs/rules/eight/Proof.antt:3:1: error: `gates`: a record `Lts` has no field `in-Refused`
./proofs/Laws.antt:3:1: error: `a_law`: `omega`: the goal does not follow
./proofs/Laws.antt:4:1: error: 1 declaration that depends on `a_law`, which was rejected, was not checked: b_law
./proofs/record/Plan/zero/Proof.antt:1:1: error: `zeroed`: differ
./proofs/record/six/Answers.antt:1:1: error: `returns`: differ
./proofs/record/seven/Invariants.antt:1:1: error: `loop_b`: differ
./proofs/block/+parity/Proof.antt:1:1: error: `returns`: differ
./proofs/block/+own/Proof.antt:1:1: error: `returns`: differ
fn plan::rules::two: not proved; it calls `plan::rules::one`, which is not proved
note: src/record.rt:3:1: it is not proved that what the function ensures holds when it returns (`returns`)
fn plan::record::three: no proof: expected answers in ./proofs/record/three/Answers.antt; `search` did not prove `returns`, `again`; it calls `plan::rules::one`, which is not proved
fn plan::record::four: no proof: it calls `plan::rules::one`, which is not proved
fn plan::record::five: proved
note: `returns` of proofs/record/three/Answers.antt must prove: 3 ≡ 4
note: `again` of proofs/record/three/Answers.antt must prove: 5 ≡ 6
note: `returns` of proofs/record/five/Answers.antt must prove: 7 ≡ 8
./proofs/rules/nine/Proof.antt:3:1: error: `gates`: `tie.Need-gates`: module `Tie`
  has no `Need-gates` that can be named from here
";

    fn of<'a>(name: &'a str, cycle: Option<&'a str>) -> Subject<'a> {
        Subject { name, cycle }
    }

    #[test]
    fn only_an_error_of_its_own_refuses() {
        let log = joined(LOG);
        let not_refused = |name, cycle| of(name, cycle).not_refused(&log);
        let refused = ["one", "a_law", "Plan::zero", "three", "six", "seven", "own"];
        for name in refused {
            assert_eq!(not_refused(name, None), None, "{name}");
        }
        let problem = Some("is not refused");
        for name in [
            "two", "b_law", "four", "five", "zer", "wo", "hree", "returns", "within", "even",
            "+parity", "arity",
        ] {
            assert_eq!(not_refused(name, None), problem, "{name}");
        }
        assert_eq!(not_refused("even", Some("parity")), None);
        assert_eq!(not_refused("own", Some("arity")), problem);
        assert_eq!(of("one", None).not_refused(""), problem);
        let problem = "is refused only since its proof has names that the edit takes away";
        assert_eq!(not_refused("eight", None), Some(problem));
        assert_eq!(not_refused("nine", None), Some(problem));
    }

    #[test]
    fn what_is_said_of_a_function_is_quoted() {
        let lines: Vec<&str> = LOG.lines().collect();
        assert_eq!(said_of(&of("one", None), LOG), lines[..2]);
        assert_eq!(said_of(&of("a_law", None), LOG), lines[7..8]);
        let goals = [lines[16], lines[19], lines[20]];
        assert_eq!(said_of(&of("three", None), LOG), goals);
        assert_eq!(said_of(&of("five", None), LOG), [""; 0]);
        assert_eq!(said_of(&of("nine", None), &joined(LOG)), [""; 0]);
    }

    #[test]
    fn cycles_of_calls_are_read() {
        let source = "\
#[cycle(parity)]
fn even(n: u8) -> bool {
#[cycle(other)]
#[inline]
pub(crate) fn half<'a>(n: &'a u8) {
// #[cycle(none)]
fn alone() {
#[cycle(lost)]
struct Lost;
fn after() {
";
        let expected = [("even", "parity"), ("half", "other")];
        let expected = expected.map(|(name, cycle)| (name.to_string(), cycle.to_string()));
        assert_eq!(cycles_in(source), expected);
    }

    #[test]
    fn what_rt_tells_of_an_edit_is_found() {
        let told = "\
rt: must-fail plan/wrong_1.edit: refused, as it must be: ./proofs/rules/one/Proof.antt:9:12: error: `within`: differ
rt: must-fail plan/wrong_2.edit: refused, as it must be (only by a limit of the prover): ./proofs/a
rt: must-fail plan/wrong_3.edit: NOT REFUSED: ./proofs/rules/one/Proof.antt:9:12: error: `within`: differ
rt: must-fail plan/wrong_5.edit: refused, as it must be: ./proofs/rules/one/Proof.antt:9:12: error: `gates`: `tie.Need-gates`: module `Tie`
rt: must-fail plan/wrong_4.edit: refused, as it must be: ./proofs/rules/one/Proof.antt:9:12: error: 1 declaration that depends on `within`, which was re
";
        let of_edit = |file: &str| told_of(told, &format!("crates/plan/must-fail/{file}.edit"));
        let line = of_edit("wrong_1");
        assert!(line.is_some_and(|line| of("one", None).is_refused_in(line)));
        // What only waits, cut short.
        let line = of_edit("wrong_4");
        assert!(line.is_some_and(|line| !of("one", None).is_refused_in(line)));
        assert_eq!(
            ["wrong_2", "wrong_3", "wrong_5", "wrong"].map(of_edit),
            [None; 4]
        );
    }
}
