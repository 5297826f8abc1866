//! The check of arrays: programming a permutation block holds at most 2,560 bytes of arrays at one
//! time (document 02, W2), counted from the source.
//!
//! The calls that program P are the public functions whose contract says what P's program is; one
//! under which P is programmed, and whose contract says something else, has to be known here. Of
//! each, and of every export, the check finds the path of calls on which most is held: a function's
//! own arrays, as `held` says, and the most that a function which it calls comes to. What a caller
//! lends is not counted. A function that calls itself, by whatever way, holds no array. A function
//! with a bound is counted for each type that has its traits, with what their `impl` blocks hold.
//! What cannot be resolved is a problem: nothing is left out.

use std::collections::{BTreeMap, BTreeSet};
use std::path::Path;
use std::{fs, io, iter};

use crate::files::{self, File};
use crate::listing::{self, Listed};
use crate::rattle::is_word;
use crate::Report;
use held::Holding;
use library::{Instance, Library, Standing};
use syntax::Function;
use tokens::Failure;

mod expressions;
mod held;
mod items;
mod library;
mod parser;
mod statements;
mod syntax;
mod tokens;
mod types;

#[cfg(test)]
mod tests;

/// What programming P may hold.
const MOST: u64 = 2_560;

/// The definitions that say what P's program is.
const PROGRAMS_OF_P: [&str; 3] = ["program_result", "program_at_result", "wanted_bits"];

/// The calls that program P as a part of more: S, a plan, and the four calls in one.
const PROGRAM_MORE: [&str; 6] = [
    "program_selection",
    "program_selection_at",
    "mkd_selection_program",
    "program_plan",
    "mkd_program",
    "run_both",
];

/// The page that shows what each call holds.
const PAGE: &str = "docs/DECISIONS.md";

/// The path of calls on which a call holds most.
#[derive(Clone, Debug, PartialEq, Eq)]
pub struct Fullest {
    pub call: String,
    pub bytes: u64,
    /// The functions on it that hold arrays, and how many bytes.
    pub path: Vec<(String, u64)>,
}

/// What each call holds, where all is well; what is wrong, where not.
#[derive(Default)]
pub struct Arrays {
    /// The calls that program P, and the exports.
    pub programming: Vec<Fullest>,
    pub exports: Vec<Fullest>,
    pub problems: Vec<String>,
}

/// The arrays of the repository at `root`.
pub fn counted(root: &Path) -> io::Result<Arrays> {
    let crates = listing::read(root)?;
    Ok(arrays(&crates, &files::below(root, "src", "rt")?))
}

/// Every problem of the arrays of the repository at `root`, and of the page that shows them.
pub fn problems(root: &Path) -> io::Result<Report> {
    let mut found = counted(root)?;
    if !found.are_shown(&fs::read_to_string(root.join(PAGE))?) {
        let problem = "what calls hold, as this page has it, is not what was counted";
        found.problems.push(format!("{PAGE}: {problem}"));
    }
    let (calls, exports) = (found.programming.len(), found.exports.len());
    Ok(Report {
        problems: found.problems,
        seen: format!("{calls} calls that program P, {exports} exports"),
    })
}

impl Fullest {
    /// The call, its bytes, and what they are the sum of.
    fn line(&self) -> String {
        let step = |(name, bytes): &(String, u64)| format!("{name} {bytes}");
        let path: Vec<String> = self.path.iter().map(step).collect();
        let line = format!("{:24}{:>6}  {}", self.call, self.bytes, path.join(" + "));
        line.trim_end().to_string()
    }
}

impl Arrays {
    /// A line for each call that programs P, then for each other export.
    pub fn lines(&self) -> Vec<String> {
        let others = self.exports.iter();
        let others = others.filter(|export| !self.programming.contains(export));
        let calls = self.programming.iter().chain(others);
        calls.map(Fullest::line).collect()
    }

    /// Whether a page has these lines, one behind the other.
    fn are_shown(&self, page: &str) -> bool {
        page.contains(&format!("\n{}\n", self.lines().join("\n")))
    }
}

/// The arrays of the crates that are listed.
fn arrays(crates: &[Listed], files: &[File]) -> Arrays {
    let refused = |problems| Arrays {
        problems,
        ..Arrays::default()
    };
    let library = match Library::read(crates, files) {
        Ok(library) => library,
        Err(problem) => return refused(vec![problem]),
    };
    let public = library.instances_that(|function| function.is_public);
    let exports = library.instances_that(|function| function.is_export);
    let programming = |function: &Function| function.is_public && says_program(function);
    let programming = library.instances_that(programming);
    let mut calls = Calls {
        library: &library,
        held: BTreeMap::new(),
    };
    let mut problems = Vec::new();
    for (found, what) in [(&exports, "export"), (&programming, "call that programs P")] {
        if found.is_empty() {
            problems.push(format!("{}: no {what} was found", listing::FILE));
        }
    }
    for at in public.iter().chain(&exports) {
        calls.follow(at, &mut problems);
    }
    for at in &public {
        let programs = |at: &Instance| says_program(&library.functions[at.function].item);
        let is_known = programs(at) || PROGRAM_MORE.contains(&&*library.function_name(at.function));
        if !is_known && calls.under(at).iter().any(programs) {
            problems.push(calls.problem(at, "programs P, and its contract does not say so"));
        }
    }
    problems.extend(calls.held_in_recursion());
    if !problems.is_empty() {
        return refused(problems);
    }
    let most = calls.most();
    for holding in calls.held.values() {
        for at in &holding.lent {
            if most[at].0 > 0 {
                let problem = "holds arrays, and a closure that is lent calls it";
                problems.push(calls.problem(at, problem));
            }
        }
    }
    for at in &programming {
        let bytes = most[at].0;
        if bytes > MOST {
            let path = calls.path(&most, at);
            let held: Vec<String> = path.map(|at| calls.shown(at)).collect();
            let held = held.join("; ");
            let problem = format!("holds {bytes} bytes of arrays at one time: {held}");
            problems.push(calls.problem(at, &problem));
        }
    }
    let fullest = |at: &Instance| {
        let step = |at: &Instance| (library.function_name(at.function), calls.held[at].bytes());
        Fullest {
            call: library.function_name(at.function),
            bytes: most[at].0,
            path: calls.path(&most, at).map(step).collect(),
        }
    };
    Arrays {
        programming: programming.iter().map(fullest).collect(),
        exports: exports.iter().map(fullest).collect(),
        problems,
    }
}

/// Whether a function's contract says what P's program is.
fn says_program(function: &Function) -> bool {
    let mut words = function.contract.split(|c| !is_word(c));
    words.any(|word| PROGRAMS_OF_P.contains(&word))
}

/// Functions with what they hold and call.
struct Calls<'a> {
    library: &'a Library,
    held: BTreeMap<Instance, Holding>,
}

/// For each function the most that is held from it on, and the callee that this goes on with.
type Most = BTreeMap<Instance, (u64, Option<Instance>)>;

impl Calls<'_> {
    /// Takes up a function and all under it.
    fn follow(&mut self, at: &Instance, problems: &mut Vec<String>) {
        if self.held.contains_key(at) {
            return;
        }
        let holding = held::holding(self.library, at).unwrap_or_else(|failure| {
            let module = self.library.functions[at.function].place.module;
            let problem = self.library.located(module, failure);
            // Each instance of a generic function has the same one.
            if !problems.contains(&problem) {
                problems.push(problem);
            }
            Holding::default()
        });
        let under = holding.calls.clone();
        self.held.insert(at.clone(), holding);
        for at in &under {
            self.follow(at, problems);
        }
    }

    /// A problem of a function, at its place.
    fn problem(&self, at: &Instance, problem: &str) -> String {
        let Standing { item, place } = &self.library.functions[at.function];
        let problem = format!("{} {problem}", self.library.function_name(at.function));
        let line = item.line;
        self.library
            .located(place.module, Failure { line, problem })
    }

    /// A function with all that it holds.
    fn shown(&self, at: &Instance) -> String {
        let held = self.held[at].held.iter();
        let held = held.map(|held| format!("{} {}", held.what, held.bytes));
        let held: Vec<String> = held.collect();
        let name = self.library.function_name(at.function);
        format!("{name} has {}", held.join(", "))
    }

    /// All that a function calls, and what these call.
    fn under(&self, at: &Instance) -> BTreeSet<Instance> {
        let (mut under, mut open) = (BTreeSet::new(), vec![at]);
        while let Some(next) = open.pop() {
            let new = self.held[next].calls.iter();
            open.extend(new.filter(|callee| under.insert((*callee).clone())));
        }
        under
    }

    /// A problem for each function that holds arrays and calls itself, by whatever way.
    fn held_in_recursion(&self) -> Vec<String> {
        let mut found = Vec::new();
        for (at, holding) in &self.held {
            if holding.bytes() > 0 && self.under(at).contains(at) {
                let problem = format!("holds arrays inside a recursion: {}", self.shown(at));
                found.push(self.problem(at, &problem));
            }
        }
        found
    }

    /// The most that is held from each function on: its own arrays, and the most of a callee. No
    /// recursion adds to it, so that this comes to an end.
    fn most(&self) -> Most {
        let own = |(at, holding): (&Instance, &Holding)| (at.clone(), (holding.bytes(), None));
        let mut most: Most = self.held.iter().map(own).collect();
        let mut has_grown = true;
        while has_grown {
            has_grown = false;
            for (at, holding) in &self.held {
                for callee in &holding.calls {
                    let through = holding.bytes().saturating_add(most[callee].0);
                    if through > most[at].0 {
                        most.insert(at.clone(), (through, Some(callee.clone())));
                        has_grown = true;
                    }
                }
            }
        }
        most
    }

    /// The functions that hold arrays on the path on which most is held.
    fn path<'b>(
        &'b self,
        most: &'b Most,
        from: &'b Instance,
    ) -> impl Iterator<Item = &'b Instance> {
        let path = iter::successors(Some(from), |at| most[*at].1.as_ref());
        path.filter(|at| self.held[at].bytes() > 0)
    }
}
