//! The checks of the must-fail edits.
//!
//! A file crates/CRATE/must-fail/FILE.edit holds one or more wrong versions of its crate, of different
//! functions, which one run of the prover refuses together. A version begins with `# LABEL: what it
//! does`, then `# refused: NAME` with the function, or where the crate has no code the law, that is
//! refused, and the fact. A line `file: PATH` holds for the pairs `old: TEXT`, `new: TEXT` below it,
//! each applied after the ones above: the old text stands exactly once in the file then.
//!
//! This holds for the text, before any proof: every pair can be applied, the crate has the function or
//! law that is refused, no version stands beside one that could be what refuses it, and the versions
//! that docs/DECISIONS.md names as `CRATE/LABEL` are there. What the prover says of them is read in
//! `refusals`.

use std::collections::{HashMap, HashSet};
use std::path::Path;
use std::{fs, io};

use crate::files::{self, File};
use crate::{antt, rattle, Report};

const DECISIONS: &str = "docs/DECISIONS.md";

/// Every problem of the edits' text in the repository at `root`.
pub fn problems(root: &Path) -> io::Result<Report> {
    let read = |path: &str| fs::read_to_string(root.join(path)).ok();
    let mut problems = Vec::new();
    let mut labels = HashSet::new();
    let declared = declared(root)?;
    for edit in files::directly_in(root, "must-fail", "edit")? {
        problems.extend(unapplied(&edit, &read));
        problems.extend(mixed(&edit));
        let (crate_name, _) = place(&edit.path);
        let of_crate = declared.get(crate_name);
        for version in versions(&edit.text) {
            problems.extend(version.lacks(&edit.path));
            if !of_crate.is_some_and(|names| names.contains(version.refused)) {
                let Version { label, refused, .. } = version;
                let path = &edit.path;
                problems.push(format!("{path}: {label}: the crate has no {refused}"));
            }
            let label = format!("{crate_name}/{}", version.label);
            if labels.contains(&label) {
                problems.push(format!("{}: `{label}` is there twice", edit.path));
            }
            labels.insert(label);
        }
    }
    let named = named(&fs::read_to_string(root.join(DECISIONS))?);
    for (line, name) in named.iter().filter(|(_, name)| !labels.contains(name)) {
        problems.push(format!("{DECISIONS}:{line}: `{name}` is no edit"));
    }
    let seen = format!("{} versions, {} named", labels.len(), named.len());
    Ok(Report { problems, seen })
}

/// The names of each crate's functions, alone and behind their type, and of what it declares in antt.
fn declared(root: &Path) -> io::Result<HashMap<String, HashSet<String>>> {
    let mut found: HashMap<String, HashSet<String>> = HashMap::new();
    let mut add = |path: &str, name: &str| {
        let (crate_name, _) = place(path);
        let of_crate = crate_name.split('/').next().unwrap_or_default();
        let names = found.entry(of_crate.to_string()).or_default();
        names.insert(name.to_string());
    };
    for source in files::below(root, "src", "rt")? {
        for item in rattle::items(&source.text) {
            add(&source.path, &item.name);
            if let Some((_, method)) = item.name.rsplit_once("::") {
                add(&source.path, method);
            }
        }
    }
    let mut sources = files::below(root, "specs", "antt")?;
    sources.extend(files::directly_in(root, "proofs", "antt")?);
    for source in sources {
        for name in antt::named(&source.text) {
            add(&source.path, name);
        }
    }
    Ok(found)
}

/// What keeps the versions of one file from being refused each for itself: two of one function, or
/// one that changes definitions or laws, on which others may rest.
fn mixed(edit: &File) -> Vec<String> {
    let versions = versions(&edit.text);
    let mut problems = Vec::new();
    let mut refused = HashSet::new();
    for version in &versions {
        if !refused.insert(version.refused) {
            let problem = "another version of the same function";
            problems.push(format!("{}: {}: {problem}", edit.path, version.label));
        }
    }
    let changes = |part: &str| edit.text.lines().any(|line| line.starts_with(part));
    if versions.len() > 1 && (changes("file: specs/") || changes("file: proofs/")) {
        problems.push(format!(
            "{}: a definition is changed beside other versions",
            edit.path
        ));
    }
    problems
}

/// CRATE and FILE of the path of an edit.
pub fn place(path: &str) -> (&str, &str) {
    let inside = path.strip_prefix("crates/").unwrap_or(path);
    let (name, file) = inside.split_once("/must-fail/").unwrap_or((inside, ""));
    (name, file.strip_suffix(".edit").unwrap_or(file))
}

/// A wrong version: its label, the name that is refused, and how many texts it changes.
#[derive(Debug, PartialEq)]
pub struct Version<'a> {
    pub label: &'a str,
    pub refused: &'a str,
    pairs: usize,
}

impl Version<'_> {
    fn lacks(&self, path: &str) -> Vec<String> {
        let problem = |what: &str| format!("{path}: {}: {what}", self.label);
        let mut problems = Vec::new();
        if self.refused.is_empty() {
            problems.push(problem("it does not say what is refused"));
        }
        if self.pairs == 0 {
            problems.push(problem("it changes nothing"));
        }
        problems
    }
}

/// The versions of an edit's text, in their order.
pub fn versions(text: &str) -> Vec<Version<'_>> {
    let mut versions: Vec<Version> = Vec::new();
    for line in text.lines() {
        if let Some(refused) = line.strip_prefix("# refused: ") {
            let name = refused.split([',', ' ']).next().unwrap_or_default();
            let name = name.trim_end_matches(':');
            if let Some(last) = versions.last_mut() {
                last.refused = name;
            }
        } else if let Some((label, _)) = line.strip_prefix("# ").and_then(|it| it.split_once(": "))
        {
            if is_label(label) {
                versions.push(Version {
                    label,
                    refused: "",
                    pairs: 0,
                });
            }
        } else if line.starts_with("new:") {
            if let Some(last) = versions.last_mut() {
                last.pairs += 1;
            }
        }
    }
    versions
}

fn is_label(word: &str) -> bool {
    let of_label = |c: char| c.is_ascii_lowercase() || c.is_ascii_digit() || c == '_';
    !word.is_empty() && word.chars().all(of_label)
}

/// The versions that a page names in backticks, each with its line.
fn named(page: &str) -> Vec<(usize, String)> {
    let is_version = |quoted: &&str| {
        let parts = quoted.split_once('/');
        parts.is_some_and(|(name, label)| is_label(name) && is_label(label) && name != "crates")
    };
    let mut found = Vec::new();
    for (line, text) in (1..).zip(page.lines()) {
        let quoted = text.split('`').skip(1).step_by(2).filter(is_version);
        found.extend(quoted.map(|name| (line, name.to_string())));
    }
    found
}

/// What keeps an edit from being applied, given the files of the repository.
fn unapplied(edit: &File, read: &impl Fn(&str) -> Option<String>) -> Vec<String> {
    let path = &edit.path;
    let (crate_name, _) = place(path);
    let mut problems = Vec::new();
    let mut texts: HashMap<String, String> = HashMap::new();
    let (mut file, mut old) = (String::new(), "");
    for (line, text) in (1..).zip(edit.text.lines()) {
        if let Some(name) = text.strip_prefix("file: ") {
            file = format!("crates/{crate_name}/{name}");
            match read(&file) {
                Some(text) => drop(texts.entry(file.clone()).or_insert(text)),
                None => problems.push(format!("{path}:{line}: {file} is no file")),
            }
        } else if let Some(text) = text.strip_prefix("old: ") {
            old = text;
        } else if let Some(new) = text.strip_prefix("new:") {
            let new = new.strip_prefix(' ').unwrap_or(new);
            let Some(text) = texts.get_mut(&file) else {
                continue;
            };
            match text.matches(old).count() {
                1 if !old.is_empty() => *text = text.replacen(old, new, 1),
                count => problems.push(format!("{path}:{line}: its old text stands {count} times")),
            }
            old = "";
        }
    }
    problems
}

#[cfg(test)]
mod tests {
    use super::*;

    const PATH: &str = "crates/plan/must-fail/wrong.edit";
    const HEAD: &str = "# two: adds two\n# refused: one, `returns`: \"2\"\nfile: src/lib.rt\n";

    fn read(path: &str) -> Option<String> {
        let source = "fn one() {\n    a(1);\n    b(1);\n}\n";
        (path == "crates/plan/src/lib.rt").then(|| source.to_string())
    }

    fn unapplied_in(text: &str) -> Vec<String> {
        let path = PATH.to_string();
        let text = text.to_string();
        unapplied(&File { path, text }, &read)
    }

    #[test]
    fn an_edit_that_can_be_applied_passes() {
        let text = format!("{HEAD}old: a(1);\nnew: a(2);\n");
        assert_eq!(unapplied_in(&text), [""; 0]);
        // The second pair changes what the first has made.
        let pairs = "old: a(1);\nnew: c(1);\nold:     c(1);\nnew:\n";
        assert_eq!(unapplied_in(&format!("{HEAD}{pairs}")), [""; 0]);
    }

    #[test]
    fn an_old_text_that_does_not_stand_once_is_found() {
        for (old, times) in [("(1);", 2), ("c(1);", 0)] {
            let problem = format!("{PATH}:5: its old text stands {times} times");
            let text = format!("{HEAD}old: {old}\nnew: d\n");
            assert_eq!(unapplied_in(&text), [problem]);
        }
        let again = "old: a(1);\nnew: c(1);\nold: a(1);\nnew: d\n";
        assert_eq!(unapplied_in(&format!("{HEAD}{again}")).len(), 1);
        assert_eq!(unapplied_in(&format!("{HEAD}new: d\n")).len(), 1);
        let elsewhere = "file: src/other.rt\nold: a(1);\nnew: d\n";
        let problem = format!("{PATH}:1: crates/plan/src/other.rt is no file");
        assert_eq!(unapplied_in(elsewhere), [problem]);
    }

    #[test]
    fn versions_are_read_and_what_they_lack_is_found() {
        let text = format!(
            "{HEAD}old: a\nnew: b\n# three: and more\n# of it: nothing\n# refused: Plan::zero: 3\n"
        );
        let found = versions(&text);
        let expected = [("two", "one", 1), ("three", "Plan::zero", 0)];
        let expected = expected.map(|(label, refused, pairs)| Version {
            label,
            refused,
            pairs,
        });
        assert_eq!(found, expected);
        assert_eq!(found[0].lacks(PATH), [""; 0]);
        let problem = format!("{PATH}: three: it changes nothing");
        assert_eq!(found[1].lacks(PATH), [problem]);
        assert_eq!(versions("# four: x\nnew: b\n")[0].lacks(PATH).len(), 1);
    }

    #[test]
    fn versions_that_do_not_stand_together_are_found() {
        let mixed_in = |text: &str| {
            let path = PATH.to_string();
            let text = text.to_string();
            mixed(&File { path, text })
        };
        let pair = "old: a\nnew: b\n";
        let other = format!("# three: x\n# refused: other, y\n{pair}");
        let again = format!("# three: x\n# refused: one, y\n{pair}");
        let changed = HEAD.replace("src/lib.rt", "specs/Rules.antt");
        assert_eq!(mixed_in(&format!("{HEAD}{pair}{other}")), [""; 0]);
        assert_eq!(mixed_in(&format!("{changed}{pair}")), [""; 0]);
        let problem = format!("{PATH}: three: another version of the same function");
        assert_eq!(mixed_in(&format!("{HEAD}{pair}{again}")), [problem]);
        let problem = format!("{PATH}: a definition is changed beside other versions");
        assert_eq!(mixed_in(&format!("{changed}{pair}{other}")), [problem]);
    }

    #[test]
    fn named_versions_are_found() {
        let page = "| `plan/two`, `plan/three` | \"`a / b`\" |\n`crates/plan`, `plan/two.edit`\n`plan_files/x1`\n";
        let expected = [(1, "plan/two"), (1, "plan/three"), (3, "plan_files/x1")];
        let expected = expected.map(|(line, name)| (line, name.to_string()));
        assert_eq!(named(page), expected);
        assert_eq!(place(PATH), ("plan", "wrong"));
    }
}
