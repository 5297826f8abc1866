//! The check of docs/WHAT_IS_PROVED.md: every name on the page is declared where the page says, and
//! every public call, which is every public function of a Rattle source, is on the page.
//!
//! The page's rule: backticks hold the path of a file, or a public name that is declared in the file
//! whose path comes next on the line.

use std::path::Path;
use std::{fs, io};

use crate::antt;
use crate::rattle::{self, Item};
use crate::{files, Report};

const PAGE: &str = "docs/WHAT_IS_PROVED.md";

/// Every problem of the page in the repository at `root`.
pub fn problems(root: &Path) -> io::Result<Report> {
    let read = |path: &str| fs::read_to_string(root.join(path)).ok();
    let page = Page::new(&fs::read_to_string(root.join(PAGE))?);
    let mut problems = page.problems(&read);

    let mut calls = Vec::new();
    for source in files::below(root, "src", "rt")? {
        calls.extend(calls_in(&source.path, &read));
    }
    problems.extend(page.missing(&calls));
    let seen = format!("{} names, {} calls", page.names.len(), calls.len());
    Ok(Report { problems, seen })
}

/// A public function and where it is declared.
struct Call {
    file: String,
    line: usize,
    name: String,
}

/// A name on the page, with the file that the page gives for it.
struct Named {
    line: usize,
    name: String,
    file: String,
}

/// What the page's backticks hold.
#[derive(Default)]
struct Page {
    names: Vec<Named>,
    /// Each path with its line.
    files: Vec<(usize, String)>,
    /// Names with no path after them on their line, and backticks that are not closed.
    loose: Vec<String>,
}

impl Page {
    fn new(text: &str) -> Page {
        let mut page = Page::default();
        for (line, text) in (1..).zip(text.lines()) {
            page.read_line(line, text);
        }
        page
    }

    fn read_line(&mut self, line: usize, text: &str) {
        if text.matches('`').count() % 2 == 1 {
            self.loose.push(format!("{PAGE}:{line}: an open backtick"));
        }
        let mut waiting = Vec::new();
        for quoted in text.split('`').skip(1).step_by(2) {
            if !quoted.contains(['/', '.']) {
                waiting.push(quoted);
                continue;
            }
            self.files.push((line, quoted.to_string()));
            self.names.extend(waiting.drain(..).map(|name| Named {
                line,
                name: name.to_string(),
                file: quoted.to_string(),
            }));
        }
        let loose = waiting.into_iter();
        let problem = |name: &str| format!("{PAGE}:{line}: `{name}` has no file");
        self.loose.extend(loose.map(problem));
    }

    /// What breaks the page's rule: what is loose, paths of no file, names that are not declared.
    fn problems(&self, read: &impl Fn(&str) -> Option<String>) -> Vec<String> {
        let mut problems = self.loose.clone();
        for (line, file) in &self.files {
            if read(file).is_none() {
                problems.push(format!("{PAGE}:{line}: `{file}` is no file"));
            }
        }
        for Named { line, name, file } in &self.names {
            if read(file).is_some_and(|text| !declared(file, &text).contains(name)) {
                problems.push(format!("{PAGE}:{line}: {file} does not declare `{name}`"));
            }
        }
        problems
    }

    /// The calls that are not on the page with their file.
    fn missing(&self, calls: &[Call]) -> Vec<String> {
        let is = |call: &Call, named: &Named| named.name == call.name && named.file == call.file;
        let on_page = |call: &Call| self.names.iter().any(|named| is(call, named));
        let missing = calls.iter().filter(|call| !on_page(call));
        let problem =
            |Call { name, file, line }: &Call| format!("{file}:{line}: `{name}` is not on {PAGE}");
        missing.map(problem).collect()
    }
}

/// The public names that a source declares: in antt fields too, in Rattle methods too.
fn declared(file: &str, text: &str) -> Vec<String> {
    match file.rsplit_once('.') {
        Some((_, "antt")) => {
            let declared = antt::declared(text).into_iter();
            declared.map(|one| one.name.to_string()).collect()
        }
        Some((_, "rt")) => public_items(text).map(|item| item.name).collect(),
        _ => Vec::new(),
    }
}

fn public_items(text: &str) -> impl Iterator<Item = Item> {
    rattle::items(text)
        .into_iter()
        .filter(|item| item.is_public)
}

/// The public functions of a Rattle source.
fn calls_in(file: &str, read: &impl Fn(&str) -> Option<String>) -> Vec<Call> {
    let items = public_items(&read(file).unwrap_or_default());
    let call = |item: Item| Call {
        name: item.name,
        file: file.to_string(),
        line: item.line,
    };
    items.filter(|item| item.is_function).map(call).collect()
}

#[cfg(test)]
mod tests {
    use super::*;

    const SPEC: &str = "\
-- pub commented : ℕ
pub record Plan (n : ℕ) : Type 0 where
  pub size : n ≡ 1
abbrev pub plan_fault : Plan → ℕ
plan_fault p = gate_fault p
unfoldable pub plan_read : ℕ
    pub third_demand : plan_fault ≡ 0
hidden : ℕ
";

    const SOURCE: &str = "\
pub const MOST: u8 = 3;
pub struct Plan { pub size: u8 }
impl Plan {
    pub fn zero() -> Self
        ensures { result ≡ zero_plan }
    {
        helper()
    }
}

// pub fn commented() {}
pub fn plan_fault(plan: Plan) -> u32 {
    inner(plan)
}

fn inner(plan: Plan) -> u32 {
    0
}
";

    const EXPORT: &str =
        "#[unsafe(no_mangle)]\npub extern \"C\" fn mkd_fault() -> u32 {\n    1\n}\n";

    fn read(path: &str) -> Option<String> {
        let text = match path {
            "crates/plan/specs/Faults.antt" => SPEC,
            "crates/plan/proofs/Laws.antt" => "pub law : plan_fault ≡ 0\n",
            "crates/plan/src/record.rt" => SOURCE,
            "crates/capi/src/lib.rt" => EXPORT,
            "docs/NOTES.md" => "plan_fault\n",
            _ => return None,
        };
        Some(text.to_string())
    }

    fn problems_of(page: &str) -> Vec<String> {
        let shorter = |problem: String| problem.replace(PAGE, "page");
        Page::new(page)
            .problems(&read)
            .into_iter()
            .map(shorter)
            .collect()
    }

    #[test]
    fn declared_names_pass() {
        let page = "\
# `plan_fault` in `crates/plan/src/record.rt`

- `plan_fault`, `plan_read` and `Plan` in `crates/plan/specs/Faults.antt`, `Plan::zero` in `crates/plan/src/record.rt`.
- `third_demand`, `size` in `crates/plan/specs/Faults.antt`, `law` in `crates/plan/proofs/Laws.antt`: see `docs/NOTES.md`.
- `MOST`, `Plan` in `crates/plan/src/record.rt`.

    rt run
";
        assert_eq!(problems_of(page), [""; 0]);
    }

    #[test]
    fn a_name_that_is_not_declared_is_found() {
        let spec = "crates/plan/specs/Faults.antt";
        for name in [
            "gate_fault",
            "planFault",
            "commented",
            "hidden",
            "record",
            "third",
        ] {
            let page = format!("text\n`plan_read` and `{name}` in `{spec}`\n");
            let problem = format!("page:2: {spec} does not declare `{name}`");
            assert_eq!(problems_of(&page), [problem]);
        }
        let source = "crates/plan/src/record.rt";
        for name in [
            "inner",
            "helper",
            "commented",
            "zero",
            "Plan::plan_fault",
            "plan",
        ] {
            let problem = format!("page:1: {source} does not declare `{name}`");
            assert_eq!(problems_of(&format!("`{name}` in `{source}`")), [problem]);
        }
        assert_eq!(
            problems_of("`plan_fault` in `docs/NOTES.md`"),
            ["page:1: docs/NOTES.md does not declare `plan_fault`"]
        );
    }

    #[test]
    fn a_wrong_path_is_found() {
        assert_eq!(
            problems_of("`plan_fault` in `crates/plan/specs/Fault.antt`"),
            ["page:1: `crates/plan/specs/Fault.antt` is no file"]
        );
    }

    #[test]
    fn a_name_without_a_file_is_found() {
        assert_eq!(
            problems_of("`docs/NOTES.md` and `plan_fault`\n`crates/plan/specs/Faults.antt`\n"),
            ["page:1: `plan_fault` has no file"]
        );
        assert_eq!(
            problems_of("an `open one\n"),
            ["page:1: an open backtick", "page:1: `open one` has no file"]
        );
    }

    #[test]
    fn a_missing_call_is_found() {
        let source = "crates/plan/src/record.rt";
        let calls = calls_in(source, &read);
        let names: Vec<&str> = calls.iter().map(|call| call.name.as_str()).collect();
        assert_eq!(names, ["Plan::zero", "plan_fault"]);

        let page = Page::new(&format!(
            "`plan_fault` in `{source}`\n`Plan::zero` in `other.rt`\n"
        ));
        let problem = format!("{source}:4: `Plan::zero` is not on {PAGE}");
        assert_eq!(page.missing(&calls), [problem]);
        let whole = Page::new(&format!("`plan_fault`, `Plan::zero` in `{source}`\n"));
        assert_eq!(whole.missing(&calls), [""; 0]);

        let exports = calls_in("crates/capi/src/lib.rt", &read);
        assert_eq!(exports[0].name, "mkd_fault");
        assert_eq!(whole.missing(&exports).len(), 1);
    }
}
