//! The check that one name is one thing.
//!
//! Of the definitions and laws: every name that is declared `pub` in a file of crates/*/specs/, or
//! directly in crates/*/proofs/, is declared once in the repository. A record's fields are its own,
//! and `pub use` declares nothing.
//!
//! Of the code: every function, type and constant of crates/*/src/, public or not, is declared once.
//! Methods and associated constants count under their type, as `Cursor::table`; each program has its
//! own `main`.

use std::collections::HashMap;
use std::io;
use std::path::Path;

use crate::files::{self, File};
use crate::{antt, rattle, Report};

/// A name, and where it is declared.
struct Declared {
    name: String,
    place: String,
}

/// The names of antt sources.
fn antt_names(sources: &[File]) -> Vec<Declared> {
    let mut names = Vec::new();
    for File { path, text } in sources {
        let declared = antt::declared(text).into_iter();
        names.extend(declared.filter(|one| !one.is_field).map(|one| Declared {
            name: one.name.to_string(),
            place: format!("{path}:{}", one.line),
        }));
    }
    names
}

/// The names of Rattle sources.
fn rattle_names(sources: &[File]) -> Vec<Declared> {
    let mut names = Vec::new();
    for File { path, text } in sources {
        let items = rattle::items(text).into_iter();
        names.extend(items.filter(|one| one.name != "main").map(|one| Declared {
            name: one.name,
            place: format!("{path}:{}", one.line),
        }));
    }
    names
}

/// Each further declaration of a name, with the first one.
fn findings(names: &[Declared]) -> Vec<String> {
    let mut first = HashMap::new();
    let mut found = Vec::new();
    for Declared { name, place } in names {
        match first.get(name) {
            Some(first) => found.push(format!("{place}: `{name}` is declared in {first} too")),
            None => {
                first.insert(name, place);
            }
        }
    }
    found
}

/// Every problem of the names in the repository at `root`.
pub fn problems(root: &Path) -> io::Result<Report> {
    let mut sources = files::below(root, "specs", "antt")?;
    sources.extend(files::directly_in(root, "proofs", "antt")?);
    let in_antt = antt_names(&sources);
    let in_rattle = rattle_names(&files::below(root, "src", "rt")?);
    let mut problems = findings(&in_antt);
    problems.extend(findings(&in_rattle));
    let seen = format!("{} in antt, {} in Rattle", in_antt.len(), in_rattle.len());
    Ok(Report { problems, seen })
}

#[cfg(test)]
mod tests {
    use super::*;

    fn files(texts: &[(&str, &str)]) -> Vec<File> {
        let file = |&(path, text): &(&str, &str)| File {
            path: path.to_string(),
            text: text.to_string(),
        };
        texts.iter().map(file).collect()
    }

    fn in_antt(texts: &[(&str, &str)]) -> Vec<String> {
        findings(&antt_names(&files(texts)))
    }

    fn in_rattle(texts: &[(&str, &str)]) -> Vec<String> {
        findings(&rattle_names(&files(texts)))
    }

    #[test]
    fn names_apart_pass() {
        let rows = "\
pub mod Rows
pub rows : ℕ
pub record Rows : Type 0 where
  pub size : ℕ
  pub rows : ℕ
hidden : ℕ
";
        let wires = "\
pub mod Rows
pub use Rattle.rows.specs.Rows.{rows}
unfoldable pub use Rattle.rows.specs.Rows.{rows}
pub record Wires : Type 0 where
  pub size : ℕ
pub data Kind : Type 0 where
  rows : Kind
hidden : ℕ
-- pub rows : ℕ
";
        assert_eq!(in_antt(&[("a", rows), ("b", wires)]), [""; 0]);

        let one = "\
pub use rows::put;
use rows::take;
pub struct Cursor { at: u8 }
impl Cursor {
    pub fn table() {}
    pub const MOST: u8 = 1;
}
pub fn table() {}
const MOST: u8 = 2;
fn main() {}
";
        let other = "\
mod rows;
pub use rows::put;
fn put() {}
fn take() {}
enum Plan {}
impl Plan {
    fn table() {}
    const MOST: u8 = 3;
}
fn main() {}
";
        assert_eq!(in_rattle(&[("a", one), ("b", other)]), [""; 0]);
    }

    #[test]
    fn a_name_of_antt_for_two_things_is_found() {
        let first = "-- the rows\npub rows : ℕ\n";
        for again in [
            "pub rows : ℕ",
            "abbrev pub rows : ℕ",
            "unfoldable pub rows : ℕ",
            "pub record rows : Type 0 where",
            "pub data rows : Type 0 where",
            "module _ where\n  pub rows : ℕ",
        ] {
            let found = in_antt(&[("crates/a/specs/A.antt", first), ("b", again)]);
            let line = again.lines().count();
            let problem = format!("b:{line}: `rows` is declared in crates/a/specs/A.antt:2 too");
            assert_eq!(found, [problem]);
        }
        let thrice = [("a", first), ("b", first), ("c", first)];
        assert_eq!(in_antt(&thrice).len(), 2);
    }

    #[test]
    fn a_name_of_rattle_for_two_things_is_found() {
        let first = "impl Plan {\n    fn zero() {}\n}\nfn put() {}\nconst MOST: u8 = 1;\n";
        for (again, problem) in [
            ("pub fn put() {}", "b:1: `put` is declared in a:4 too"),
            ("struct put {}", "b:1: `put` is declared in a:4 too"),
            (
                "pub const MOST: u16 = 2;",
                "b:1: `MOST` is declared in a:5 too",
            ),
            (
                "pub(crate) enum MOST {}",
                "b:1: `MOST` is declared in a:5 too",
            ),
            (
                "impl Plan {\n    pub fn zero() {}\n}",
                "b:2: `Plan::zero` is declared in a:2 too",
            ),
        ] {
            assert_eq!(in_rattle(&[("a", first), ("b", again)]), [problem]);
        }
    }
}
