//! The check of crates/*/specs/: definitions and statements alone.
//!
//! The rule: outside comments, from `--` to the line's end, none of omega, simp, rw, search, grind,
//! elim, absurd, cc and refl stands in a file as a whole word, and no `use` names a path into a
//! `proofs` module, but for one definition of Rattle's library that stands among its lemmas.

use std::io;
use std::path::Path;

use crate::antt::{code, words};
use crate::{files, Report};

/// The words of which proofs are made.
const PROOF_WORDS: [&str; 9] = [
    "omega", "simp", "rw", "search", "grind", "elim", "absurd", "cc", "refl",
];

/// A list with another from a place on, which Rattle's library hands on with its lemmas alone.
const OF_LIBRARY: &str = "use Rattle.std.proofs.lemmas.List.Edits.{sets}";

/// What breaks the rule in one source text: each line with its problem.
fn findings(source: &str) -> Vec<(usize, String)> {
    let mut found = Vec::new();
    for (line, text) in (1..).zip(source.lines()) {
        let text = code(text);
        for word in PROOF_WORDS {
            if words(text).any(|one| one == word) {
                found.push((line, format!("`{word}` belongs in a proof")));
            }
        }
        let of_proofs = text.split(['.', ' ']).any(|part| part == "proofs");
        if words(text).any(|word| word == "use") && of_proofs && text != OF_LIBRARY {
            found.push((line, "a use of proofs".to_string()));
        }
    }
    found
}

/// Every problem of the specs of the repository at `root`.
pub fn problems(root: &Path) -> io::Result<Report> {
    let specs = files::below(root, "specs", "antt")?;
    let mut problems = Vec::new();
    for file in &specs {
        for (line, problem) in findings(&file.text) {
            problems.push(format!("{}:{line}: {problem}", file.path));
        }
    }
    let seen = format!("{} files", specs.len());
    Ok(Report { problems, seen })
}

#[cfg(test)]
mod tests {
    use super::*;

    #[test]
    fn definitions_and_statements_pass() {
        let source = "\
-- by simp, rw and omega: refl
use Rattle.std.specs.Prelude.{◌≡◌}
use Rattle.std.proofs.lemmas.List.Edits.{sets}
use Rattle.lists.specs.Lists.{list_of}
use Rattle.plan.specs.Rules.{proofs_of}

-- the rows
pub forward : ℕ → ℕ -- rw
forward n = refl-x n

pub record Rows (elim' : ℕ) : Type 0 where
  pub cc-rows : search_rows ≡ rewrite omega1
";
        assert_eq!(findings(source), []);
    }

    #[test]
    fn every_proof_word_is_found() {
        for word in PROOF_WORDS {
            let problem = format!("`{word}` belongs in a proof");
            for line in [
                format!("f = {word} arith"),
                format!("f = ({word}, x) -- why"),
                format!("use Rattle.std.specs.Prelude.{{◌≡◌, {word}}}"),
                format!("    {word}"),
                format!("f = record {{ a = {word}; b = {word} }}"),
            ] {
                let source = format!("f : ℕ\n{line}\n");
                assert_eq!(findings(&source), [(2, problem.clone())], "{line}");
            }
        }
    }

    #[test]
    fn a_use_of_proofs_is_found() {
        for line in [
            "use Rattle.lists.proofs.ListsLaws.{length-list_of}",
            "use Rattle.lists.proofs.lists.ListsLaws.{length-list_of}",
            "pub use Rattle.lists.proofs.ListsLaws.{length-list_of}",
            "use Rattle.lists.proofs.ListsLaws as laws",
            "use Rattle.std.proofs.lemmas.List.Edits.{sets, sets-eq}",
            "pub use Rattle.std.proofs.lemmas.List.Edits.{sets}",
        ] {
            let source = format!("-- why\n{line}\n");
            assert_eq!(findings(&source), [(2, "a use of proofs".to_string())]);
        }
    }
}
