//! The check of public contracts: every `pub` function of a crate's source, methods and exports
//! included, and every function of a `pub` trait, has an `ensures` and no `requires`, and crates.txt
//! lists every folder of crates/.

use std::io;
use std::path::Path;

use crate::rattle::{is_word, past_group, without_comments};
use crate::{files, listing, Report};

/// What is wrong with one public function.
#[derive(Debug, PartialEq, Eq)]
pub struct Finding {
    pub line: usize,
    pub function: String,
    pub problem: &'static str,
}

/// The clauses between a function's signature and its body.
#[derive(Default)]
struct Clauses {
    requires: bool,
    ensures: bool,
}

/// What is wrong with the public functions of one source text.
pub fn findings(source: &str) -> Vec<Finding> {
    let text = without_comments(source);
    let mut found = Vec::new();
    for (start, name_at) in public_functions(&text) {
        let function = word_at(&text, name_at).to_string();
        let line = text[..start].matches('\n').count() + 1;
        let clauses = clauses_from(&text, name_at);
        let mut report = |problem| {
            found.push(Finding {
                line,
                function: function.clone(),
                problem,
            })
        };
        if clauses.requires {
            report("has a requires");
        }
        if !clauses.ensures {
            report("has no ensures");
        }
    }
    found
}

/// Where each `pub` function starts, and where its name does. `pub(crate)` is not public, what a
/// `pub` trait asks for is.
fn public_functions(text: &str) -> Vec<(usize, usize)> {
    let mut places = Vec::new();
    let mut from = 0;
    while let Some(found) = text[from..].find("pub") {
        let start = from + found;
        from = start + 3;
        let alone = !text[..start].ends_with(is_word) && !text[from..].starts_with(is_word);
        if !alone {
            continue;
        }
        let mut at = skip_blanks(text, from);
        while ["extern", "const", "unsafe"].contains(&word_at(text, at))
            || text[at..].starts_with('"')
        {
            at = skip_blanks(text, past_word_or_string(text, at));
        }
        match word_at(text, at) {
            "fn" => places.push((start, skip_blanks(text, at + 2))),
            "trait" => places.extend(asked_functions(text, at)),
            _ => {}
        }
    }
    places
}

/// The same of the functions of a trait, from its word on.
fn asked_functions(text: &str, at: usize) -> Vec<(usize, usize)> {
    let open = at + text[at..].find('{').unwrap_or(0);
    let end = past_group(text, open, '{', '}');
    let mut places = Vec::new();
    for (found, _) in text[open..end].match_indices("fn") {
        let start = open + found;
        let name_at = skip_blanks(text, start + 2);
        if !text[..start].ends_with(is_word) && name_at > start + 2 {
            places.push((start, name_at));
        }
    }
    places
}

/// The clauses of the function whose name starts at `name_at`: what stands before its body's brace,
/// or before its semicolon, where a trait gives it none.
fn clauses_from(text: &str, name_at: usize) -> Clauses {
    let mut clauses = Clauses::default();
    let mut at = name_at + word_at(text, name_at).len();
    at += text[at..].find('(').unwrap_or(0);
    at = past_group(text, at, '(', ')');
    // The keyword of the clause that the next brace opens, if any.
    let mut keyword = "";
    while let Some(next) = text[at..].chars().next() {
        let word = word_at(text, at);
        match (next, word) {
            ('{' | ';', _) if keyword.is_empty() => break,
            // `[u8; 4]`
            ('[', _) => at = past_group(text, at, '[', ']'),
            ('{', _) => {
                at = past_group(text, at, '{', '}');
                keyword = "";
            }
            (_, "requires" | "ensures" | "ghost") => {
                clauses.requires |= word == "requires";
                clauses.ensures |= word == "ensures";
                keyword = word;
                at += word.len();
            }
            _ => at += word.len().max(next.len_utf8()),
        }
    }
    clauses
}

fn word_at(text: &str, at: usize) -> &str {
    let rest = &text[at..];
    &rest[..rest.find(|c| !is_word(c)).unwrap_or(rest.len())]
}

fn skip_blanks(text: &str, at: usize) -> usize {
    let rest = &text[at..];
    at + rest
        .find(|c: char| !c.is_whitespace())
        .unwrap_or(rest.len())
}

fn past_word_or_string(text: &str, at: usize) -> usize {
    match text[at..].strip_prefix('"') {
        Some(rest) => at + 2 + rest.find('"').unwrap_or(rest.len().saturating_sub(1)),
        None => at + word_at(text, at).len(),
    }
}

/// The problems of every public function of the repository at `root`, and of crates.txt.
pub fn problems(root: &Path) -> io::Result<Report> {
    let listed = listing::read(root)?;
    let mut problems = Vec::new();
    for name in files::crates(root)? {
        if !listed.iter().any(|one| one.name == name) {
            problems.push(format!("crates/{name}: not listed in {}", listing::FILE));
        }
    }
    let sources = files::below(root, "src", "rt")?;
    if sources.is_empty() {
        problems.push("crates: no source".to_string());
    }
    for source in &sources {
        for finding in findings(&source.text) {
            problems.push(format!(
                "{}:{}: pub fn {} {}",
                source.path, finding.line, finding.function, finding.problem
            ));
        }
    }
    let seen = format!("{} sources", sources.len());
    Ok(Report { problems, seen })
}

#[cfg(test)]
mod tests {
    use super::*;

    fn problems_of(source: &str) -> Vec<(usize, &'static str)> {
        findings(source)
            .into_iter()
            .map(|f| (f.line, f.problem))
            .collect()
    }

    #[test]
    fn a_contract_passes() {
        assert_eq!(
            problems_of("pub fn f(x: u8) -> u8\n    ensures { result ≡ x }\n{\n    x\n}\n"),
            []
        );
        assert_eq!(
            problems_of("pub fn f(x: &mut [u8])\n    ensures written { x.new ≡ {} }\n{\n}\n"),
            []
        );
    }

    #[test]
    fn no_clause_is_found() {
        assert_eq!(
            problems_of("// pub fn g()\npub fn f(x: u8) -> u8 {\n    x\n}\n"),
            [(2, "has no ensures")]
        );
        assert_eq!(
            problems_of("pub fn f() {\n    // ensures { }\n}\n"),
            [(1, "has no ensures")]
        );
    }

    #[test]
    fn a_requires_is_found() {
        let source = "pub fn f(x: u8) -> u8\n    requires { x < 9 }\n    ensures { result ≡ x }\n{\n    x\n}\n";
        assert_eq!(problems_of(source), [(1, "has a requires")]);
    }

    #[test]
    fn methods_and_exports_count() {
        let method = "impl S {\n    pub fn f(self) -> u8 {\n        1\n    }\n}\n";
        assert_eq!(problems_of(method), [(2, "has no ensures")]);
        let export = "#[unsafe(no_mangle)]\npub extern \"C\" fn f(x: u8) -> u8\n    requires { x < 9 }\n{\n    x\n}\n";
        assert_eq!(
            problems_of(export),
            [(2, "has a requires"), (2, "has no ensures")]
        );
    }

    #[test]
    fn what_a_public_trait_asks_for_counts() {
        let of_trait = "trait Tells {\n    ghost told: { Self → ℕ };\n\n    fn one(&self) -> [u8; 2]\n        requires { any }\n        ensures { told };\n    fn two(&self);\n    fn three(&self) -> u8\n        ensures { told }\n    {\n        1\n    }\n}\n";
        assert_eq!(
            problems_of(&format!("pub {of_trait}")),
            [(4, "has a requires"), (7, "has no ensures")]
        );
        assert_eq!(problems_of(of_trait), []);
    }

    #[test]
    fn a_body_is_not_a_clause() {
        let source = "pub fn f() -> S\n{\n    S { ensures: 1 }\n}\n\nfn g()\n    ensures { result ≡ 1 }\n{\n}\n";
        assert_eq!(problems_of(source), [(1, "has no ensures")]);
    }

    #[test]
    fn what_is_not_public_is_passed_over() {
        assert_eq!(
            problems_of("fn f() {}\nfn g() {}\npub struct S;\npub const N: u8 = 1;\n"),
            []
        );
    }
}
