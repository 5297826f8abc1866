//! What the checks read of antt: code without comments, words, and what is declared `pub`.

/// A line of a source without its comment.
pub fn code(line: &str) -> &str {
    line.split("--").next().unwrap_or_default()
}

/// The words of code: names, keywords, numbers.
pub fn words(code: &str) -> impl Iterator<Item = &str> {
    let is_word = |c: char| c.is_alphanumeric() || "-'_".contains(c);
    code.split(move |c| !is_word(c))
        .filter(|word| !word.is_empty())
}

/// A name that a source declares `pub`.
#[derive(Debug, PartialEq, Eq)]
pub struct Declared<'a> {
    pub line: usize,
    pub name: &'a str,
    /// A record's field, which is the record's own.
    pub is_field: bool,
}

/// The definitions, theorems, records, data types and records' fields that a source declares `pub`.
/// `pub mod` and `pub use` declare nothing.
pub fn declared(source: &str) -> Vec<Declared<'_>> {
    let mut found = Vec::new();
    // The indentation of the record whose fields the lines are, as long as they stand deeper.
    let mut record = None;
    for (line, text) in (1..).zip(source.lines()) {
        let text = code(text).trim_end();
        if text.is_empty() {
            continue;
        }
        let indentation = text.len() - text.trim_start().len();
        if record.is_some_and(|record| indentation <= record) {
            record = None;
        }
        let head = head(text);
        if let Some(name) = head.name {
            found.push(Declared {
                line,
                name,
                is_field: record.is_some(),
            });
        }
        if head.is_record {
            record = Some(indentation);
        }
    }
    found
}

/// The names of what a source declares, public or not, local or not.
pub fn named(source: &str) -> impl Iterator<Item = &str> {
    let is_mark = |word: &&str| ["pub", "abbrev", "unfoldable", "opaque"].contains(word);
    source.lines().filter_map(move |line| {
        let mut words = code(line).split_whitespace().skip_while(is_mark);
        match (words.next()?, words.next()) {
            ("record" | "data", next) => next,
            (name, Some(":")) => Some(name),
            _ => None,
        }
    })
}

/// What the first words of a line say.
#[derive(Default)]
struct Head<'a> {
    /// The name that the line declares `pub`.
    name: Option<&'a str>,
    is_record: bool,
}

fn head(line: &str) -> Head<'_> {
    let mut words = line.split_whitespace().peekable();
    while words
        .next_if(|word| ["abbrev", "unfoldable"].contains(word))
        .is_some()
    {}
    let public = words.next_if_eq(&"pub").is_some();
    let (kind, next) = (words.next(), words.next());
    let name = match kind {
        Some("mod" | "use") => None,
        Some("record" | "data") => next,
        // A long type may begin on the next line.
        name => name.filter(|_| next.is_none_or(|next| next == ":")),
    };
    Head {
        name: name.filter(|_| public),
        is_record: kind == Some("record"),
    }
}

#[cfg(test)]
mod tests {
    use super::*;

    fn names(source: &str) -> Vec<(usize, &str)> {
        let declared = declared(source).into_iter();
        declared.map(|one| (one.line, one.name)).collect()
    }

    #[test]
    fn declarations_of_every_form_are_found() {
        let source = "\
pub length-rows : ℕ
abbrev pub rows : ℕ
unfoldable pub run' : ℕ
pub record Rows (n : ℕ) : Type 0 where
pub data Kind : Type 0 where
  straight : Kind
abbrev pub record Row : Type 0 where
module _ (n : ℕ) where
  pub inner : ℕ
  module _ where
    abbrev pub innermost : ℕ
pub long
    : ℕ → ℕ
";
        assert_eq!(
            names(source),
            [
                (1, "length-rows"),
                (2, "rows"),
                (3, "run'"),
                (4, "Rows"),
                (5, "Kind"),
                (7, "Row"),
                (9, "inner"),
                (11, "innermost"),
                (12, "long"),
            ]
        );
    }

    #[test]
    fn what_declares_no_public_name_is_passed_over() {
        let source = "\
-- pub commented : ℕ
pub mod Rows
pub use Rattle.lists.specs.Lists.{list_of}
unfoldable pub use Rattle.lists.specs.Lists.{list_of}
use Rattle.lists.specs.Lists.{list_of}
hidden : ℕ
hidden = 1
record Hidden : Type 0 where
";
        assert_eq!(names(source), []);
    }

    #[test]
    fn what_is_not_public_has_a_name() {
        let source = "\
-- commented : ℕ
pub mod Rows
use Rattle.lists.specs.Lists.{list_of}
hidden : ℕ
hidden n = one : ℕ
  where
  abbrev pub inner' : ℕ
record Rows (n : ℕ) : Type 0 where
  field : ℕ
";
        let all: Vec<&str> = super::named(source).collect();
        assert_eq!(all, ["hidden", "inner'", "Rows", "field"]);
    }

    #[test]
    fn fields_end_where_their_record_does() {
        let source = "\
module _ where
  pub record Rows (n : ℕ)
      (m : ℕ) : Type 0 where
    pub size : ℕ

    -- of each
    pub each : ℕ
-- a comment
  pub after : ℕ
record Hidden : Type 0 where
  pub field : ℕ
pub last : ℕ
";
        let fields = declared(source);
        let fields = fields.iter().filter(|one| one.is_field);
        let fields: Vec<&str> = fields.map(|one| one.name).collect();
        assert_eq!(fields, ["size", "each", "field"]);
        assert_eq!(names(source).len(), 6);
    }

    #[test]
    fn a_word_is_whole() {
        let all: Vec<&str> = words(code("forward (refl-x, refl').rw_y ap₂ x_1; -- rw")).collect();
        assert_eq!(all, ["forward", "refl-x", "refl'", "rw_y", "ap₂", "x_1"]);
    }
}
