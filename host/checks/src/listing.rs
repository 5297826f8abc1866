//! crates.txt: a line for each crate, `NAME: the crates it is built over`; a static library's is
//! `NAME staticlib: ..`.

use std::path::Path;
use std::{fs, io};

/// The file's path from the repository's root.
pub const FILE: &str = "crates.txt";

/// A crate and those that it lists.
pub struct Listed {
    pub line: usize,
    pub name: String,
    pub over: Vec<String>,
}

pub fn read(root: &Path) -> io::Result<Vec<Listed>> {
    Ok(listed(&fs::read_to_string(root.join(FILE))?))
}

/// The crates that the text lists, in its order.
pub fn listed(text: &str) -> Vec<Listed> {
    let of_line = |(line, text): (usize, &str)| {
        let (name, over) = text.split('#').next()?.split_once(':')?;
        // What stands behind the name says what is built of the crate.
        let name = name.split_whitespace().next()?;
        Some(Listed {
            line,
            name: name.to_string(),
            over: over.split_whitespace().map(str::to_string).collect(),
        })
    };
    (1..).zip(text.lines()).filter_map(of_line).collect()
}

#[cfg(test)]
mod tests {
    use super::*;

    #[test]
    fn a_line_has_a_crate_and_those_it_lists() {
        let crates = listed("# a: comment\nfault:\n\nplan: fault powers # b\n");
        let shown = |one: &Listed| format!("{} {} {}", one.line, one.name, one.over.join(","));
        let shown: Vec<String> = crates.iter().map(shown).collect();
        assert_eq!(shown, ["2 fault ", "4 plan fault,powers"]);
        let crates = listed("capi staticlib: fault plan\nstaticlib: capi\n");
        let shown: Vec<String> = crates.iter().map(|one| one.name.clone()).collect();
        assert_eq!(shown, ["capi", "staticlib"]);
    }
}
