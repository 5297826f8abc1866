//! The check of README.md's reading order: a table of the files of definitions.
//!
//! Under the heading `## Reading order`, or under `## Inside the calls`, each file of
//! crates/*/specs/, Lib.antt left out, has exactly one row: its path in backticks, its number of
//! lines as `wc -l` prints it, and a sentence. The files of the reading order stay below 5,000 lines
//! together. Those inside the calls are what functions that no export and no door hands on say of each
//! other.

use std::collections::HashSet;
use std::path::Path;
use std::{fs, io};

use crate::{files, Report};

const PAGE: &str = "README.md";
const HEADING: &str = "## Reading order";
const INSIDE: &str = "## Inside the calls";

/// What a reader of the definitions may be asked to read stays below so many lines.
const MOST_LINES: usize = 5_000;

/// A file of definitions and its number of lines.
struct Definitions {
    path: String,
    lines: usize,
}

/// A row of a table.
struct Row<'a> {
    line: usize,
    path: &'a str,
    lines: &'a str,
    sentence: &'a str,
}

/// The rows of the tables under a heading: the lines that begin with a cell in backticks.
fn rows<'a>(page: &'a str, heading: &str) -> Vec<Row<'a>> {
    let lines = (1..).zip(page.lines());
    let section = lines.skip_while(|(_, text)| *text != heading).skip(1);
    let section = section.take_while(|(_, text)| !text.starts_with("## "));
    section.filter_map(|(line, text)| row(line, text)).collect()
}

fn row(line: usize, text: &str) -> Option<Row<'_>> {
    let (path, rest) = text.strip_prefix("| `")?.split_once('`')?;
    let mut cells = rest.split('|').skip(1).map(str::trim);
    Some(Row {
        line,
        path,
        lines: cells.next().unwrap_or_default(),
        sentence: cells.next().unwrap_or_default(),
    })
}

/// What is wrong with the table of a page that is to show these files.
fn findings(page: &str, files: &[Definitions]) -> Vec<String> {
    let mut found = Vec::new();
    if !page.lines().any(|line| line == HEADING) {
        found.push(format!("{PAGE}: no heading `{HEADING}`"));
    }
    let order = rows(page, HEADING);
    let sum: usize = files
        .iter()
        .filter(|file| order.iter().any(|row| row.path == file.path))
        .map(|file| file.lines)
        .sum();
    let mut seen = HashSet::new();
    for row in order.into_iter().chain(rows(page, INSIDE)) {
        let Row { line, path, .. } = row;
        let mut report = |problem| found.push(format!("{PAGE}:{line}: {path} {problem}"));
        let Some(file) = files.iter().find(|file| file.path == path) else {
            report("is no file of definitions".to_string());
            continue;
        };
        if !seen.insert(path) {
            report("has another row".to_string());
        }
        if row.lines != file.lines.to_string() {
            report(format!("has {} lines, not {}", file.lines, row.lines));
        }
        if row.sentence.is_empty() {
            report("has no sentence".to_string());
        }
    }
    for file in files {
        if !seen.contains(file.path.as_str()) {
            found.push(format!("{}:1: not in the table of {PAGE}", file.path));
        }
    }
    if sum >= MOST_LINES {
        let problem = format!("{sum} lines in the reading order, not below {MOST_LINES}");
        found.push(format!("{PAGE}: {problem}"));
    }
    found
}

fn sum(files: &[&Definitions]) -> usize {
    files.iter().map(|file| file.lines).sum()
}

/// Every problem of the reading order in the repository at `root`.
pub fn problems(root: &Path) -> io::Result<Report> {
    let mut specs = files::below(root, "specs", "antt")?;
    specs.retain(|file| !file.path.ends_with("/Lib.antt"));
    let definitions = |file: files::File| Definitions {
        lines: file.text.matches('\n').count(),
        path: file.path,
    };
    let files: Vec<Definitions> = specs.into_iter().map(definitions).collect();
    let page = fs::read_to_string(root.join(PAGE))?;
    let inside = rows(&page, INSIDE);
    let (inner, order): (Vec<_>, Vec<_>) = files
        .iter()
        .partition(|file| inside.iter().any(|row| row.path == file.path));
    let seen = format!(
        "{} files of {} lines, {} of {} lines inside the calls",
        order.len(),
        sum(&order),
        inner.len(),
        sum(&inner)
    );
    Ok(Report {
        problems: findings(&page, &files),
        seen,
    })
}

#[cfg(test)]
mod tests {
    use super::*;

    const ROWS: &str = "crates/networks/specs/Rows.antt";
    const PLANS: &str = "crates/plan/specs/Plans.antt";

    fn findings_of(page: &str, lines: [usize; 2]) -> Vec<String> {
        let files = [ROWS, PLANS].map(str::to_string);
        let mut lines = lines.into_iter();
        let files = files.map(|path| Definitions {
            path,
            lines: lines.next().unwrap_or_default(),
        });
        findings(page, &files)
    }

    fn page(table: &str) -> String {
        format!(
            "# Mukdalis\n\n## Reading order\n\n| File | Lines | What |\n|---|---|---|\n{table}\n## Next\n\n| `x` | 1 | y |\n"
        )
    }

    #[test]
    fn a_true_table_passes() {
        let page = page(&format!(
            "| `{PLANS}` | 40 | Plans and their rules. |\n| `{ROWS}` | 3959 | Rows. |\n"
        ));
        assert_eq!(findings_of(&page, [3959, 40]), [""; 0]);
    }

    #[test]
    fn what_the_table_says_wrong_is_found() {
        let good = format!("| `{ROWS}` | 30 | Rows. |\n");
        for (row, problem) in [
            (
                format!("| `{PLANS}` | 41 | Plans. |"),
                "has 40 lines, not 41",
            ),
            (format!("| `{PLANS}` | | Plans. |"), "has 40 lines, not "),
            (format!("| `{PLANS}` | 40 | |"), "has no sentence"),
            (
                format!("| `{PLANS}` | 40 | Plans. |\n| `{PLANS}` | 40 | Plans. |"),
                "has another row",
            ),
        ] {
            let page = page(&format!("{good}{row}\n"));
            let line = 7 + row.lines().count();
            let problem = format!("README.md:{line}: {PLANS} {problem}");
            assert_eq!(findings_of(&page, [30, 40]), [problem]);
        }
    }

    #[test]
    fn a_row_of_no_file_and_a_file_of_no_row_are_found() {
        let page = page(&format!(
            "| `{ROWS}` | 30 | Rows. |\n| `crates/plan/specs/Lib.antt` | 4 | Plans. |\n"
        ));
        assert_eq!(
            findings_of(&page, [30, 40]),
            [
                "README.md:8: crates/plan/specs/Lib.antt is no file of definitions".to_string(),
                format!("{PLANS}:1: not in the table of README.md"),
            ]
        );
    }

    #[test]
    fn a_missing_heading_is_found() {
        let table = format!("| `{ROWS}` | 30 | Rows. |\n| `{PLANS}` | 40 | Plans. |\n");
        let page = page(&table).replace("## Reading order", "## Other");
        let found = findings_of(&page, [30, 40]);
        assert_eq!(found[0], "README.md: no heading `## Reading order`");
        assert_eq!(found.len(), 3);
    }

    #[test]
    fn too_many_lines_are_found() {
        let page = page(&format!(
            "| `{ROWS}` | 4960 | Rows. |\n| `{PLANS}` | 40 | Plans. |\n"
        ));
        assert_eq!(
            findings_of(&page, [4960, 40]),
            ["README.md: 5000 lines in the reading order, not below 5000"]
        );
    }

    #[test]
    fn files_inside_the_calls_have_a_row_and_no_part_in_the_limit() {
        let order = format!("| `{PLANS}` | 40 | Plans. |\n");
        let inside = format!("\n## Inside the calls\n\n| `{ROWS}` | 4960 | Rows. |\n");
        let page = page(&order) + &inside;
        assert_eq!(findings_of(&page, [4960, 40]), [""; 0]);
        assert_eq!(
            findings_of(&page, [4959, 40]),
            [format!("README.md:15: {ROWS} has 4959 lines, not 4960")]
        );
        let twice = page.replace(
            &order,
            &(order.clone() + &format!("| `{ROWS}` | 4960 | Rows. |\n")),
        );
        assert_eq!(findings_of(&twice, [4960, 40]).len(), 2);
    }
}
