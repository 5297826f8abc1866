//! The check of the storeys: a crate's name tells its storey, and crates.txt keeps to them.
//!
//! | Storey | Crates | May list |
//! |---|---|---|
//! | foundations | `lists`, `fault`, `powers`, `elements`, `series` | foundations |
//! | block library | `blocks`, `block_*` | foundations, its own |
//! | plans | `plan`, `plan_*` | foundations, its own |
//! | fabrics | `fabric`, `fabric_*` | foundations, plans, `blocks`, its own |
//! | above | all others | foundations, plans, `blocks`, `fabric`, its own, the kit's libraries |
//!
//! `blocks` and `fabric` are the doors of their storeys: from above nothing behind them is listed.

use std::io;
use std::path::Path;

use crate::listing::{self, Listed};
use crate::Report;

const FOUNDATIONS: [&str; 5] = ["lists", "fault", "powers", "elements", "series"];

/// The doors of the block library and of the fabrics.
pub const BLOCKS: &str = "blocks";
pub const FABRIC: &str = "fabric";

/// The kit's libraries.
const KIT: [&str; 5] = ["check", "libc", "io", "os", "bytes"];

/// May list any crate: it computes the bench sheet from the definitions themselves.
const EXEMPT: &str = "figures";

#[derive(Clone, Copy, Debug, PartialEq, Eq)]
pub enum Storey {
    Foundations,
    Blocks,
    Plans,
    Fabrics,
    Above,
}

impl Storey {
    /// The storey of a crate of this name.
    pub fn of(name: &str) -> Storey {
        match name {
            _ if FOUNDATIONS.contains(&name) => Storey::Foundations,
            _ if name == BLOCKS || name.starts_with("block_") => Storey::Blocks,
            _ if name == "plan" || name.starts_with("plan_") => Storey::Plans,
            _ if name == FABRIC || name.starts_with("fabric_") => Storey::Fabrics,
            _ => Storey::Above,
        }
    }

    fn name(self) -> &'static str {
        match self {
            Storey::Foundations => "foundations",
            Storey::Blocks => "block library",
            Storey::Plans => "plans",
            Storey::Fabrics => "fabrics",
            Storey::Above => "above",
        }
    }

    /// Whether a crate of this storey may list one of this name.
    fn may_list(self, name: &str) -> bool {
        let other = Storey::of(name);
        match (self, other) {
            (_, Storey::Foundations) => true,
            (Storey::Fabrics | Storey::Above, Storey::Plans) => true,
            (Storey::Fabrics | Storey::Above, Storey::Blocks) => name == BLOCKS,
            (Storey::Above, Storey::Fabrics) => name == FABRIC,
            _ => self == other,
        }
    }
}

/// What breaks the rule in a list of crates.
fn findings(crates: &[Listed]) -> Vec<String> {
    let mut found = Vec::new();
    for Listed { line, name, over } in crates {
        for other in over {
            let is_listed = crates.iter().any(|one| one.name == *other);
            let storey = Storey::of(name);
            let problem = if !is_listed && !KIT.contains(&other.as_str()) {
                format!("{other} is neither a crate here nor a library of the kit")
            } else if name != EXEMPT && !storey.may_list(other) {
                let (storey, of) = (storey.name(), Storey::of(other).name());
                format!("{name} ({storey}) may not list {other} ({of})")
            } else {
                continue;
            };
            found.push(format!("{}:{line}: {problem}", listing::FILE));
        }
    }
    found
}

/// Every problem of crates.txt in the repository at `root`.
pub fn problems(root: &Path) -> io::Result<Report> {
    let crates = listing::read(root)?;
    Ok(Report {
        problems: findings(&crates),
        seen: format!("{} crates", crates.len()),
    })
}

#[cfg(test)]
mod tests {
    use super::*;

    const CRATES: &str = "\
lists:
fault: lists
powers:
block_rows: lists powers
blocks: fault block_rows
plan: lists fault
plan_faults: fault plan
fabric_rows: lists plan plan_faults blocks
fabric: fault blocks fabric_rows
equivalence: lists plan plan_faults blocks fabric
capi: fault plan blocks fabric equivalence
figures: lists block_rows blocks plan fabric_rows fabric equivalence
twintest: fault plan equivalence check libc io os bytes
";

    fn findings_of(text: &str) -> Vec<String> {
        findings(&listing::listed(text))
    }

    #[test]
    fn what_keeps_to_the_storeys_passes() {
        assert_eq!(findings_of(CRATES), [""; 0]);
    }

    #[test]
    fn a_name_tells_its_storey() {
        for (name, storey) in [
            ("powers", Storey::Foundations),
            ("blocks", Storey::Blocks),
            ("block_", Storey::Blocks),
            ("block", Storey::Above),
            ("blocks_rows", Storey::Above),
            ("plan_faults", Storey::Plans),
            ("planner", Storey::Above),
            ("fabric", Storey::Fabrics),
            ("fabrics", Storey::Above),
            ("io", Storey::Above),
        ] {
            assert_eq!(Storey::of(name), storey, "{name}");
        }
    }

    #[test]
    fn what_leaves_its_storey_is_found() {
        for (name, other) in [
            ("lists", "blocks"),
            ("fault", "plan"),
            ("powers", "fabric"),
            ("lists", "libc"),
            ("powers", "equivalence"),
            ("block_rows", "plan"),
            ("blocks", "plan_faults"),
            ("blocks", "fabric"),
            ("blocks", "io"),
            ("block_rows", "capi"),
            ("plan", "blocks"),
            ("plan_faults", "block_rows"),
            ("plan", "fabric_rows"),
            ("plan", "figures"),
            ("plan", "bytes"),
            ("fabric_rows", "block_rows"),
            ("fabric", "block_rows"),
            ("fabric", "equivalence"),
            ("fabric_rows", "os"),
            ("equivalence", "block_rows"),
            ("capi", "fabric_rows"),
            ("twintest", "block_rows"),
        ] {
            let line = format!("{name}:");
            let with = format!("{name}: {other}");
            let text = CRATES.replace(&line, &with);
            let found = findings_of(&text);
            let at = (1..)
                .zip(CRATES.lines())
                .find(|(_, l)| l.starts_with(&line));
            let storeys = [name, other].map(|name| Storey::of(name).name());
            let problem = format!(
                "crates.txt:{}: {name} ({}) may not list {other} ({})",
                at.expect("the crate has a line").0,
                storeys[0],
                storeys[1]
            );
            assert_eq!(found, [problem]);
        }
    }

    #[test]
    fn a_crate_of_nowhere_is_found() {
        let found = findings_of("twintest: search io\nfigures: block_none\n");
        let nowhere = "is neither a crate here nor a library of the kit";
        assert_eq!(
            found,
            [
                format!("crates.txt:1: search {nowhere}"),
                format!("crates.txt:2: block_none {nowhere}"),
            ]
        );
    }
}
