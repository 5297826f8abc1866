//! What the checks read of Rattle: code without comments, and the items of a source.

pub fn is_word(c: char) -> bool {
    c.is_ascii_alphanumeric() || c == '_'
}

/// The source with each `//` comment blanked, so that lines stay.
pub fn without_comments(source: &str) -> String {
    let mut text = String::with_capacity(source.len());
    for line in source.split_inclusive('\n') {
        let code = line.find("//").unwrap_or(line.len());
        text.push_str(&line[..code]);
        if code < line.len() && line.ends_with('\n') {
            text.push('\n');
        }
    }
    text
}

/// Past the group that opens at `at`, inner groups included.
pub fn past_group(text: &str, at: usize, open: char, close: char) -> usize {
    let mut depth = 0;
    for (i, c) in text[at..].char_indices() {
        if c == open {
            depth += 1;
        } else if c == close {
            depth -= 1;
            if depth == 0 {
                return at + i + c.len_utf8();
            }
        }
    }
    text.len()
}

/// A function, type, trait or constant that a source declares.
#[derive(Debug, PartialEq, Eq)]
pub struct Item {
    pub line: usize,
    /// A method or associated constant has its type before it, as in `Plan::zero`, or its trait; a
    /// function in a trait's `impl` block the name that rt gives this, as in `U32FromFault::from`.
    pub name: String,
    pub is_public: bool,
    pub is_function: bool,
}

/// The indentation of what stands in an `impl` block or a trait.
const INSIDE: &str = "    ";

/// The items of a source in rt's layout: each begins a line, at its start or inside an `impl` block
/// or a trait. `pub(crate)` is not public, what a trait asks for is, as far as the trait is; `use`
/// and `mod` declare nothing, and a type in a trait's `impl` block is the trait's.
pub fn items(source: &str) -> Vec<Item> {
    let text = without_comments(source);
    let mut found = Vec::new();
    // What is open: the type of an `impl` block or a trait, and whether all in it is public.
    let mut of: Option<String> = None;
    let mut of_trait = false;
    for (line, text) in (1..).zip(text.lines()) {
        // `impl name for name {}`
        let is_open = !text.trim_end().ends_with('}');
        if text.starts_with("impl ") || text.starts_with("impl<") {
            let (name, is_trait) = block_name(text);
            (of, of_trait) = (is_open.then_some(name), is_open && is_trait);
            continue;
        }
        if text.starts_with('}') {
            (of, of_trait) = (None, false);
        }
        let code = match of {
            Some(_) => text.strip_prefix(INSIDE).unwrap_or_default(),
            None => text,
        };
        if let Some((kind, name)) = kind_and_name(code) {
            if of_trait && kind == "type" {
                continue;
            }
            let inside = |of: &String| format!("{of}::{name}");
            found.push(Item {
                line,
                name: of.as_ref().map_or(name.to_string(), inside),
                is_public: of_trait || code.starts_with("pub "),
                is_function: kind == "fn",
            });
            if kind == "trait" && is_open {
                (of, of_trait) = (Some(name.to_string()), code.starts_with("pub "));
            }
        }
    }
    found
}

/// The name of an `impl` block by its first line, and whether it is a trait's: the type, or what rt
/// calls the block, the type, the trait and what this is given, as in `KindTryFromU16`.
fn block_name(head: &str) -> (String, bool) {
    let head = head.trim_start_matches("impl").trim_end_matches('{');
    let head = match head.starts_with('<') {
        true => &head[past_group(head, 0, '<', '>')..],
        false => head,
    };
    let words = |text: &str| -> Vec<String> {
        let words = text.split(|c| !is_word(c) && c != '\'');
        // A lifetime is none.
        let words = words.filter(|word| !word.is_empty() && !word.starts_with('\''));
        words.map(str::to_string).collect()
    };
    match head.split_once(" for ") {
        None => (words(head).swap_remove(0), false),
        Some((of_trait, of)) => {
            let capital = |word: String| word[..1].to_uppercase() + &word[1..];
            let all = words(of).into_iter().chain(words(of_trait));
            (all.map(capital).collect(), true)
        }
    }
}

/// The keyword and the name of the item that begins a line.
fn kind_and_name(code: &str) -> Option<(&str, &str)> {
    if !code.starts_with(is_word) {
        return None;
    }
    let words = code.split(|c| !is_word(c)).filter(|word| !word.is_empty());
    let mark = |word: &&str| ["pub", "crate", "extern", "C", "unsafe"].contains(word);
    let mut words = words.skip_while(mark);
    match (words.next()?, words.next()?) {
        ("const", "fn") => words.next().map(|name| ("fn", name)),
        (kind @ ("fn" | "struct" | "enum" | "trait" | "const" | "type"), name) => {
            Some((kind, name))
        }
        _ => None,
    }
}

#[cfg(test)]
mod tests {
    use super::*;

    #[test]
    fn items_of_every_form_are_found() {
        let source = "\
// fn commented() {}
#![tactic(auto)]
ghost use Rattle.lists.specs.Lists.{list_of};
use lists::Wire;
pub use lists::Wire;
mod rows;
#[derive(Clone, Copy)]
pub struct Plan {
    pub size: u8,
}
pub(crate) enum Step {
    Done,
}
pub const MOST: usize = 3;
type Line = [u8; MOST];
impl Plan {
    pub const NONE: u8 = 0;
    pub fn zero() -> Self
        ensures { result ≡ zero_plan }
    {
        fn helper() {}
    }
}
impl TryFrom<u8> for Plan {
    type Error = Step;

    ghost try_from_gives = { Named };

    fn try_from(number: u8) -> Result<Plan, Step> {}
}
impl<'a> Parts<'a> {
    fn first(self) -> u8 {}
}
pub trait Tells {
    ghost told: { Self → ℕ };

    fn one(&self) -> u8
        ensures { result ≡ told self.now };
}
impl Tells for Parts<'_> {
    ghost told = { λ parts. 1 };

    fn one(&self) -> u8 {}
}
fn behind() {}
trait Inside {
    fn two(&self);
}
pub trait Empty {}
impl Empty for Parts<'_> {}
fn last() {}
#[unsafe(no_mangle)]
pub extern \"C\" fn mkd_run() {}
fn inner(
    const_count: u8,
) -> u8 {
    const LOCAL: u8 = 1;
}
pub const fn folded() {}
";
        let shown = |item: &Item| {
            let public = if item.is_public { "pub " } else { "" };
            let function = if item.is_function { "()" } else { "" };
            format!("{} {public}{}{function}", item.line, item.name)
        };
        let found: Vec<String> = items(source).iter().map(shown).collect();
        assert_eq!(
            found,
            [
                "8 pub Plan",
                "11 Step",
                "14 pub MOST",
                "15 Line",
                "17 pub Plan::NONE",
                "18 pub Plan::zero()",
                "29 pub PlanTryFromU8::try_from()",
                "32 Parts::first()",
                "34 pub Tells",
                "37 pub Tells::one()",
                "43 pub PartsTells::one()",
                "45 behind()",
                "46 Inside",
                "47 Inside::two()",
                "49 pub Empty",
                "51 last()",
                "53 pub mkd_run()",
                "54 inner()",
                "59 pub folded()",
            ]
        );
    }
}
