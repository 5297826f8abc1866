//! Plants arrays in the repository's own sources, and reads small sources of each form.

use super::*;

const PROGRAMMING: &str = "crates/block_permutation_bits/src/programming.rt";
const BLOCK: &str = "crates/block_permutation_bits/src/block.rt";
const DOOR: &str = "crates/block_permutation_bits/src/lib.rt";
const FIELDS: &str = "crates/block_bits/src/fields.rt";

/// The line behind which locals are planted beside P's three arrays.
const BESIDE: &str = "    let mut mark = [0u8; N];\n";

/// The repository's sources.
fn sources() -> (Vec<Listed>, Vec<File>) {
    let root = Path::new(env!("CARGO_MANIFEST_DIR")).join("../..");
    let crates = listing::read(&root).expect("crates.txt is there");
    let files = files::below(&root, "src", "rt").expect("the sources are there");
    (crates, files)
}

/// The text of a file.
fn text<'a>(files: &'a mut [File], path: &str) -> &'a mut String {
    let file = files.iter_mut().find(|file| file.path == path);
    &mut file.unwrap_or_else(|| panic!("no {path}")).text
}

/// Puts `new` for `old` in a file, where it has to stand once.
fn put(files: &mut [File], path: &str, old: &str, new: &str) {
    let text = text(files, path);
    assert_eq!(text.matches(old).count(), 1, "{path}: {old}");
    *text = text.replace(old, new);
}

/// The repository with changes, each a file, a text in it, and what stands there instead.
fn planted(changes: &[(&str, &str, &str)]) -> Arrays {
    let (crates, mut files) = sources();
    for (path, old, new) in changes {
        put(&mut files, path, old, new);
    }
    arrays(&crates, &files)
}

/// With locals beside P's three arrays, and items below the functions.
fn beside(locals: &str, items: &str) -> Arrays {
    let (crates, mut files) = sources();
    let more = format!("{BESIDE}{locals}\n");
    put(&mut files, PROGRAMMING, BESIDE, &more);
    text(&mut files, PROGRAMMING).push_str(items);
    arrays(&crates, &files)
}

/// The line of a file in which something begins.
fn line_of(path: &str, what: &str) -> usize {
    let (_, mut files) = sources();
    let before = text(&mut files, path).split_once(what);
    let (before, _) = before.unwrap_or_else(|| panic!("{path}: {what}"));
    before.matches('\n').count() + 1
}

/// The line of a local that is planted beside P's arrays, and that of the first item below.
fn planted_lines() -> (usize, usize) {
    let (_, mut files) = sources();
    let lines = text(&mut files, PROGRAMMING).matches('\n').count();
    (line_of(PROGRAMMING, BESIDE) + 1, lines + 2)
}

/// What each of the calls that program P holds, which is the same for all.
fn bytes(arrays: &Arrays) -> u64 {
    let bytes: BTreeSet<u64> = arrays.programming.iter().map(|call| call.bytes).collect();
    assert_eq!(bytes.len(), 1, "{:?}", arrays.problems);
    bytes.into_iter().next().unwrap_or(0)
}

/// Refused at each of the three calls, for this sum of bytes, with these words.
fn is_above(arrays: &Arrays, sum: u64, words: &str) {
    assert_eq!(bytes(arrays), sum);
    let what = format!("holds {sum} bytes of arrays at one time");
    assert_eq!(arrays.problems.len(), 3, "{:?}", arrays.problems);
    for problem in &arrays.problems {
        assert!(problem.contains(&what), "{problem}");
        assert!(problem.contains(words), "{problem}");
    }
}

/// Refused once, at this place and for this reason.
fn is_refused(arrays: &Arrays, problem: &str) {
    assert_eq!(arrays.problems, [problem]);
}

#[test]
fn programming_p_holds_its_three_arrays() {
    let found = planted(&[]);
    assert_eq!(found.problems, [""; 0]);
    let calls: Vec<&str> = found.programming.iter().map(|one| &*one.call).collect();
    assert_eq!(
        calls,
        [
            "program_permutation",
            "program_permutation_at",
            "mkd_permutation_program"
        ]
    );
    for call in &found.programming {
        assert_eq!(call.bytes, 2_560);
        assert_eq!(call.path, [("program_in".to_string(), 2_560)]);
    }
    let mut exports = found.exports.iter();
    let selection = exports.find(|one| one.call == "mkd_selection_program");
    assert_eq!(
        selection.map(Fullest::line).as_deref(),
        Some("mkd_selection_program     5632  store_in 3072 + program_in 2560")
    );
}

#[test]
fn a_fourth_array_is_counted() {
    let found = beside("    let mut spare = [0u8; 1];", "");
    is_above(
        &found,
        2_561,
        "program_in has perm 1024, scratch 1024, mark 512, spare 1",
    );
    // In the check for 9 there is room for it: that returns before.
    let check = "crates/block_program_checks/src/permutation.rt";
    let old = "    let mut came = [false; N];\n";
    let more = format!("{old}    let mut spare = [0u8; 2048];\n");
    let found = planted(&[(check, old, &more)]);
    assert_eq!((bytes(&found), found.problems.len()), (2_560, 0));
    let more = format!("{old}    let mut spare = [0u8; 2049];\n");
    is_above(&planted(&[(check, old, &more)]), 2_561, "check_once_in has");
}

#[test]
fn a_sum_does_not_wrap() {
    let quarter = "[0u8; 4_611_686_018_427_387_904]";
    let locals =
        format!("    let a = {quarter}; let b = {quarter}; let c = {quarter}; let d = {quarter};");
    is_above(&beside(&locals, ""), u64::MAX, "d 4611686018427387904");
}

#[test]
fn marks_of_16_bits_are_counted() {
    let marks = (
        PROGRAMMING,
        "let mut mark = [0u8; N]",
        "let mut mark = [0u16; N]",
    );
    is_above(&planted(&[marks]), 3_072, "mark 1024");
}

#[test]
fn an_array_inside_the_recursion_is_refused() {
    let half = "    let half = perm.len() / 2;\n";
    let more = format!("{half}    let own = [0u8; 1];\n");
    let found = planted(&[(BLOCK, half, &more)]);
    let problem = "holds arrays inside a recursion: program_halves has own 1";
    let is_there = |one: &String| one.starts_with(BLOCK) && one.ends_with(problem);
    assert!(found.problems.iter().any(is_there), "{:?}", found.problems);
    // By value through a parameter, too.
    let found = planted(&[
        (
            BLOCK,
            "fn program_halves(\n    perm",
            "fn program_halves(\n    own: [u8; 1],\n    perm",
        ),
        (
            BLOCK,
            "program_halves(perm, scratch",
            "program_halves([0u8], perm, scratch",
        ),
        (
            BLOCK,
            "program_halves(upper, room",
            "program_halves([0u8], upper, room",
        ),
        (
            BLOCK,
            "program_halves(lower, room",
            "program_halves([0u8], lower, room",
        ),
    ]);
    let problem = "program_halves has own 1, a value in line";
    let is_there = |one: &String| one.contains(problem);
    assert!(found.problems.iter().any(is_there), "{:?}", found.problems);
}

#[test]
fn an_array_in_a_shared_leaf_is_counted() {
    let leaf = "    let place = bit_place(start) as u32;\n";
    let more = format!("{leaf}    let copy = [0u32; 2];\n");
    let words = "store_field has copy 8";
    is_above(&planted(&[(FIELDS, leaf, &more)]), 2_568, words);
}

#[test]
fn an_array_behind_an_alias_is_counted() {
    let alias = "type Inner = [u16; 3];\ntype Outer = [Inner; 2];\n";
    let found = beside("    let spare: Outer = [[0; 3]; 2];", alias);
    let (line, _) = planted_lines();
    let words = format!("a value in line {line} 6, spare 12");
    is_above(&found, 2_578, &words);
}

#[test]
fn an_array_behind_a_struct_is_counted() {
    // Four bytes of an inner array, and elements of six bytes with their padding.
    let structs = "\
struct Inner { few: [u8; 4] }
struct Pair { first: u8, second: u16, third: bool }
struct Spare { count: u64, inner: Inner, pairs: [Pair; 2] }
fn held(spare: Spare) {}
";
    let found = beside(
        "    held(Spare { count: 0, inner: few(), pairs: two() });",
        &format!(
            "{structs}fn few() -> Inner {{ loop {{}} }}\nfn two() -> [Pair; 2] {{ loop {{}} }}\n"
        ),
    );
    let (line, _) = planted_lines();
    let made = [4, 12, 16].map(|bytes| format!("a value in line {line} {bytes}"));
    is_above(&found, 2_560 + 32 + 16, &made.join(", "));
}

#[test]
fn a_length_by_constants_is_counted() {
    let items = "\
const HALF: u32 = block_sizes::MAX_SIZE / 2;
const SPARE: usize = (HALF as usize + 3 * 8 - 20 / 5 * 4) % 100 + Sized::ONE;
struct Sized(u8);
impl Sized { const ONE: usize = 1; }
";
    let found = beside("    let spare = [0u8; SPARE + 1];", items);
    is_above(&found, 2_560 + 66, "spare 66");
}

#[test]
fn a_returned_record_is_counted() {
    let record = "\
struct Record { number: u32, list: [u16; 8] }
fn made() -> Record { Record { number: 0, list: [0; 8] } }
";
    // In the caller, where its value is dropped; in the callee its result and what that is made of.
    let found = beside("    made();", record);
    let (line, below) = planted_lines();
    let made = format!("made has the result 16, a value in line {} 16", below + 1);
    let words = format!("a value in line {line} 16; {made}");
    is_above(&found, 2_560 + 16 + 32, &words);
}

#[test]
fn a_function_of_the_same_name_is_told_apart() {
    // A copy of the module's own function that holds an array, in another module.
    let (crates, mut files) = sources();
    files.push(File {
        path: "crates/block_permutation_bits/src/other.rt".into(),
        text: "pub fn load_mapping(wanted: &[u16], perm: &mut [u16]) { let spare = [0u32; 4]; }\n"
            .into(),
    });
    put(
        &mut files,
        DOOR,
        "mod programming;\n",
        "mod other;\nmod programming;\n",
    );
    let found = arrays(&crates, &files);
    assert_eq!((bytes(&found), found.problems.len()), (2_560, 0));
    let call = (
        "    load_mapping(wanted, &mut perm);\n",
        "    crate::other::load_mapping(wanted, &mut perm);\n",
    );
    put(&mut files, PROGRAMMING, call.0, call.1);
    is_above(&arrays(&crates, &files), 2_576, "load_mapping has spare 16");
    let above = "    super::other::load_mapping(wanted, &mut perm);\n";
    put(&mut files, PROGRAMMING, call.1, above);
    is_above(&arrays(&crates, &files), 2_576, "load_mapping has spare 16");
    // The same through a public name of another word.
    put(
        &mut files,
        DOOR,
        "pub use programming::{program_permutation, program_permutation_at};\n",
        "pub use other::load_mapping as load_other;\npub use programming::{program_permutation, program_permutation_at};\n",
    );
    put(
        &mut files,
        PROGRAMMING,
        above,
        "    crate::load_other(wanted, &mut perm);\n",
    );
    is_above(&arrays(&crates, &files), 2_576, "load_mapping has spare 16");
}

#[test]
fn comments_and_contracts_hold_nothing() {
    let comment = "    // let spare = [0u8; 512];";
    let found = beside(comment, "// const SPARE: [u8; 4] = [0; 4];\n");
    assert_eq!((bytes(&found), found.problems.len()), (2_560, 0));
    let contract = "    requires wanted_in_bounds { length wanted.now ≤ length perm.old }\n";
    let more = format!("{contract}    requires named {{ held {{ list = [0u8; 512] }} }}\n");
    let found = planted(&[(PROGRAMMING, contract, &more)]);
    assert_eq!((bytes(&found), found.problems.len()), (2_560, 0));
    // A brace that is none of the contract's would move its end.
    let line = line_of(PROGRAMMING, contract) + 1;
    let problem = "not read: antt with a comment, a text or a character";
    let name = "not read: a name with a brace or a semicolon";
    for (brace, problem) in [
        ("-- }\n", problem),
        ("// }\n", problem),
        ("{- } -}", problem),
        ("\"}\"", problem),
        ("⟦b'{'⟧", problem),
        ("'}'", problem),
        ("λ «}».", name),
    ] {
        let more = format!("{contract}    requires wide {{ wide {brace} }}\n");
        let found = planted(&[(PROGRAMMING, contract, &more)]);
        is_refused(&found, &format!("{PROGRAMMING}:{line}: {problem}"));
    }
    let used = "ghost use Rattle.lists.specs.Lists.{list_of};\n";
    let line = line_of(PROGRAMMING, used);
    for (end, problem) in [("-- ;", problem), ("«;»", name)] {
        let more = format!("ghost use Rattle.lists.specs.Lists.{{list_of, {end} type\n}};\n");
        let found = planted(&[(PROGRAMMING, used, &more)]);
        is_refused(&found, &format!("{PROGRAMMING}:{line}: {problem}"));
    }
}

#[test]
fn what_is_borrowed_is_not_held() {
    let found = beside(
        "    lent(&mut perm, &scratch[..4], b\"text\");",
        "fn lent(a: &mut [u16], b: &[u16], c: &[u8; 4]) {}\n",
    );
    assert_eq!((bytes(&found), found.problems.len()), (2_560, 0));
    // What is made to be lent is held.
    let found = beside("    lent(&[0; 3]);", "fn lent(a: &[u16]) {}\n");
    let (line, _) = planted_lines();
    is_above(&found, 2_566, &format!("a value in line {line} 6"));
}

#[test]
fn an_array_under_a_closure_that_is_lent_is_refused() {
    let lend = "fn lend<F: Fn(usize) -> u8>(f: F) -> u8 { f(0) }\n";
    let callee = "fn callee(i: usize) -> u8 { let own = [0u8; 1]; 0 }\n";
    let found = beside("    lend(|i| callee(i));", &format!("{lend}{callee}"));
    let (_, below) = planted_lines();
    let line = below + 1;
    let problem = "callee holds arrays, and a closure that is lent calls it";
    let problem = format!("{PROGRAMMING}:{line}: {problem}");
    assert!(found.problems.contains(&problem), "{:?}", found.problems);
    // The closure's own are the caller's.
    let found = beside("    lend(|i| [0u8; 3][i]);", lend);
    let (line, _) = planted_lines();
    is_above(&found, 2_563, &format!("a value in line {line} 3"));
}

/// A trait, a type that has it, whose first function holds three bytes, and a call by the bound.
const TELLS: &str = "\
pub trait Tells {
    ghost told: { Self → ℕ };

    fn first(&self, k: usize) -> u8
        requires { k < 3 }
        ensures { result ≡ told self.now }
        ensures small { result < 9 };
    fn second(&self) -> u8 { self.first(2) }
}
struct Row<'a> { wires: &'a [u16] }
impl<'a> Tells for Row<'a> {
    ghost told = { λ row. 0 };

    fn first(&self, k: usize) -> u8 { [0u8; 3][k] }
}
fn ask<T: Tells>(count: usize, bits: &T) -> u8 { bits.first(count) }
";

#[test]
fn a_method_of_a_trait_is_counted() {
    let (_, below) = planted_lines();
    let words = format!("Row::first has a value in line {} 3", below + 13);
    let more = "\
struct Other { one: u8 }
impl Tells for Other {
    ghost told = { λ other. 0 };
    fn first(&self, k: usize) -> u8 { 0 }
}
fn ask_more<T: Copy + Tells>(bits: T) -> u8 { ask(0, &bits) }
";
    let items = format!("{TELLS}{more}");
    // Through a bound, through two of them, by the type itself, by the trait's own body.
    for call in [
        "ask(4, &Row { wires: wanted });",
        "let row = Row { wires: wanted }; ask_more(row);",
        "let row = &Row { wires: wanted }; ask(1, row);",
        "Row { wires: wanted }.first(0);",
        "Row { wires: wanted }.second();",
    ] {
        let found = beside(&format!("    {call}"), &items);
        is_above(&found, 2_563, &words);
    }
    // The trait of a module that comes later, by a public name.
    let (of_trait, rest) = TELLS.split_at(TELLS.find("struct").expect("a struct is there"));
    let (crates, mut files) = sources();
    files.push(File {
        path: "crates/block_permutation_bits/src/tells.rt".into(),
        text: of_trait.into(),
    });
    let modules = "mod programming;\nmod tells;\npub use tells::Tells as Says;\n";
    put(&mut files, DOOR, "mod programming;\n", modules);
    let more = format!("{BESIDE}    ask(4, &Row {{ wires: wanted }});\n");
    put(&mut files, PROGRAMMING, BESIDE, &more);
    text(&mut files, PROGRAMMING).push_str(&format!("use crate::Says as Tells;\n{rest}"));
    is_above(&arrays(&crates, &files), 2_563, "Row::first has");
    // Another type's holds nothing.
    for call in ["ask(4, &Other { one: 1 });", "Other { one: 1 }.second();"] {
        let found = beside(&format!("    {call}"), &items);
        assert_eq!((bytes(&found), found.problems.len()), (2_560, 0), "{call}");
    }
}

#[test]
fn a_method_of_a_trait_under_a_closure_that_is_lent_is_refused() {
    let lend = "\
fn lend<F: Fn(usize) -> u8>(f: &F) -> u8 { f(0) }
fn ask_by<T: Tells>(bits: &T) -> u8 { lend(&|k| bits.first(k)) }
";
    let call = "    ask_by(&Row { wires: wanted });";
    let found = beside(call, &format!("{TELLS}{lend}"));
    let (_, below) = planted_lines();
    let problem = "Row::first holds arrays, and a closure that is lent calls it";
    let problem = format!("{PROGRAMMING}:{}: {problem}", below + 13);
    assert!(found.problems.contains(&problem), "{:?}", found.problems);
    // The repository's own, of a trait of another crate, and through the door of the blocks.
    for (path, old, name) in [
        (
            "crates/block_selection_bits/src/program.rt",
            "        is_wanted(self.counts, ",
            "Chain",
        ),
        (
            "crates/fabric_lists/src/wanted.rt",
            "        is_among(self.before, self.half, operand(self.lower, ",
            "Choices",
        ),
    ] {
        let more = format!("        let spare = [0u8; 1];\n{old}");
        let problem = format!("{name}::is_one holds arrays, and a closure that is lent calls it");
        let line = line_of(path, old) - 1;
        is_refused(
            &planted(&[(path, old, &more)]),
            &format!("{path}:{line}: {problem}"),
        );
    }
}

#[test]
fn a_trait_that_is_not_resolved_is_refused() {
    let (_, below) = planted_lines();
    let line = below + TELLS.matches('\n').count();
    for (item, problem) in [
        ("fn any<T: Unknown>(x: T) {}", "what Unknown names was not found"),
        ("fn any<T: Tells + Unknown>(x: T) {}", "what Unknown names was not found"),
        ("fn any<F: Fn(u8) -> u8 + Unknown>(f: F) {}", "what Unknown names was not found"),
        ("fn any<T: Row>(x: T) {}", "a trait is expected"),
        ("impl Unknown for Row<'_> {}", "what Unknown names was not found"),
        ("impl Row for Row<'_> {}", "a trait is expected"),
        ("impl Tells for Unknown {}", "an impl block of something that is no type"),
        ("impl Tells for u8 {}", "an impl block of something that is no type"),
        ("struct Two { a: u8 } impl Tells for Two {}", "Tells asks for first, which is missing"),
        ("impl Row<'_> { fn first(&self, k: usize) -> u8 { 0 } }", "first is declared twice here"),
        ("impl Tells for Row<'_> { fn third(&self) {} }", "Tells has no function third"),
        ("impl Tells for Row<'_> { const ONE: u8 = 1; }", "not read: more than functions for Tells"),
        ("trait Unused { fn one(&self); }", "no type has the trait Unused"),
        ("trait Wide { fn one(&self); } struct Two { a: u8 } impl Wide for Two { fn one(&self) {} } fn any<T: Tells + Wide>(x: &T) {}", "no type has the traits of T"),
        ("trait Row { fn one(&self); }", "Row is declared twice here"),
        ("trait u8 { fn one(&self); }", "u8 is the name of a number's type"),
        ("trait Wide { const ONE: u8; }", "not read: a function is expected, Word(\"const\") was found"),
        ("trait Wide: Tells { fn one(&self); }", "not read: { is expected, Symbol(\":\") was found"),
        ("fn any();", "not read: { is expected, Symbol(\";\") was found"),
        ("pub fn any<T: Tells>(bits: &T) { bits.third(); }", "the method third was not found"),
        ("pub fn any(bits: &Tells) {}", "a type is expected"),
        ("pub fn any(bits: &Row) { Tells::first(bits, 0); }", "what Tells::first names was not found"),
        ("struct Two { a: u8 } pub fn any(two: &Two) { ask(0, two); }", "what T stands for lacks one of its traits"),
        ("pub fn any(row: &&Row) { ask(0, row); }", "what T stands for lacks one of its traits"),
        ("pub fn any(row: Row) { ask(0, row); }", "a reference is expected"),
        ("struct Two { a: u8 } pub fn any(two: &Two) { two.second(); }", "the method second was not found"),
        ("pub fn any() { none(); } fn none<T: Tells>() {}", "what a parameter stands for is not written"),
    ] {
        let found = beside("", &format!("{TELLS}{item}\n"));
        is_refused(&found, &format!("{PROGRAMMING}:{line}: {problem}"));
    }
}

#[test]
fn what_is_not_resolved_is_refused() {
    let (line, below) = planted_lines();
    for (local, problem) in [
        ("unknown(start);", "what unknown names was not found"),
        ("io::buffer();", "what io::buffer names was not found"),
        (
            "std::num::spread(start);",
            "what std::num::spread names was not found",
        ),
        ("perm.sorted();", "the method sorted was not found"),
        (
            "let spare = [0u8; UNKNOWN];",
            "what UNKNOWN names was not found",
        ),
        (
            "let spare = [0u8; start];",
            "what start names was not found",
        ),
        (
            "let spare = [0u8; MAX_PLACES - 513];",
            "what this constant is worth was not found",
        ),
        (
            "let spare: Unknown = 0;",
            "what Unknown names was not found",
        ),
        (
            "let spare = [0; 4];",
            "the width of an array's elements is not written",
        ),
        (
            "let spare = [Fault::Stub; 4];",
            "how large an enum is inside an array is not known",
        ),
        ("let spare = wanted.first;", "the field first of no struct"),
        ("let spare = room![4];", "not read: a macro"),
        ("let spare = |i| i;", "what a closure takes is not written"),
        ("/* let spare = 0; */", "not read: a comment of this form"),
        (
            "let spare = start /* // */; let",
            "not read: a comment of this form",
        ),
        (
            "const SPARE: u8 = 4;",
            "not read: ; or } is expected, Word(\"SPARE\") was found",
        ),
        (
            "'found: loop { break 'found [0u8; 9]; }",
            "not read: an expression is expected, Lifetime was found",
        ),
        (
            "let spare = if start == 0 { 1u8; } else { [0u8; 9] };",
            "two types of one value",
        ),
        ("let spare = return;", "the type of a local is not written"),
        ("let spare;", "the type of a local is not written"),
        (
            "let spare = [0u8; 1 << 3];",
            "what this constant is worth was not found",
        ),
        (
            "let spare = [0u8; 1e3];",
            "what this constant is worth was not found",
        ),
        (
            "let spare = [0u8; 513 as u8];",
            "what this constant is worth was not found",
        ),
        (
            "let spare = [[0u8; 2]; 2].len;",
            "the field len of no struct",
        ),
        ("break;", "break outside a loop"),
        ("static SPARE: u8 = 0;", "not read: static in an expression"),
    ] {
        let found = beside(&format!("    {local}"), "");
        is_refused(&found, &format!("{PROGRAMMING}:{line}: {problem}"));
    }
    for (item, problem) in [
        ("mod inside { }", "not read: ; is expected, Symbol(\"{\") was found"),
        ("use powers::*;", "not read: a name is expected, Symbol(\"*\") was found"),
        ("fn load_mapping() {}", "load_mapping is declared twice here"),
        ("fn any<T>(x: T) {}", "not read: a bound is expected, Symbol(\">\") was found"),
        ("static LIST: [u8; 4] = [0; 4];", "not read: an item is expected, Word(\"static\") was found"),
        ("mod missing;", "the module missing has no file crates/block_permutation_bits/src/programming/missing.rt"),
    ] {
        let found = beside("", &format!("{item}\n"));
        is_refused(&found, &format!("{PROGRAMMING}:{below}: {problem}"));
    }
}

#[test]
fn every_call_that_programs_p_is_found() {
    let call = "\
pub fn program_more(n: u32, wanted: &[u16], program: &mut [u8]) -> Result<(), Fault>
    ensures { more }
{
    let spare = [0u8; 1];
    program_permutation(n, wanted, program)
}
";
    // By its contract, under whatever name; and by what it calls, where its contract is silent.
    let found = beside("", &call.replace("{ more }", "{ program_result n }"));
    let names: Vec<&str> = found.programming.iter().map(|one| &*one.call).collect();
    assert!(names.contains(&"program_more"), "{names:?}");
    let [problem] = found.problems.as_slice() else {
        panic!("{:?}", found.problems);
    };
    assert!(
        problem.ends_with(
            "program_more has spare 1; program_in has perm 1024, scratch 1024, mark 512"
        ),
        "{problem}"
    );
    let (_, below) = planted_lines();
    is_refused(
        &beside("", call),
        &format!(
            "{PROGRAMMING}:{below}: program_more programs P, and its contract does not say so"
        ),
    );
    // A function for its crate alone is no call.
    let inside = beside("", &call.replace("pub fn", "pub(crate) fn"));
    assert_eq!((bytes(&inside), inside.programming.len()), (2_560, 3));
    // A trait's is one, by the trait's contract, where it is public.
    let call = "\
pub trait Programs {
    fn program_by(&self, wanted: &[u16], program: &mut [u8]) -> Result<(), Fault>
        ensures { more };
}
struct Size(u32);
impl Programs for Size {
    fn program_by(&self, wanted: &[u16], program: &mut [u8]) -> Result<(), Fault> {
        program_permutation(self.0, wanted, program)
    }
}
";
    let found = beside("", &call.replace("{ more }", "{ program_result n }"));
    let names: Vec<&str> = found.programming.iter().map(|one| &*one.call).collect();
    assert!(names.contains(&"Size::program_by"), "{names:?}");
    assert_eq!(bytes(&found), 2_560);
    let line = below + 6;
    let problem = "Size::program_by programs P, and its contract does not say so";
    is_refused(
        &beside("", call),
        &format!("{PROGRAMMING}:{line}: {problem}"),
    );
    let inside = beside("", &call.replace("pub trait", "trait"));
    assert_eq!((bytes(&inside), inside.programming.len()), (2_560, 3));
}

#[test]
fn the_page_has_every_line() {
    let found = planted(&[]);
    let lines = found.lines();
    assert_eq!(
        lines
            .iter()
            .filter(|line| line.starts_with("mkd_permutation_program"))
            .count(),
        1
    );
    let page = format!("# Arrays\n{}\nEnd\n", lines.join("\n"));
    assert!(found.are_shown(&page));
    assert!(!found.are_shown(&page.replace("program_in 2560", "program_in 2561")));
    assert!(!found.are_shown(&page.replace(&format!("{}\n", lines[4]), "")));
    assert!(!found.are_shown(&page.replace("End", "").replace('\n', "")));
}

#[test]
fn calls_that_are_not_found_are_missed() {
    let (crates, mut files) = sources();
    for file in &mut files {
        for word in PROGRAMS_OF_P {
            file.text = file.text.replace(word, "result");
        }
        file.text = file.text.replace("#[unsafe(no_mangle)]", "");
    }
    let found = arrays(&crates, &files).problems;
    assert_eq!(
        found,
        [
            "crates.txt: no export was found",
            "crates.txt: no call that programs P was found"
        ]
    );
}

/// What a function `held` of a source holds, in the order in which it was found, or why it is not
/// known.
fn held_in(source: &str) -> String {
    let crates = listing::listed("one:\n");
    let files = [File {
        path: "crates/one/src/lib.rt".into(),
        text: source.into(),
    }];
    let library = match Library::read(&crates, &files) {
        Ok(library) => library,
        Err(problem) => return problem,
    };
    let all = library.instances_that(|function| function.name == "held");
    match held::holding(&library, all.first().expect("held is there")) {
        Err(failure) => library.located(0, failure),
        Ok(Holding { held, calls, .. }) => {
            let held = held.iter().map(|one| format!("{} {}", one.what, one.bytes));
            let calls = calls.iter().map(|at| library.function_name(at.function));
            held.chain(calls).collect::<Vec<String>>().join(", ")
        }
    }
}

const ITEMS: &str = "\
struct Two(u16, [u8; 2]);
enum Step { Pair(Two, [u8; 3]), None, Last([u8; 3]) }
impl Two {
    const LIST: [u8; 7] = [0; 7];
    fn zero() -> Self { Two(0, [0; 2]) }
    fn mixed(self, by: [u8; 4]) -> u8 { 0 }
    fn lent(&self) -> u8 { 0 }
}
fn step(n: u8) -> Step { Step::None }
fn take(list: [u8; 9]) -> bool { true }
";

#[test]
fn values_of_every_form_are_counted() {
    for (function, held) in [
        ("fn held(a: [u32; 2], mut b: Two, c: &[u8; 4]) {}", "a 8, b 2"),
        ("fn held() -> [u8; 5] { [0; 5] }", "the result 5"),
        ("fn held() -> [u8; 5] { let a = [1u8, 2, 3, 4, 5]; return a; }", "the result 5, a 5"),
        ("fn held() { let a = Two(0, [0; 2]); }", "a value in line 11 2, a 2"),
        ("fn held() { let a = Two::zero().1; }", "a value in line 11 2, a 2, Two::zero"),
        ("fn held(x: u8) { if take([x; 9]) {} }", "a value in line 11 9, take"),
        ("fn held(x: u8) { while take([x; 9]) {} }", "a value in line 11 9, take"),
        ("fn held(x: u8) -> u8 { Two::zero().mixed([x; 4]) }", "a value in line 11 2, a value in line 11 4, Two::zero, Two::mixed"),
        ("fn held(x: &Two) -> u8 { x.lent() }", "Two::lent"),
        ("fn held() -> u8 { Two::LIST[0] }", "a value in line 11 7"),
        ("fn held() { let a = *b\"abc\"; }", "a 3"),
        ("fn held(x: u8) { match step(x) { Step::Pair(a, b) => {} Step::None => {} } }", "a value in line 11 8, a 2, b 3, step"),
        ("fn held(x: u8) { if let Step::Pair(a, _) = step(x) {} }", "a value in line 11 8, a 2, step"),
        ("fn held(x: u8) { let Step::Pair(_, b) = step(x) else { return; }; }", "a value in line 11 8, b 3, step"),
        ("fn held(x: u8) { take(if x == 0 { [0; 9] } else { [1; 9] }); }", "a value in line 11 9, take"),
        ("fn held(x: u8) { let a = match x { 0 | 1 => [0u8; 2], 2..=9 => [1; 2], _ => [2; 2] }; }", "a 2"),
        ("fn held() { let a = loop { break [0u8; 6]; }; }", "a 6"),
        ("fn held() { for i in 0..4 { let a = [i; 0]; let b = [0u64; 2]; } }", "crates/one/src/lib.rt:11: the width of an array's elements is not written"),
        ("fn held() { for i in 0..4u32 { let a = [i; 2]; } }", "a 8"),
        ("fn held() { let a = [0u8; 2]; { let a = [0u16; 2]; } }", "a 2, a 4"),
        ("fn held() { let mut a = [0u8; 2]; a = [1; 2]; a[0] = 3; }", "a 2, a value in line 11 2"),
        ("fn held() { let a = [0f64; 2]; let b = [true, false]; let c = [1.5f32; 1]; }", "a 16, b 2, c 4"),
        ("fn held(n: u32) -> u32 { std::num::wrapping_add_u32(u32::count_ones(n), 1) }", ""),
        ("fn held(n: u64) -> usize { let mut a = [0u8; 20]; io::decimal(n, &mut a) }", "a 20"),
        ("fn held(file: &mut [u8]) -> usize { io::read_full(0, file) }", "io::read_full in line 11 8192"),
        ("fn held(n: u8) { n = [0u8; 0x1_0][n as usize]; }", "a value in line 11 16"),
        ("fn held<'a>(a: &'a mut [u8], b: &'a [u8; 2]) -> u8 { a.len() as u8 + -(b[1] as i8) as u8 }", ""),
        ("fn held(x: u8) { match step(x) { Step::Pair(_, b) | Step::Last(b) => {} Step::None => {} } }", "a value in line 11 8, b 3, b 3, step"),
        ("fn held(x: u8) { let Step::Last(_) = step(x) else { take([0; 9]); return; }; }", "a value in line 11 8, a value in line 11 9, step, take"),
        ("fn held() -> u8 { take([0; 9]) as u8 }", "a value in line 11 9, take"),
        ("fn held() -> bool { !take([0; 9]) }", "a value in line 11 9, take"),
        ("fn held() -> bool { take([0; 9]) == take([1; 9]) }", "a value in line 11 9, a value in line 11 9, take, take"),
        ("fn held(x: &[u8]) -> u8 { x[Two::zero().0 as usize] }", "a value in line 11 2, Two::zero"),
        ("fn held() -> u32 { u32::count_ones([1u32, 2][0]) }", "a value in line 11 8"),
        ("fn held() { let a = [Two::zero(), Two::zero()]; }", "a value in line 11 2, a value in line 11 2, a 8, Two::zero, Two::zero"),
        ("fn held() { let a = *&[0u8; 3]; }", "a value in line 11 3, a 3"),
        ("fn held() { for i in 0..[0usize; 2][0] {} }", "a value in line 11 16"),
        ("fn held(a: [u8; 3]) { a; *b\"ab\"; }", "a 3, a value in line 11 3, a value in line 11 2"),
        ("fn held() { let a = *b\"\\x41\\n\\\\\\\"\"; }", "a 4"),
        ("fn held() { let a = [0u8; 0b1_1]; let b = [0u8; 0o17u32]; }", "a 3, b 15"),
        ("fn held() { let a = if true { { return; }; } else { [0u8; 9] }; }", "a 9"),
        ("fn held() { let a = if true { loop { return; } } else { [0u8; 9] }; }", "a 9"),
        ("fn held(x: u8) { let a = match x { 0 => { match x { _ => return } } -1..=9 => [0u8; 9], _ => [1; 9] }; }", "a 9"),
        ("fn held() { let a = loop { while true { break; } break [0u8; 6]; }; }", "a 6"),
        ("fn held() { inner::<4>(); } fn inner<const N: usize>() { let a = [0u8; N]; }", "inner"),
        ("fn held() { inner(); } fn inner<const N: usize>() { let a = [0u8; N]; }", "crates/one/src/lib.rt:11: what a parameter stands for is not written"),
        ("fn held(x: &[u8]) { for (i, y) in x.iter().enumerate() { let a = [*y; 3]; } }", "a 3"),
        ("fn held(x: &[u8]) { for &y in x { let a = [y; 3]; } }", "a 3"),
        ("fn held(x: &[u8]) { x.iter().map(|y| [*y; 3]).count(); }", "a value in line 11 3, a value in line 11 3"),
        ("fn held(x: u8) -> Option<[u8; 3]> { Some([x; 3]) }", "the result 3"),
        ("fn held(x: u8) { let a = Some([x; 3]); }", "a 3"),
        ("fn held(x: u8) -> Result<[u8; 3], u8> { let a = made(x)?; Ok(a) } fn made(x: u8) -> Result<[u8; 3], u8> { Err(x) }", "the result 3, a 3, made"),
        ("fn held(x: u8) { let a = made(x).map(|b| b).unwrap(); } fn made(x: u8) -> Result<[u8; 3], u8> { Err(x) }", "a value in line 11 3, b 3, a value in line 11 3, a 3, made"),
        ("fn held(x: u8) { if let Some(a) = maybe(x) {} } fn maybe(x: u8) -> Option<[u8; 3]> { None }", "a value in line 11 3, a 3, maybe"),
        ("fn held() { let (a, b) = ([0u8; 2], 1u8); }", "a value in line 11 2, a value in line 11 2, a 2"),
        ("fn held() -> u8 { u8::from(Two::zero()) } impl From<Two> for u8 { ghost from_gives = { any }; fn from(two: Two) -> u8 { 0 } }", "a value in line 11 2, Two::zero, from"),
        ("fn held() -> u8 { lend(|i| [0u8; 3][i]) } fn lend<F: Fn(usize) -> u8>(f: F) -> u8 { f(0) }", "a value in line 11 3, lend"),
        ("fn held(x: u8) { x.to_le_bytes(); x.min(3).count_ones(); }", "a value in line 11 1"),
        ("fn held(x: &[u8]) { x.sort(); }", "crates/one/src/lib.rt:11: the method sort was not found"),
        ("fn held(x: One) {} type One = Other; type Other = One;", "crates/one/src/lib.rt:11: a type that stands for itself"),
        ("fn held() { let a = [0u8; ONE]; } const ONE: usize = 1 + ONE;", "crates/one/src/lib.rt:11: a constant that stands for itself"),
        ("fn held() {} type u64 = u8;", "crates/one/src/lib.rt:11: u64 is the name of a number's type"),
        ("fn held() {} use crate::Two as u16;", "crates/one/src/lib.rt:11: u16 is the name of a number's type"),
        ("fn held() {} use crate::zero; fn zero() {}", "crates/one/src/lib.rt:11: zero is declared twice here"),
    ] {
        assert_eq!(held_in(&format!("{ITEMS}{function}\n")), held, "{function}");
    }
}
