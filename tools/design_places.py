#!/usr/bin/env python3
"""Lists the places in src/ that docs/DESIGN-PASS.md counts, point by point, and how many there are.

    python3 tools/design_places.py [--places] [COMMIT]

Without COMMIT it reads the checkout. --places prints each place, and not the counts alone. A place is found by its text: what a pattern cannot see
(two functions alike in shape, a buffer whose length is elsewhere) stands in the page by name.
"""
import collections
import re
import subprocess
import sys


def sources(commit):
    """The path and the text of each file of src/."""
    if commit:
        listed = subprocess.run(["git", "ls-tree", "-r", "--name-only", commit, "crates"], capture_output=True, text=True, check=True).stdout
    else:
        listed = subprocess.run(["git", "ls-files", "crates"], capture_output=True, text=True, check=True).stdout
    for path in sorted(listed.split("\n")):
        if not re.fullmatch(r"crates/\w+/src/\w+\.rt", path):
            continue
        if commit:
            text = subprocess.run(["git", "show", f"{commit}:{path}"], capture_output=True, text=True, check=True).stdout
        else:
            with open(path, encoding="utf-8") as file:
                text = file.read()
        yield path, text


# What is looked for: the point, its name, the pattern.
LINES = [
    ("1", "own enums of Result's shape", r"(?s)\benum \w+ \{[^}]*\bRefused\([^}]*\}"),
    ("1", "structs of an answer beside its value", r"(?s)\bstruct \w+ \{\s*pub answer:[^}]*\}"),
    ("1", "refusals handed on by a match arm", r"Refused\((\w+)\) => (?:\w+::)?\w+\(\1\)|Err\((\w+)\) => Err\(\2\)|Refused\(\w+\) => \{\s*return|Refused\(\w+\) => \w*refuse\w*\("),
    ("1", "numbers for kinds", r"\bKIND_[XYG]: u16|\bkind: u16"),
    ("1", "a value that stands for none", r"const UNMARKED\b|// .*`count` where there is none"),
    ("2", "functions for a small size and a large one", r"\bfn \w+_(?:small|large)\("),
    ("2", "minimum, maximum, copying, widening of one's own", r"\bfn (?:smaller|larger|within|entries_within|wide|wide_byte|wire_of|entry_number|word_of|copy_wires|copy_front|copy_part|copy_entries|fill_bytes)\("),
    ("3", "loops by while and loop", r"(?m)^\s*(?:while|loop)\b"),
    ("4", "functions that only convert", r"\bfn (?:number|wide|wide_byte|wire_of|word_of|entry_number|differ)\("),
    ("6", "parallel lists", r"\b(?:firsts: &(?:mut )?\[u16\],\s*seconds|operands: &(?:mut )?\[u16\],\s*tables)"),
    ("7", "switches on which step to run", r"\bif [^{]*<= SMALL_PLACES|\bdrawn: bool|\bif kind == "),
]


def functions(text):
    """Each function's name and its parameters' names."""
    for found in re.finditer(r"\bfn (\w+)(?:<[^>(]*>)?\(([^)]*)\)", text):
        yield found.group(1), [part.split(":")[0].strip() for part in found.group(2).split(",") if ":" in part]


# Parameters that travel together.
TOGETHER = [("u", "k", "v"), ("hold", "intervals", "fresh", "start"), ("table", "program"), ("program", "start"), ("perm", "mark"), ("counts", "heads", "list"), ("evaluated", "ran"), ("text", "at")]


def main():
    arguments = sys.argv[1:]
    shown = "--places" in arguments
    commits = [argument for argument in arguments if argument != "--places"]
    read = list(sources(commits[0] if commits else None))
    for point, name, pattern in LINES:
        places = [f"{path}:{text.count(chr(10), 0, found.start()) + 1}" for path, text in read for found in re.finditer(pattern, text)]
        print(f"{point}  {len(places):3}  {name}")
        if shown:
            for place in places:
                print(f"          {place}")
    for names in TOGETHER:
        places = [f"{path}: {function}" for path, text in read for function, parameters in functions(text) if all(one in parameters for one in names)]
        print(f"5  {len(places):3}  functions with the parameters {', '.join(names)}")
        if shown:
            for place in places:
                print(f"          {place}")
    facts = collections.Counter(fact for _, text in read for fact in re.findall(r"requires (?:\w+ )?\{ (.*) \}", text))
    for fact, count in sorted(facts.items(), key=lambda pair: -pair[1]):
        if count >= 3:
            print(f"5  {count:3}  requires {fact}")
    return 0


sys.exit(main())
