#!/usr/bin/env python3
"""Writes what the prover says of each wrong version into the comment of its edit, and the facts of the comments into the page of idle versions.

usage: host/target/release/check_refusals --quote . [CRATE..] | python3 tools/quote_refusals.py      at the top of the repository

A comment `# refused: FUNCTION, `GOAL`: "FACT"` stays where the prover still says its fact of that goal; else goal and fact are written anew: of all that the
logs in target/must-fail say of the function, what tells most, the two texts that differ before a goal that is left. A fact that shows no text, as `...` or
one that is cut before it, was never said. The paths of modules before a name are left out.

Of each row of docs/DECISIONS.md, "The idle versions", the last column has the facts of all versions that the row names, each cut shorter.
"""

import glob
import os
import re
import sys

PAGE = "docs/DECISIONS.md"
SECTION = "## The idle versions"
LOGS = "target/must-fail"
HEAD = re.compile(r"(crates/\w+/must-fail/\w+\.edit): (\w+): (\S+)$")
FACT = re.compile(r'# refused: (\S+?):?(?:, (?:`([^`]+)`: )?"(.*)"(.*))?$')
LONG, HALF, SHORT = 260, 80, 140

# a path of modules before a name
MODULES = re.compile(r"\b(?:Rattle|Prim|mathlib|lib|borrow|mir|denote|native)\.(?:[\w+-]+\.)*(?=[\w◌\[])")
# what begins a message of the prover: a place, a function or a note
BEGINS = re.compile(r"\S+:\d+:\d+: |fn |struct |note: |help: |\w+ \S+: ")
DIFFER = re.compile(r"the two (?:types|sides) (?:first )?differ(?: only)? where .*? \((?:found|right)\)")
TEXTS = re.compile(r"`([^`]*)` \((expected|left|found|right)\)")
ARE = re.compile(r"expected type `([^`]*)`,? (?:(but this has type)|.*? (the found one begins)) `([^`]*)`")
LEFT = re.compile(r"what it leaves must be a path whose two ends are equal, and `[^`]*` is none")
HOLDS = re.compile(r"`[^`]*` ≟ `[^`]*` does not hold")
FAILS = re.compile(r"(?:`omega`: )?the goal does not follow from what it read\. All of that holds, and the goal fails, at .*?(?= It read \d|$)")
PREMISE = re.compile(r"no proof was found of its premise `[^`]*`")
# a text that has a value, and is no type or name of a function alone
VALUE = re.compile(r"\w\.\w|\d|^\.|\brecord\b|\btrue\b|\bfalse\b")
TYPE = re.compile(r"(?:[({] ?)*(?:A = |0}|tt\b|ℕ|List\b|Path\b|◌≡◌|rt_f|at_exit|.*Denot)")


def plain(text):
    return MODULES.sub("", " ".join(text.split()))


def messages(lines):
    """What the prover says, message by message, each on one line."""
    found = []
    for line in lines:
        if BEGINS.match(line) or not found:
            found.append([])
        found[-1].append(line)
    return [plain(" ".join(one)) for one in found]


def of_goal(message, name):
    """The goal that a message of a function's proof, or of a law, refuses, with what it says."""
    name = name.split("::")[-1]
    note = re.match(r"note: `([^`]+)` of (\S+)/\w+\.antt (must prove: |may be false: )(.*)", message)
    if note and note[2].split("/")[-1].lstrip("+") == name:
        return note[1], re.sub(r" names you can use\b.*|: help: .*", "", note[3] + note[4])
    error = re.match(r"(\S+?)/(\w+)\.antt:\d+:\d+: error: `([^`]+)`: (.*)", message)
    if error and re.match(r"\d* ?declarations? ", error[4]) is None:
        is_own = error[1].split("/")[-1].lstrip("+") == name or error[3] == name
        return (error[3], error[4]) if is_own else None
    return None


def ranked(goal, text):
    """What a message says that shows the fact, the best first, each with its rank."""
    found = []
    for said in DIFFER.findall(text):
        rank, size = 0 if len(said) <= LONG else 2, len(said)
        if rank:
            said = TEXTS.sub(lambda it: f"`{cut(it[1], HALF)}` ({it[2]})", said)
        found.append((rank if shows(said) else 4, size, said))
    if text.startswith(("must prove: ", "may be false: ")):
        found.append((1 if text.startswith("must") else 2, 0, text))
    for rank, form in ((1, LEFT), (1, HOLDS), (2, FAILS), (3, PREMISE)):
        found.extend((rank, len(said), said) for said in form.findall(text))
    for types in ARE.finditer(text):
        found.append((3, len(types[0]), apart(types)))
    found.append((5, 0, text))
    return [(rank, size, goal, said) for rank, size, said in found]


def apart(types):
    """An expected and a found type, from where they differ on."""
    if len(types[0]) <= LONG:
        return types[0]
    one, two = types[1].split(), types[4].split()
    same = 0
    while one[same : same + 1] == two[same : same + 1] != []:
        same += 1
    start = max(same - 2, 0)
    shown = [cut(" ".join(words[start:]), HALF) for words in (one, two)]
    before = ".. " if start else ""
    return f"expected type `{before}{shown[0]}` .. {types[2] or types[3]} `{before}{shown[1]}`"


def shows(fact):
    """Whether a fact has a text of the prover's and is not cut before it, of two that differ both."""
    if re.search(r"the two \w+ (?:first )?differ", fact):
        texts = [one for one, _ in TEXTS.findall(plain(fact))[:2] if VALUE.search(one) and not TYPE.match(one)]
        return len(texts) == 2
    return bool(re.search("must prove: |fails, at `[^`]+`\\s+= ", fact)) or any(VALUE.search(one) for one in re.findall(r"`([^`]+)`", fact))


def parts(fact):
    """The texts of a fact between its cuts."""
    return [part for part in (part.strip("` .") for part in plain(fact).split("..")) if part]


def cut(fact, most):
    if len(fact) <= most:
        return fact
    fact = fact[:most].rsplit(" ", 1)[0]
    return fact + (" ..`" if fact.count("`") % 2 else "") + " .."


def read():
    """What is said of each version: its file and label, with the lines."""
    found, at = {}, None
    for line in sys.stdin.read().split("\n"):
        head = HEAD.match(line)
        if head:
            at = (head[1], head[2])
            found[at] = (head[3], [])
        elif at and line.startswith("  "):
            found[at][1].append(line.strip())
    return found


def said_of(path, name, lines):
    """The goals of a version's function, with all that is said of each."""
    place = path.split("/")
    log = f"{LOGS}/{place[1]}/{os.path.splitext(place[3])[0]}.log"
    if os.path.exists(log):
        with open(log, encoding="utf-8") as file:
            lines = lines + file.read().split("\n")
    return [said for said in (of_goal(one, name) for one in messages(lines)) if said]


def written(path, label, name, lines, old):
    """The comment's line of a version, or None where the old one stays."""
    said = said_of(path, name, lines)
    goal, fact, more = old and (old[2], old[3] or "", old[4] or "") or (None, "", "")
    for one, text in said:
        if one == goal and shows(fact) and all(part in text for part in parts(fact)):
            return None
    best = sorted((rank, i, size, one, text) for i, message in enumerate(said) for rank, size, one, text in ranked(*message))
    if not best:
        print(f"{path}: {label}: nothing was said")
        return None
    _, _, _, goal, fact = best[0]
    return f'# refused: {name}, `{goal}`: "{cut(fact, LONG)}"{more}'


def versions():
    """The comment of each version, and its place in its file."""
    found = {}
    for path in sorted(glob.glob("crates/*/must-fail/*.edit")):
        with open(path, encoding="utf-8") as file:
            label = None
            for i, line in enumerate(file):
                begins = re.match(r"# (\w+): ", line)
                if begins and begins[1] != "refused":
                    label = begins[1]
                if line.startswith("# refused: "):
                    found[path, label] = (i, line.rstrip("\n"))
    return found


def write_comments(quoted):
    anew = 0
    for (path, label), (i, line) in versions().items():
        if (path, label) not in quoted:
            continue
        name, lines = quoted[path, label]
        new = written(path, label, name, lines, FACT.match(line))
        if new:
            with open(path, encoding="utf-8") as file:
                text = file.read().split("\n")
            text[i] = new
            with open(path, "w", encoding="utf-8") as file:
                file.write("\n".join(text))
            anew += 1
    return anew


def write_page():
    """The last column of every row of the idle versions, of the comments of the versions that it names."""
    comments = {f"{path.split('/')[1]}/{label}": line for (path, label), (_, line) in versions().items()}
    with open(PAGE, encoding="utf-8") as file:
        text = file.read()
    head, rest = text.split(f"\n{SECTION}\n", 1)
    section, after = rest.split("\n## ", 1)
    lines, rows = section.split("\n"), 0
    for i, line in enumerate(lines):
        cells = re.split(r"(?<!\\)\|", line)
        if len(cells) != 5:
            continue
        facts = []
        for name in re.findall(r"`(\w+/\w+)`", cells[2]):
            found = FACT.match(comments.get(name, ""))
            if not found:
                print(f"{PAGE}: {name}: no comment")
                continue
            goal = f", `{found[2]}`" if found[2] else ""
            fact = f': "{cut(found[3], SHORT)}"' if found[3] else ""
            facts.append(f"{found[1]}{goal}{fact}".replace("|", "\\|"))
        if facts:
            cells[3] = f" {'; '.join(facts)} "
            lines[i] = "|".join(cells)
            rows += 1
    with open(PAGE, "w", encoding="utf-8") as file:
        file.write(head + f"\n{SECTION}\n" + "\n".join(lines) + "\n## " + after)
    return rows


def main():
    quoted = read()
    anew = write_comments(quoted)
    rows = write_page()
    print(f"{len(quoted)} versions, {anew} facts written anew, {rows} rows")


main()
