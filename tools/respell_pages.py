#!/usr/bin/env python3
"""Respells, in the pages of the repository, the names of definitions and lemmas as specs/ and proofs/ declare them today.

usage: python3 tools/respell_pages.py OLD [--show] [PAGE..]      at the top of the repository

OLD is a commit whose specs/ and proofs/ declare the names as the pages still have them. A name between backticks that is not declared today becomes the
one that is, with the same letters: dashes, underscores and capitals aside, but for the first letter's. Of several the one in the same file counts, and
of those left the one with a dash where the old name has one. With no PAGE: README.md, docs/, plans/, include/ and the comments of host/. Of a must-fail edit
that is given the comments are read, and what they say is refused. --show writes nothing.
"""

import collections
import glob
import os
import re
import subprocess
import sys

NAME = r"[^\s(){}.;,@\"«»\[\]`]+"
DECLARED = re.compile(rf"(?m)^ *(?:(?:pub|abbrev|unfoldable|opaque|data|record|ruleset) +)*({NAME})(?:(?: +\{{[^{{}}\n]*\}}| +\([^()\n]*\))*) :(?=\s|$)")
HEADS = re.compile(rf"(?m)^ *(?:(?:pub|abbrev|unfoldable) +)*(?:data|record) +({NAME})")
WORD = re.compile(r"[^\W\d][\w'′-]*[\w'′]")


def declared(text):
    text = re.sub(r"(?m)(?<![^\s(){};,])-- .*$|^--.*$", "", text)
    return {*DECLARED.findall(text), *HEADS.findall(text)}


def is_antt(path):
    return path.endswith(".antt") and re.match(r"crates/\w+/(specs|proofs)/", path)


def of_commit(commit):
    """The names that the commit's files declare, each with its files."""
    listed = subprocess.run(["git", "ls-tree", "-r", "--name-only", commit, "crates"], check=True, capture_output=True, text=True)
    found = collections.defaultdict(set)
    for path in filter(is_antt, listed.stdout.splitlines()):
        shown = subprocess.run(["git", "show", f"{commit}:{path}"], check=True, capture_output=True, text=True)
        for name in declared(shown.stdout):
            found[name].add(path)
    return found


def of_now():
    found = collections.defaultdict(set)
    for path in filter(is_antt, glob.glob("crates/**/*.antt", recursive=True)):
        with open(path, encoding="utf-8") as it:
            for name in declared(it.read()):
                found[name].add(path)
    return found


def letters(name):
    """What two spellings of one name have in common."""
    name = name.replace("getD", "get_or").replace("′", "'")
    return name[0].isupper(), re.sub("[-_]", "", name).lower()


def table(old, now):
    """Returns what gives today's spelling of a name, or the name itself."""
    alike = collections.defaultdict(list)
    for name in now:
        alike[letters(name)].append(name)
        # (a lemma that would have met a definition's name has this ending)
        if name.endswith("_lem"):
            alike[letters(name.removesuffix("_lem"))].append(name)

    def spelled(name):
        found = alike.get(letters(name), []) if name not in now else []
        if len(found) > 1:
            found = [it for it in found if now[it] & old.get(name, set())] or found
        if len(found) > 1:
            found = [it for it in found if ("-" in it) == ("-" in name)] or found
        if len(found) > 1 and name in old:
            print(f"{name}: {', '.join(sorted(found))}", file=sys.stderr)
        # (a plain word of another kind may have the same letters)
        is_ours = name in old or "-" in name or re.search("[a-z][A-Z]", name)
        return found[0] if len(found) == 1 and is_ours else name

    return spelled


# How a comment begins, where a page has more than text.
COMMENTS = {".rs": r"\s*//", ".edit": "# "}


def turned(text, spelled, comment):
    """The page with the names between its backticks respelled, code blocks aside; where a comment's beginning is given, of comments alone."""
    lines, fenced = [], False
    for line in text.split("\n"):
        fenced ^= line.startswith("```")
        if fenced or comment and not re.match(comment, line):
            lines.append(line)
            continue
        line = re.sub(r"\A# refused: ([^\s,:]+)", lambda it: f"# refused: {spelled(it[1])}", line)
        parts = line.split("`")
        for at in range(1, len(parts), 2):
            # (a file's path is no name)
            if "/" not in parts[at]:
                parts[at] = WORD.sub(lambda it: spelled(it[0]), parts[at])
        lines.append("`".join(parts))
    return "\n".join(lines)


def pages():
    found = ["README.md", *glob.glob("docs/*.md"), *glob.glob("docs/changes/*.md"), *glob.glob("plans/*.md"), *glob.glob("include/*")]
    return found + [it for it in glob.glob("host/**/*.rs", recursive=True) if "/target/" not in it]


def main(words):
    shows = "--show" in words
    words = [it for it in words if it != "--show"]
    if not words:
        sys.exit(__doc__.strip())
    spelled = table(of_commit(words[0]), of_now())
    for page in sorted(words[1:] or pages()):
        with open(page, encoding="utf-8") as it:
            text = it.read()
        new = turned(text, spelled, COMMENTS.get(os.path.splitext(page)[1]))
        if new == text:
            continue
        print(page)
        if shows:
            changed = [(a, b) for a, b in zip(text.split("\n"), new.split("\n")) if a != b]
            pairs = {(x, y) for a, b in changed for x, y in zip(WORD.findall(a), WORD.findall(b)) if x != y}
            print("".join(f"  {a}  {b}\n" for a, b in sorted(pairs)), end="")
        else:
            with open(page, "w", encoding="utf-8") as it:
                it.write(new)


if __name__ == "__main__":
    main(sys.argv[1:])
