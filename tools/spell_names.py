#!/usr/bin/env python3
"""Respells the names that the repository's own specs/ and proofs/ declare: values, lemmas and fields in snake case, types in camel case.

usage: python3 tools/spell_names.py [--show]     at the top of the repository, right after port.py

A dash stays where it joins two names of definitions, as in length-list_of, or a type and a name; a plain word is joined by an underscore.
Names of src/ and names that Rattle makes keep their spelling. --show lists the respelled names and writes nothing.
Where two names would fall together in a file, the row of APART gives the name instead.
"""

import collections
import glob
import os
import re
import sys

WORD = r"[^\s(){}.;,@\"«»\[\]`]+"
DECLARED = re.compile(rf"(?m)^( *)((?:(?:pub|abbrev|unfoldable|data|record|ruleset) +)*)({WORD})((?: +\{{[^{{}}\n]*\}}| +\([^()\n]*\))*) :(?=\s)(.*)$")
HEADS = re.compile(rf"(?m)^ *(?:pub +)?(?:data|record) +({WORD})")
CONSTRUCTOR = re.compile(rf"(?m)^  +(?:pub +)?({WORD}) :(?=\s)")
# words of the library that a lemma's name may join by a dash
LIBRARY = set("length get_or set take drop map append reverse min max sum mod div pow mul add sub eqb leb ltb cond suc zero min".split())
# names of the library as older proofs spell them inside names of their own
RESPELLED = {"getD": "get_or", "listOf": "list_of", "countOf": "count_of"}
# where the plain spelling would meet another name
APART = {"newGate": "renumbered_at"}


def files():
    found = []
    for c in sorted(glob.glob("crates/*")):
        for part in ("specs", "proofs"):
            found += sorted(glob.glob(f"{c}/{part}/**/*.antt", recursive=True))
    return found


def without_comments(text):
    return re.sub(r"(?m)(?<![^\s(){};,])-- .*$|^--.*$", "", text)


def snake(word):
    if word in RESPELLED:
        return RESPELLED[word]
    word = re.sub(r"getD(?![a-z])", "get_or", word)
    if not re.search(r"[a-z]", word):
        return word
    return re.sub(r"(?<=[a-z0-9₀-₉])([A-Z])(?![A-Z])", lambda m: "_" + m[1].lower(), word) if word[0].islower() else word


def spelled(name, known):
    if name in APART:
        return APART[name]
    parts = [snake(p) for p in name.split("-")]
    if parts[-1:] == ["spec"] and len(parts) > 1:
        return "_".join(parts)
    out = parts[0]
    for i, p in enumerate(parts[1:], 1):
        before = parts[i - 1]
        # the longest run of earlier parts that is a name
        left = re.split(r"-", out)[-1]
        joins = p and before and ((left in known and p in known) or (i == 1 and out[:1].isupper()) or (len(p) <= 2 and p[:1].isupper()))
        out += ("-" if joins else "_") + p
    return out


def declared():
    names, kinds = collections.defaultdict(set), {}
    for f in files():
        text = without_comments(open(f, encoding="utf-8").read())
        for m in DECLARED.finditer(text):
            names[m[3]].add(f)
            kinds.setdefault(m[3], m[5].strip())
        for m in CONSTRUCTOR.finditer(text):
            names[m[1]].add(f)
        for m in HEADS.finditer(text):
            names[m[1]].add(f)
    return names, kinds


def table():
    names, kinds = declared()
    plain = {snake(n) for n in names if "-" not in n}
    known = plain | LIBRARY
    out = {}
    for n in names:
        if not re.search(r"[A-Za-z]", n) or "◌" in n:
            continue
        out[n] = spelled(n, known)
    # where a lemma would have a definition's name, it gets _lem
    meeting = collections.defaultdict(list)
    for n, new in out.items():
        meeting[new].append(n)
    for new, olds in meeting.items():
        definitions = [n for n in olds if re.search(r"[a-z0-9][A-Z]", n) and "-" not in n] or [n for n in olds if n == new]
        if len(olds) > 1:
            for n in olds:
                if n not in definitions[:1]:
                    out[n] = new + "_lem"
    return {old: new for old, new in out.items() if new != old}, names, kinds


OF_LIBRARY = re.compile(r"(?m)^ *(?:ghost )?(?:unfoldable )?(?:pub )?use ([^\s{;]+)\.\{([^}]*)\}")


def kept(text, crates):
    """The names that a file imports from a library, which keep the library's spelling."""
    found = set()
    for path, items in OF_LIBRARY.findall(text):
        steps = path.split(".")
        if not (steps[0] == "Rattle" and len(steps) > 1 and steps[1] in crates):
            found.update(re.findall(WORD, items))
    return found


# A name right after a dot is a field: it turns only where specs/ or proofs/ declare it as one.
def turned(text, rows, fields):
    def one(m):
        word = m[0]
        bare = word.rstrip("'")
        if word not in rows and bare not in rows:
            return word
        at = m.start()
        if at and text[at - 1] == "." and bare not in fields:
            return word
        return rows[word] if word in rows else rows[bare] + word[len(bare):]

    return re.sub(WORD, one, text)


CLAUSE = re.compile(r"(?:requires|ensures)\*?\s*(?:\w+\s*)?\{|ghost\s+(?:\w+\s*(?::\s*|=\s*)?)\{|ghost use [^;]*;")


def turned_rt(text, rows, fields):
    out, at = [], 0
    for m in CLAUSE.finditer(text):
        if m.start() < at:
            continue
        end = m.end()
        if not m[0].startswith("ghost use"):
            depth = 1
            while depth:
                depth += {"{": 1, "}": -1}.get(text[end], 0)
                end += 1
        out += [text[at:m.start()], turned(text[m.start():end], rows, fields)]
        at = end
    return "".join(out) + text[at:]


def main():
    rows, names, kinds = table()
    fields = set()
    for f in files():
        text = without_comments(open(f, encoding="utf-8").read())
        for m in re.finditer(rf"(?m)^  +pub ({WORD}) :(?=\s)", text):
            fields.add(m[1])
    crates = set(os.listdir("crates"))
    if "--show" in sys.argv:
        for old in sorted(rows):
            print(f"{old}\t{rows[old]}\t{kinds.get(old, '')[:60]}")
        return
    for f in files():
        with open(f, encoding="utf-8") as it:
            text = it.read()
        out = kept(text, crates)
        new = turned(text, {old: to for old, to in rows.items() if old not in out}, fields)
        if new != text:
            with open(f, "w", encoding="utf-8") as it:
                it.write(new)
    for f in sorted(glob.glob("crates/*/src/**/*.rt", recursive=True)):
        with open(f, encoding="utf-8") as it:
            text = it.read()
        new = turned_rt(text, rows, fields)
        if new != text:
            with open(f, "w", encoding="utf-8") as it:
                it.write(new)


if __name__ == "__main__":
    main()
