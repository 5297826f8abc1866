#!/usr/bin/env python3
"""Writes the numbers of lines into README.md's tables of the files of definitions, and the sums above them.

usage: python3 tools/count_lines.py      at the top of the repository
"""

import re

ROW = re.compile(r"\| `(crates/\w+/specs/\w+\.antt)` \| [\d,]* \|")
SUM = re.compile(r"[\d,]+ lines")
ORDER, INSIDE = "## Reading order", "## Inside the calls"


def main():
    with open("README.md", encoding="utf-8") as it:
        lines = it.read().split("\n")
    # Where each sum stands: that of a part, of the whole reading order, of what is inside the calls.
    sums, heading, part, order = {}, "", None, None
    for at, line in enumerate(lines):
        if line.startswith("## "):
            heading, part = line, None
        if heading not in (ORDER, INSIDE):
            continue
        row = ROW.match(line)
        if row:
            with open(row[1], "rb") as it:
                count = it.read().count(b"\n")
            lines[at] = ROW.sub(f"| `{row[1]}` | {count} |", line)
            for place in {part, order if heading == ORDER else part}:
                sums[place] = sums.get(place, 0) + count
        elif SUM.search(line):
            part = at
            order = at if heading == ORDER and order is None else order
    for at, sum in sums.items():
        lines[at] = SUM.sub(f"{sum:,} lines", lines[at], count=1)
    with open("README.md", "w", encoding="utf-8") as it:
        it.write("\n".join(lines))


if __name__ == "__main__":
    main()
