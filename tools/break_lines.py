#!/usr/bin/env python3
"""Breaks the lines of .antt files, and comments of .rt files, that are longer than 140 columns.

usage: python3 tools/break_lines.py [CRATE..]     in the repository: rewrites crates/ in place, and prints which lines it broke

Names in snake case are longer than the old ones were. A line goes on where the next is set in further, so only the layout changes.
"""

import glob
import os
import re
import sys

LONGEST = 140
# Where a line may be broken, before which sign; the first kind that leaves a long enough front is taken.
SIGNS = [" → ", " ≡ ", " ∙ ", " ++ ", " ∷ ", " × ", " ⊕ "]


def depths(line):
    """Of each place, how many brackets are open."""
    depth, out = 0, []
    for sign in line:
        if sign in ")]}":
            depth -= 1
        out.append(depth)
        if sign in "([{":
            depth += 1
    return out


def broken(line):
    margin = re.match(r" *", line).group(0)
    if line.lstrip().startswith(("--", "//")):
        mark = margin + line.lstrip()[:2] + " "
        at = line.rindex(" ", 0, LONGEST + 1)
        return [line[:at], mark + line[at + 1 :]]
    goes_on = margin + "    "
    if line.startswith("use "):
        head, names = line.split(".{")
        names = names.rstrip("}").split(", ")
        half = len(names) // 2 + 1
        return ["%s.{%s}" % (head, ", ".join(names[:half])), "%s.{%s}" % (head, ", ".join(names[half:]))]
    if re.match(r" *unfolding ", line):
        at = line.rindex(" ", 0, LONGEST + 1)
        return [line[:at], goes_on + line[at + 1 :]]
    if re.fullmatch(r" +[a-z0-9_' ]+", line):
        at = line.rindex(" ", 0, LONGEST + 1)
        return [line[:at], margin + line[at + 1 :]]
    deep = depths(line)
    # a place is the better the fewer brackets are open there, then by its sign, then the further on
    places = []
    for kind, sign in enumerate(SIGNS):
        for found in re.finditer(re.escape(sign), line):
            if len(margin) + 40 <= found.start() <= LONGEST:
                places.append((deep[found.start()], kind, -found.start()))
    ends = re.search(r" = ", line)
    if ends and deep[ends.start()] == 0 and 20 < ends.start() and len(goes_on) + len(line) - ends.end() <= LONGEST:
        return [line[: ends.start()] + " =", goes_on + line[ends.end() :]]
    if places:
        at = -min(places)[2]
        return [line[:at], goes_on + line[at + 1 :]]
    places = [(deep[found.start()], -found.start()) for found in re.finditer(" ", line) if len(margin) + 40 <= found.start() <= LONGEST]
    at = -min(places)[1]
    return [line[:at], goes_on + line[at + 1 :]]


def main(names):
    for path in sorted(glob.glob("crates/*/*/**/*", recursive=True)):
        parts = path.split(os.sep)
        if parts[2] not in ("src", "specs", "proofs") or not path.endswith((".rt", ".antt")) or names and parts[1] not in names:
            continue
        with open(path, encoding="utf-8") as file:
            lines = file.read().split("\n")
        out = []
        for number, line in enumerate(lines, 1):
            while len(line) > LONGEST and (path.endswith(".antt") or line.lstrip().startswith("//")):
                print("%s:%d" % (path, number))
                first, line = broken(line)
                out.append(first)
            out.append(line)
        if out != lines:
            with open(path, "w", encoding="utf-8") as file:
                file.write("\n".join(out))


if __name__ == "__main__":
    main(sys.argv[1:])
