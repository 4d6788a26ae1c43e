"""Sees that the files of the crates keep to the layout that the house asks for.

    python3 tests/docs/check_layout.py

No line of a .rt or .antt file is longer than 140 columns, and every must-fail edit begins with a line
`# ..` that says what a reader would lose. That rt would lay out nothing anew, `rt ci` sees itself.
"""

import glob
import os
import sys

TOP = os.path.join(os.path.dirname(os.path.abspath(__file__)), "..", "..")
LONGEST = 140


def read(path):
    with open(path, encoding="utf-8") as file:
        return file.read()


def found(pattern):
    """The files of that form, without those that rt makes in out/."""
    parts = [os.path.join("crates", "*", part, "**", pattern) for part in ("src", "specs", "proofs", "must-fail")]
    return sorted(path for part in parts for path in glob.glob(os.path.join(TOP, part), recursive=True))


def faults():
    for path in found("*.rt") + found("*.antt"):
        for number, line in enumerate(read(path).splitlines(), 1):
            if len(line) > LONGEST:
                yield "%s:%d: %d columns" % (os.path.relpath(path, TOP), number, len(line))
    for path in found("*.edit"):
        if not read(path).startswith("# "):
            yield "%s: no head" % os.path.relpath(path, TOP)


if __name__ == "__main__":
    wrong = list(faults())
    for fault in wrong:
        print(fault)
    if wrong:
        sys.exit(1)
    print("crates/: no line is longer than %d columns, every edit has its head" % LONGEST)
