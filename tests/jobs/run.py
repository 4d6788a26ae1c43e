"""Runs the program `jobs` on each stored case, from a file and through a slow pipe.

    python3 tests/jobs/run.py target/bin/jobs

A case is a folder with `stdin`, the expected `stdout` and, unless the case is that it is missing,
`key.bin`; `tag.bin` is there where there is a tag key. tests/model/stored.py made them. The last line
is a count, or says which differ.
"""

import os
import sys

HERE = os.path.dirname(os.path.abspath(__file__))
sys.path.insert(0, os.path.join(HERE, "..", "model"))

from program import Program, Written  # noqa: E402


def content(case, name):
    path = os.path.join(HERE, case, name)
    if not os.path.exists(path):
        return None
    with open(path, "rb") as file:
        return file.read()


def main():
    if len(sys.argv) != 2:
        sys.exit("usage: python3 tests/jobs/run.py PROGRAM")
    cases = sorted(e.name for e in os.scandir(HERE) if os.path.exists(os.path.join(e.path, "stdin")))
    if not cases:
        sys.exit("jobs: no stored cases")
    differ = []
    with Program(sys.argv[1]) as program:
        for case in cases:
            files = {name: content(case, name) for name in ("key.bin", "tag.bin")}
            archive = content(case, "stdin")
            expected = Written(content(case, "stdout"), b"", 0)
            # small pieces, and yet not many thousands of them
            piece = max(1, len(archive) // 100)
            ways = {
                "from a file": program.from_file(files, archive),
                "through a slow pipe": program.from_pipe(files, archive, piece),
            }
            for way, written in ways.items():
                print("%s, %s: %s" % (case, way, "ok" if written == expected else "DIFFERS"))
                if written != expected:
                    print("  expected %s\n  written  %s" % (expected, written))
                    differ.append(case)
    sys.stdout.flush()
    if differ:
        sys.exit("jobs: differ: %s" % " ".join(sorted(set(differ))))
    print("jobs: %d stored cases agree" % len(cases))


if __name__ == "__main__":
    main()
