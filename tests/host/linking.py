"""Runs the commands of docs/LINKING.md, and the calls that include/aria.h speaks of, from C and C++.

    python3 tests/host/linking.py

It needs target/staticlib/libaria.a, which `tools/build.sh aria_c` writes, and a C compiler. What needs
pkg-config or a C++ compiler is left out where that is missing, and the last line says so. It writes
below target/ alone.
"""

import os
import re
import shutil
import subprocess
import sys

TOP = os.path.abspath(os.path.join(os.path.dirname(os.path.abspath(__file__)), "..", ".."))
# from the top folder, so that a checkout may lie in a folder whose name has spaces
PREFIX = "target/prefix"
# A block of commands, and the block after it that says what they print.
BLOCKS = re.compile(r"^( *)```sh\n(.*?)^ *```\n(?:\n^ *```text\n(.*?)^ *```\n)?", re.M | re.S)
WARNINGS = ["-Wall", "-Wextra", "-Werror", "-pedantic"]
LIBRARIES = {
    "libaria.a": ["target/staticlib/libaria.a"],
    "libaria.so.0": ["-Ltarget/shared", "-laria", "-Wl,-rpath,target/shared"],
}
LANGUAGES = {"C99": ["cc", "-std=c99"], "C++11": ["c++", "-std=c++11", "-x", "c++"]}


def run(command):
    """What the command prints; it ends the test where it fails or complains."""
    done = subprocess.run(command, cwd=TOP, env={**os.environ, "PREFIX": PREFIX, "LC_ALL": "C"}, capture_output=True, text=True)
    if done.returncode or done.stderr:
        sys.exit("%s\nexit status %d\n%s%s" % (command[-1], done.returncode, done.stdout, done.stderr))
    return done.stdout


def lines(text):
    return [line.strip() for line in text.splitlines()]


def run_document(missing):
    """How many blocks of commands ran; those that need a missing tool are left out."""
    with open(os.path.join(TOP, "docs", "LINKING.md"), encoding="utf-8") as file:
        text = file.read()
    blocks = BLOCKS.findall(text)
    kinds = re.findall(r"^ *(?:```|~~~)(.*)$", text, re.M)[::2]
    if sorted(kinds) != sorted(["sh"] * len(blocks) + ["text"] * sum(1 for block in blocks if block[2])) or not blocks:
        sys.exit("docs/LINKING.md has a block that is neither commands nor, straight after them, what they print")
    ran = 0
    for _, commands, expected in blocks:
        if any(tool in commands for tool in missing):
            continue
        printed = run(["bash", "-euo", "pipefail", "-c", commands])
        if lines(printed) != lines(expected):
            sys.exit("%sprints\n%snot\n%s" % (commands, printed, expected))
        ran += 1
    return ran, len(blocks)


def run_calls(missing):
    """The languages in which tests/host/calls.c passed, with each library."""
    passed = [name for name, compiler in LANGUAGES.items() if compiler[0] not in missing]
    for language in passed:
        for library, words in LIBRARIES.items():
            source = WARNINGS + ["-Iinclude", "tests/host/calls.c", "-x", "none"]
            run(LANGUAGES[language] + source + words + ["-o", "target/calls"])
            print("calls.c, %s, %s: %s" % (language, library, run(["target/calls"]).strip()))
    return passed


def files():
    """The files of the tree, without those that builds write."""
    for folder, below, names in os.walk(TOP):
        below[:] = [name for name in below if name not in ("target", ".git", "__pycache__")]
        yield from (os.path.join(folder, name) for name in names)


def main():
    if not os.path.isfile(os.path.join(TOP, "target", "staticlib", "libaria.a")):
        sys.exit("target/staticlib/libaria.a is missing: run `tools/build.sh aria_c` at the repository's top first")
    missing = [tool for tool in ("pkg-config", "c++") if not shutil.which(tool)]
    before = set(files())
    shutil.rmtree(os.path.join(TOP, PREFIX), ignore_errors=True)
    ran, known = run_document(missing)
    languages = run_calls(missing)
    left = set(files()) - before
    if left:
        sys.exit("left outside target/: %s" % " ".join(sorted(left)))
    print("docs/LINKING.md: %d of its %d blocks of commands did what it says; calls.c passed in %s with %s%s"
          % (ran, known, " and ".join(languages), " and ".join(LIBRARIES),
             "; missing here: " + ", ".join(missing) if missing else ""))


if __name__ == "__main__":
    main()
