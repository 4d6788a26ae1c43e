"""Says with which tools this is, and says so where the prover is not the one that docs/ASSURANCE.md records.

    python3 tests/docs/check_toolchain.py

The record is the line `Checked with `..`` of docs/ASSURANCE.md. Another toolchain may prove the tree as well,
so it is a warning and no failure; it is a failure if there is no record. The other tools are printed for the log.
"""

import os
import platform
import re
import subprocess
import sys

TOP = os.path.join(os.path.dirname(os.path.abspath(__file__)), "..", "..")
sys.path.insert(0, os.path.join(TOP, "tests", "model"))

import libcrypto  # noqa: E402


def first_line(*command):
    return subprocess.run(command, stdout=subprocess.PIPE, text=True, check=True).stdout.splitlines()[0]


def main():
    with open(os.path.join(TOP, "docs", "ASSURANCE.md"), encoding="utf-8") as file:
        record = re.search(r"^Checked with `([^`]+)`", file.read(), re.M)
    if not record:
        sys.exit("docs/ASSURANCE.md records no toolchain")
    found = first_line("rt", "version")
    print("rt: %s" % found)
    print("cc: %s" % first_line("cc", "--version"))
    print("cargo: %s" % first_line("cargo", "--version"))
    print("python: %s" % platform.python_version())
    print("libcrypto: %s" % libcrypto.version())
    if found == record.group(1):
        print("the prover is the one that docs/ASSURANCE.md records")
    else:
        print("WARNING: the prover is not the one that docs/ASSURANCE.md records, %s" % record.group(1))


if __name__ == "__main__":
    main()
