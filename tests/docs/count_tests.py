"""Counts the tests, for docs/TESTING.md.

    python3 tests/docs/count_tests.py                  prints the table of figures
    python3 tests/docs/count_tests.py --write FILE     puts it between the two marks of FILE
    python3 tests/docs/count_tests.py --check FILE     sees that it stands there

Nothing is run but the model's making of archives.
"""

import argparse
import glob
import importlib.util
import os
import re
import sys

TOP = os.path.normpath(os.path.join(os.path.dirname(os.path.abspath(__file__)), "..", ".."))
sys.path.insert(0, os.path.join(TOP, "tests", "model"))

import archive  # noqa: E402
import cases  # noqa: E402
import dropping  # noqa: E402
import previewing  # noqa: E402
import ranges  # noqa: E402
import run  # noqa: E402
import sealing  # noqa: E402
import sheets  # noqa: E402

BEGIN = "<!-- figures: counted by tests/docs/count_tests.py -->\n"
END = "<!-- figures: end -->\n"


def read(path):
    with open(os.path.join(TOP, path), encoding="utf-8") as file:
        return file.read()


def found(pattern):
    return sorted(glob.glob(os.path.join(TOP, pattern), recursive=True))


def count(line, pattern):
    """How many lines match, in all files of a pattern."""
    return sum(len(re.findall(line, read(path), re.M)) for path in found(pattern))


def programs():
    """tests/programs/run.py, under a name of its own: the model has a run.py too."""
    spec = importlib.util.spec_from_file_location("programs", os.path.join(TOP, "tests", "programs", "run.py"))
    module = importlib.util.module_from_spec(spec)
    spec.loader.exec_module(module)
    return module


def figures():
    edits = found("crates/*/must-fail/*.edit")
    of_definitions = [path for path in edits if re.search(r"^file: specs/", read(path), re.M)]
    yield "crates", count(r"^\w+( \w+)*:", "crates.txt")
    yield "functions", count(r'^ *(?:pub )?(?:extern "C" )?fn ', "crates/*/src/*.rt")
    written = [path for part in ("Proof", "Invariants", "Answers") for path in found("crates/*/proofs/*/**/%s.antt" % part)]
    yield "of these proved by files of their own", len({os.path.dirname(path) for path in written})
    yield "must-fail edits", len(edits)
    yield "of these with a changed definition", len(of_definitions)
    yield "crates with edits", len({os.path.dirname(path) for path in edits})
    for program in ("vectors", "known_answers"):
        yield "lines that `%s` is to print" % program, count("^.", "crates/%s/stdout" % program)
    yield "stored cases of `jobs`", len(found("tests/jobs/*/stdin"))
    made, changed = list(cases.made()), [*cases.changes(), *cases.tagged_changes()]
    chosen = list(cases.random_changes(0, run.RANDOM_CASES))
    yield "archives of the model made for one answer", len(made)
    yield "archives of the model with one byte changed", len(changed)
    yield "random archives of the model", len(chosen)
    yield "distinct ones among all these", len({case.file for case in made + changed + chosen})
    yield "archives of layout 2 among all these", sum(case.file[:1] == b"\2" for case in made + changed + chosen)
    asked = [words for _, words in run.asked_of_open(made + changed + chosen)] + [words for _, _, words in run.asked_slowly()]
    yield "runs of `jobs` by the model", len(made + changed + chosen) + len(run.SLOW)
    yield "runs of `open` by the model, with the random archives of seed 0", len(asked)
    yield "of these with a range", sum(len(words) > 1 for words in asked)
    to_seal, altered = list(sheets.made()), list(sheets.changes())
    again = sum(1 for _ in sheets.rebuilt(made + changed + chosen))
    good = [case for case in to_seal if case.refusal == 0]
    yield "job sheets of the model made for one answer", len(to_seal)
    yield "job sheets of the model with one byte changed", len(altered)
    yield "random job sheets of the model", run.RANDOM_SHEETS
    yield "archives of the model rebuilt from their own jobs, with the random ones of seed 0", again
    yield "runs of `seal` by the model", len(to_seal) + len(altered) + run.RANDOM_SHEETS + len(run.SLOW_SHEETS) + again
    yield "runs of `jobs` and `open` on what it wrote", sum(1 + len(list(run.opened_again(case))) for case in good)
    to_drop = run.asked_of_drop(made + changed + chosen)
    listed = [words for _, words in to_drop] + [words for _, _, words in run.dropped_slowly()]
    yield "runs of `drop` by the model, with the random archives of seed 0", len(listed)
    yield "of these with `--preview`", sum(words[0] == archive.PREVIEW for words in listed)
    after = run.to_look_at(to_drop)
    yield "runs of `jobs` and `open` on what `drop` wrote", sum(1 + len(list(run.opened_afterwards(*each))) for each in after)
    yield "runs of `drop --preview` beside these", len(after)
    yield "openings of `tests/model/ranges.py`", sum(1 for _ in ranges.openings())
    yield "its checks of archives with a byte changed, or cut", sum(1 for _ in ranges.altered())
    yield "its runs of counter mode", sum(1 for _ in ranges.streams())
    yield "sealings of `tests/model/sealing.py`", sum(1 for _ in sealing.sealings())
    yield "its archives rebuilt from their own jobs", sum(1 for _ in sealing.rebuilt())
    yield "droppings of `tests/model/dropping.py`", sum(1 for _ in dropping.droppings())
    yield "its archives that are then checked, opened and dropped from again", sum(1 for _ in dropping.followed())
    yield "previews of `tests/model/previewing.py`, each beside a dropping", sum(1 for _ in previewing.previews())
    faults = programs()
    yield "cases of `tests/programs`", sum(len(list(faults.cases(says))) for says in faults.PROGRAMS)
    yield "self-tests of the model", count(r"^    def test_", "tests/model/selftest.py")
    for path in found("host/tests/*.rs"):
        name = os.path.relpath(path, TOP)
        yield "tests of `%s`" % name, count(r"^#\[test\]", name)


def table():
    rows = ["| %s | %s |\n" % (name, format(number, ",")) for name, number in figures()]
    return "| what | how many |\n|---|---|\n" + "".join(rows)


def main():
    parser = argparse.ArgumentParser(description=__doc__.splitlines()[0])
    action = parser.add_mutually_exclusive_group()
    action.add_argument("--write", metavar="FILE")
    action.add_argument("--check", metavar="FILE")
    wanted = parser.parse_args()
    path = wanted.write or wanted.check
    if not path:
        return print(table(), end="")
    before, begin, rest = read(path).partition(BEGIN)
    between, end, after = rest.partition(END)
    if not begin or not end:
        sys.exit("%s: the two marks of the figures are not found" % path)
    counted = table()
    if wanted.write:
        with open(os.path.join(TOP, path), "w", encoding="utf-8") as file:
            file.write(before + begin + counted + end + after)
    elif between != counted:
        sys.exit("%s: the figures are not true; python3 tests/docs/count_tests.py --write %s" % (path, path))
    else:
        print("%s: the figures are true" % path)


if __name__ == "__main__":
    main()
