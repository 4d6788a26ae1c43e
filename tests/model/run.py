"""Holds the programs `jobs`, `open`, `seal` and `drop` to the model.

    python3 tests/model/run.py --jobs target/bin/jobs [--open target/bin/open [--seal target/bin/seal] [--drop target/bin/drop]] [--seed N]

Runs the model's self-test first. Each case is one run of a program in a folder of its own, with the
archive, or what is to be sealed, as a file or through a pipe in turn; some go through a slow pipe in small
pieces. Every byte written is compared. What `seal` wrote is then listed by `jobs` and opened by `open`, and
so is some of what `drop` wrote, of which `drop --preview` is to have said what `jobs` says; every accepted
archive is sealed again from its own jobs. The last line is `archive model: N cases agree`, or says how many
differ, and then the exit status is 1.

Refusal 20 is not met here: no body and no archive is longer than 65,536 bytes, and `open`, `seal` and `drop`
lend that much. ranges.py, sealing.py, dropping.py, previewing.py and the program `known_answers` meet it. Nor
is 27: `drop` makes eight bytes of each of its words. What the programs do where reading or writing fails, and
of words that they do not take, is tests/programs.
"""

import argparse
import random
import sys
import unittest

import archive
import cases
import lists
import selftest
import sheets
from program import Program, Written

RANDOM_CASES = 600
RANDOM_SHEETS = 600
SHOWN = 10


class Comparison:
    """Counts cases that agree and shows the first few that do not."""

    def __init__(self):
        self.agreed = 0
        self.differed = 0

    def note(self, name, case, expected, written):
        if written == expected:
            self.agreed += 1
            return
        self.differed += 1
        if self.differed <= SHOWN:
            print("DIFFERS %s: %s" % (name, case.name))
            for file, data in [*case.files().items(), ("input", case.input())]:
                print("  %-9s%s" % (file, "none" if data is None else "%s (%d bytes)" % (data[:120].hex(), len(data))))
            print("  expected %s" % (shown(expected),))
            print("  written  %s" % (shown(written),))


def shown(written):
    return "stdout %r, stderr %r, status %s" % (
        written.stdout[:200],
        written.stderr[:200],
        written.status,
    )


def expected_of_jobs(case):
    return Written(archive.jobs_text(*case.lent()), b"", 0)


def expected_of_open(case, words):
    return Written(*archive.open_output(*case.lent(), *words), 0)


def expected_of_seal(case):
    return Written(*archive.seal_output(*case.lent()), 0)


def expected_of_drop(case, words):
    return Written(*archive.drop_output(*case.lent(), *words), 0)


def in_turn(program, turn, case, arguments=()):
    """From a file and through a pipe by turns, so that both are met by every kind of case."""
    if turn % 2:
        return program.from_pipe(case.files(), case.input(), max(1, len(case.input())), arguments, pause=0)
    return program.from_file(case.files(), case.input(), arguments)


SLOW = [
    # case, bytes in a piece
    (cases.sample().case("sample", 0), 1),
    (cases.sample().case("sample", 0), 7),
    (cases.three_jobs().case("three jobs", 0), 16),
    (cases.Draft(cases.KEYS[32], 7, cases.numbered(range(64))).case("64 jobs", 0), 97),
    (cases.full(None, cases.KEYS[24]).case("65,536 bytes", 0), 1021),
    (cases.Draft(cases.KEYS[16], 7, cases.numbered([65501])).case("65,537 bytes", 6), 1021),
    (cases.Draft(cases.KEYS[16], 7, cases.numbered([65501])).case("65,537 bytes", 6), 65536),
    (cases.Draft(cases.KEYS[16], 7, cases.numbered([200000])).case("200,036 bytes", 6), 8192),
    (cases.Case("19 bytes", cases.KEYS[16], bytes(19), 5), 3),
    (cases.sample(cases.TAG_KEYS[32]).case("sample, tagged", 0), 1),
    (cases.full(cases.TAG_KEY).case("65,536 bytes, tagged", 0), 1021),
]


def run_jobs(path, all_cases, comparison):
    with Program(path) as program:
        for turn, case in enumerate(all_cases):
            written = in_turn(program, turn, case)
            comparison.note("jobs", case, expected_of_jobs(case), written)
        for case, piece in SLOW:
            written = program.from_pipe(case.files(), case.file, piece)
            comparison.note("jobs, slow pipe", case, expected_of_jobs(case), written)


def decimal(*numbers):
    return tuple(b"%d" % number for number in numbers)


def some_of(count):
    """Which of so many jobs are opened: the first, the middle and the last two."""
    return sorted({0, count // 2, count - 2, count - 1} & set(range(count)))


def words_to_ask(case, turn):
    """Words for `open`: the first, middle and last two jobs of the contents, whole, and a range of one of them.

    An archive that is refused is refused whatever is asked: a number, or by turns what is none, whole or by turns a range.
    """
    try:
        count = archive.check(*case.lent())
    except archive.Refused:
        number = b"2400001" if turn // 2 % 2 else b"24000017"
        return [(number, *decimal(2, 2)) if turn // 4 % 2 else (number,)]
    entries = [archive.entry_at(case.file, index) for index in some_of(count)]
    whole = [(entry.digits,) for entry in entries]
    if not entries:
        return whole
    # of the longest of them, from a start that changes with the turn; every ninth passes the end by a byte
    entry = max(entries, key=lambda entry: entry.length)
    first = turn * 7 % max(entry.length, 1)
    left = entry.length - first
    return whole + [(entry.digits, *decimal(first, left + 1 if turn % 9 == 0 else left - turn * 5 % max(left, 1)))]


def no_numbers():
    """Words that are no job numbers (18)."""
    words = [b"", b"2", b"2400001", b"240000170", b"24000017 ", b" 24000017", b"24000017\n"]
    words += [b"+2400017", b"-2400017", b"0x240000", b"24.00017", b"abcdefgh", b"2" * 16, b"2" * 5000]
    words += ["２４００００１７".encode(), b"\xff" * 8]
    for at in range(8):
        for byte in (0x2F, 0x3A, 0x01, 0xB0):
            words.append(b"24000017"[:at] + bytes([byte]) + b"24000017"[at + 1 :])
            words.append(b"24000017"[:at] + b"24000017"[at + 1 :])
    return list(dict.fromkeys(words))


# Job numbers that three jobs do not have (19).
ABSENT = [b"24000016", b"24000020", b"00000000", b"99999999", b"14000017", b"24000117", b"25000017"]


def questions():
    """Numbers that are none (18) or absent (19), on a good archive and on one that is refused itself, and some of them
    beside a tag, right or wrong; every job of a full one; and every job of one whose numbers lie apart, with the
    numbers beside it."""
    good = cases.three_jobs()
    refused = cases.three_jobs()
    refused.tail = b"\0"
    for number in no_numbers() + ABSENT:
        yield good.case("three jobs", 0), number
        yield refused.case("three jobs and a byte", 17), number
    for number in [b"", b"2400001", b"240000170", b"2400001/", b"2" * 5000] + ABSENT:
        yield cases.three_jobs(cases.TAG_KEY).case("three jobs, tagged", 0), number
        yield cases.wrong_tag(), number
    many = cases.Draft(cases.KEYS[24], 7, cases.numbered(range(64)))
    for number, _, _ in many.entries:
        yield many.case("64 jobs", 0), number
    numbers = (70000000, 70000002, 97000004, 10**8 - 2, 1, 9, 10, 2 * 10**6, 24000017, 24000019, 69999998)
    jobs = [(b"%08d" % number, b"job %d" % number) for number in numbers]
    apart = cases.Draft(cases.KEYS[32], 7, jobs)
    for number in sorted({int(digits) + step for digits, _ in jobs for step in (-1, 0, 1)}):
        yield apart.case("numbers that lie apart", 0), b"%08d" % number
    empty = cases.Draft(cases.KEYS[16], 7, [])
    yield empty.case("no jobs", 0), b"24000017"
    yield empty.case("no jobs", 0), b""


def range_questions():
    """Ranges: all of three short jobs, one of no bytes, to past their ends; of a long one, about the borders of blocks, of chunks and its
    end, with large numbers and leading zeros; of a number that is none, of one that is not there, of an archive that is refused; some of
    them where there is a tag, right or wrong."""
    short = cases.three_jobs().case("three jobs", 0)
    for number, _, length in cases.three_jobs().entries:
        for first in range(length + 3):
            for count in range(length + 3 - min(first, length)):
                yield short, (number, *decimal(first, count))
    long = cases.long_job(cases.KEYS[32], 60000)
    borders = [0, 1, 15, 16, 17, 4095, 4096, 4097, 8191, 8192, 8193, 59999, 60000]
    for first in borders:
        for end in borders + [60001]:
            if first <= end:
                yield long, (b"24000017", *decimal(first, end - first))
    small, huge = [0, 1, 2, 16], [2**32 - 1, 2**32, 2**63 - 1, 2**63, 2**64 - 2, 2**64 - 1]
    for first in small + huge:
        for count in small + huge if first in huge else huge:
            yield long, (b"24000017", *decimal(first, count))
    for words in ((b"0001", b"02"), (b"0" * 20, b"0" * 19 + b"1"), (b"00000000000000059999", b"1"), (b"0" * 20, b"0" * 20)):
        yield long, (b"24000017", *words)
    refused = cases.three_jobs()
    refused.tail = b"\0"
    for first, count in ((0, 0), (2, 3), (5, 1), (2**64 - 1, 2**64 - 1)):
        for number in (b"24000016", b"2400001", b"24000017"):
            yield short, (number, *decimal(first, count))
            yield refused.case("three jobs and a byte", 17), (number, *decimal(first, count))
            yield cases.three_jobs(cases.TAG_KEY).case("three jobs, tagged", 0), (number, *decimal(first, count))
            yield cases.wrong_tag(), (number, *decimal(first, count))
    tagged = cases.long_job(cases.KEYS[32], 60000, cases.TAG_KEYS[16])
    for first, count in ((0, 60000), (1, 59999), (4095, 2), (4096, 4096), (59984, 16), (59985, 16), (60000, 0), (60000, 1)):
        yield tagged, (b"24000017", *decimal(first, count))


def asked_of_open(all_cases):
    """Every case and the words for `open`, in the order of the runs."""
    turn = 0
    for case in all_cases:
        for words in words_to_ask(case, turn):
            yield case, words
            turn += 1
    yield from ((case, (number,)) for case, number in questions())
    yield from range_questions()


def asked_slowly():
    """For `open` through a slow pipe: the last job, whole, and a range."""
    return [(case, piece, words) for case, piece in SLOW for words in words_to_ask(case, 1)[-2:]]


def run_open(path, all_cases, comparison):
    with Program(path) as program:
        for turn, (case, words) in enumerate(asked_of_open(all_cases)):
            written = in_turn(program, turn, case, words)
            comparison.note("open %s" % (tuple(word[:40] for word in words),), case, expected_of_open(case, words), written)
        for case, piece, words in asked_slowly():
            written = program.from_pipe(case.files(), case.file, piece, words)
            comparison.note("open %s, slow pipe" % (words,), case, expected_of_open(case, words), written)


SLOW_SHEETS = [
    # case, bytes in a piece
    (sheets.sample().case("sample", 0), 1),
    (sheets.Sheet(range(64), None, 32).case("64 jobs", 0), 97),
    (sheets.Sheet(cases.filled([]), None, 24).case("65,536 bytes", 0), 1021),
    (sheets.Sheet(cases.filled([], cases.TAG_KEY), cases.TAG_KEY).case("65,536 bytes, tagged", 0), 1021),
    (sheets.Sheet().case("a byte short", 16)._replace(plain=sheets.text(24)), 7),
    (sheets.Sheet(cases.filled([])).case("a byte more", 17)._replace(plain=sheets.text(65501)), 1021),
    (sheets.Sheet().case("300,000 bytes", 17)._replace(plain=sheets.text(300000)), 8192),
]


def run_seal(path, all_sheets, all_cases, comparison):
    """Answers what was sealed: each case that was made to be accepted, and what the program wrote of it."""
    archives = []
    with Program(path) as program:
        for turn, case in enumerate(all_sheets):
            written = in_turn(program, turn, case)
            comparison.note("seal", case, expected_of_seal(case), written)
            if case.refusal == 0:
                archives.append((case, written.stdout))
        for case, piece in SLOW_SHEETS:
            written = program.from_pipe(case.files(), case.plain, piece)
            comparison.note("seal, slow pipe", case, expected_of_seal(case), written)
        for turn, (case, file) in enumerate(sheets.rebuilt(all_cases)):
            comparison.note("seal", case, Written(file, b"", 0), in_turn(program, turn, case))
    return archives


def listed(lines):
    """What `jobs` is to print of an archive of jobs of these digits and lengths."""
    text, start = b"jobs %d\n" % len(lines), archive.PLATE + archive.ENTRY * len(lines)
    for line in lines:
        text += b"%s %d %d\n" % (line.digits, start, line.length)
        start += line.length
    return text


def opened_again(case):
    """Jobs of what was sealed, the first, the middle and the last two, each with the plain bytes that were handed over."""
    lines = archive.lines_of(case.sheet)
    for index in some_of(len(lines)):
        before = sum(line.length for line in lines[:index])
        yield lines[index].digits, case.plain[before : before + lines[index].length]


def run_sealed(jobs_path, open_path, archives, comparison):
    """`jobs` and `open` on what was sealed."""
    with Program(jobs_path) as jobs, Program(open_path) as opening:
        for turn, (case, file) in enumerate(archives):
            whole = cases.Case(case.name, case.key_file[: sheets.KEY_LENGTHS[case.sheet[0]]], file, 0, case.tag_key)
            comparison.note("jobs, sealed", whole, Written(listed(archive.lines_of(case.sheet)), b"", 0), in_turn(jobs, turn, whole))
            for number, plain in opened_again(case):
                written = in_turn(opening, turn, whole, (number,))
                comparison.note("open %s, sealed" % number.decode(), whole, Written(plain, b"", 0), written)


# Words for `drop` where the archive is refused, whatever they are.
ANY_WORDS = [(b"24000017",), (b"44444444",), (b"2400001",), (b"24000018", b"24000017"), (b"2400001/", b"24000017")]


def words_of(made):
    """The words that list these numbers, or None where `drop` takes no such words."""
    words = tuple(lists.numbers_in(made.listed))
    return words if made.refusal != 27 and 0 < len(words) <= archive.MOST_JOBS else None


def words_to_drop(case, turn):
    """Words for `drop` by turns: two good lists, and one that is refused. Of no jobs every list but that of no words is refused."""
    try:
        archive.check(*case.lent())
    except archive.Refused:
        return [ANY_WORDS[turn % len(ANY_WORDS)]]
    there = lists.there_in(case.file)
    good = list(filter(None, map(words_of, lists.good(there))))
    bad = list(filter(None, (words_of(made) for made in lists.orders(there) if made.refusal)))
    return [good[(turn + step) % len(good)] for step in (0, 5) if good] + [bad[turn % len(bad)]]


def drop_questions():
    """Words that are no numbers, alone, behind a number that is there and beside one that is not, in either order; some of them where there
    is a tag, right or wrong. Words that are numbers only end to end, or cut off: nothing is dropped. Up to 64 words, the last one good or
    not, in every order and as often as may be."""
    good = cases.three_jobs().case("three jobs", 0)
    first, second, third = there = lists.there_in(good.file)
    for word in no_numbers():
        yield from ((good, words) for words in ((word,), (first, word), (word, third), (word, ABSENT[0]), (ABSENT[0], word)))
    for word in ABSENT + [b"", b"2400001", b"240000170", first + second, b"2" * 5000]:
        for case in (cases.three_jobs(cases.TAG_KEY).case("three jobs, tagged", 0), cases.wrong_tag()):
            yield from ((case, words) for words in ((word,), (third, first, word)))
    for words in (
        (first + second,),
        (third, first + second),
        (first + second, third),
        (first + second + third,),
        (first[:7], first[7:] + second),
        (first + second[:1], second[1:]),
        (first[:4], first[4:]),
        (b"", first),
        (first, b""),
        (first + b" " + second,),
        (first * 8,),
        (first * 625,),
        (b"", b"", b"", b"", b"", b"", b"", b""),
    ):
        yield good, words
    for case in (good, cases.three_jobs(cases.TAG_KEY).case("three jobs, tagged", 0)):
        yield from ((case, words_of(made)) for made in lists.every_one(there) if made.listed)
    for tag_key in (None, cases.TAG_KEYS[16]):
        many = cases.Draft(cases.KEYS[24], 7, cases.numbered(range(64)), tag_key).case("64 jobs", 0)
        numbers = tuple(lists.there_in(many.file))
        for last in (numbers[63], numbers[0], b"44444444", b"2400008/", b"2400008", b"", numbers[63] * 2):
            yield many, numbers[:63] + (last,)
            yield many, numbers[:1] * 63 + (last,)
        yield many, numbers[::-1]
        yield many, numbers[:32] * 2
        yield many, numbers[:63]
    yield good, (second,) * 64
    empty = cases.Draft(cases.KEYS[16], 7, []).case("no jobs", 0)
    yield empty, (first,)
    yield empty, (b"",)


def preview(words):
    """The words by which `drop` only shows what these would leave."""
    return (archive.PREVIEW, *words)


def asked_of_drop(all_cases):
    """Every case and the words for `drop`, in the order of the runs; every seventh is then asked for as a preview too."""
    asked = [(case, words) for turn, case in enumerate(all_cases) for words in words_to_drop(case, turn)] + list(drop_questions())
    return asked + [(case, preview(words)) for case, words in asked[::7]]


def dropped_slowly():
    """For `drop` through a slow pipe, each as a preview too."""
    asked = [(case, piece, words) for turn, (case, piece) in enumerate(SLOW) for words in words_to_drop(case, turn)]
    return asked + [(case, piece, preview(words)) for case, piece, words in asked]


def to_look_at(runs):
    """Every third of the runs that are to write an archive, for `jobs` and `open` to look at. A run begins with its case and its words."""
    return [run for run in runs if run[0].refusal == 0 and set(run[1]) <= set(lists.there_in(run[0].file))][::3]


def run_drop(path, all_cases, comparison):
    """Answers what is to be looked at: the case, the words, and what the program wrote of them."""
    runs = []
    with Program(path) as program:
        for turn, (case, words) in enumerate(asked_of_drop(all_cases)):
            written = in_turn(program, turn, case, words)
            comparison.note("drop %s" % (tuple(word[:40] for word in words[:8]),), case, expected_of_drop(case, words), written)
            runs.append((case, words, written.stdout))
        for case, piece, words in dropped_slowly():
            written = program.from_pipe(case.files(), case.file, piece, words)
            comparison.note("drop %s, slow pipe" % (words[:8],), case, expected_of_drop(case, words), written)
    return to_look_at(runs)


def left_in(case, words):
    """The entries that dropping leaves."""
    return [entry for entry in archive.entries_of(case.file) if entry.digits not in words]


def opened_afterwards(case, words):
    """Of the jobs that are left the first, the middle and the last two, each with its plain bytes; and one that is gone."""
    left = left_in(case, words)
    for index in some_of(len(left)):
        yield left[index].digits, Written(archive.plain_bytes(*case.lent(), left[index].digits), b"", 0)
    yield words[0], Written(b"", b"refused 19\n", 0)


def run_dropped(jobs_path, open_path, drop_path, archives, comparison):
    """`jobs` and `open` on what `drop` wrote; and the preview, on the old archive, writes what `jobs` does on the new one."""
    with Program(jobs_path) as jobs, Program(open_path) as opening, Program(drop_path) as dropping:
        for turn, (case, words, file) in enumerate(archives):
            smaller = case._replace(file=file)
            by_jobs = in_turn(jobs, turn, smaller)
            comparison.note("jobs, dropped", smaller, Written(listed(left_in(case, words)), b"", 0), by_jobs)
            comparison.note("drop --preview, beside jobs", case, by_jobs, in_turn(dropping, turn, case, preview(words)))
            for number, expected in opened_afterwards(case, words):
                comparison.note("open %s, dropped" % number.decode(), smaller, expected, in_turn(opening, turn, smaller, (number,)))


def main():
    parser = argparse.ArgumentParser(description="Holds the programs to the archive model.")
    parser.add_argument("--jobs", required=True, help="the program jobs")
    parser.add_argument("--open", help="the program open")
    parser.add_argument("--seal", help="the program seal; what it writes is opened by open")
    parser.add_argument("--drop", help="the program drop; what it writes is opened by open")
    parser.add_argument("--seed", type=int, help="repeats the random cases of an earlier run")
    options = parser.parse_args()
    if (options.seal or options.drop) and not options.open:
        parser.error("--seal and --drop need --open")

    tests = unittest.defaultTestLoader.loadTestsFromModule(selftest)
    if not unittest.TextTestRunner(stream=sys.stdout).run(tests).wasSuccessful():
        sys.exit("archive model: the self-test failed")

    seed = random.SystemRandom().randrange(2**32) if options.seed is None else options.seed
    print("archive model: repeat with --seed %d" % seed, flush=True)
    all_cases = [*cases.made(), *cases.changes(), *cases.tagged_changes(), *cases.random_changes(seed, RANDOM_CASES)]

    comparison = Comparison()
    run_jobs(options.jobs, all_cases, comparison)
    if options.open:
        run_open(options.open, all_cases, comparison)
    if options.seal:
        all_sheets = [*sheets.made(), *sheets.changes(), *sheets.random_sheets(seed, RANDOM_SHEETS)]
        archives = run_seal(options.seal, all_sheets, all_cases, comparison)
        run_sealed(options.jobs, options.open, archives, comparison)
    if options.drop:
        archives = run_drop(options.drop, all_cases, comparison)
        run_dropped(options.jobs, options.open, options.drop, archives, comparison)
    if comparison.differed:
        sys.stdout.flush()
        total = comparison.agreed + comparison.differed
        sys.exit("archive model: %d of %d cases differ" % (comparison.differed, total))
    print("archive model: %d cases agree" % comparison.agreed)


if __name__ == "__main__":
    main()
