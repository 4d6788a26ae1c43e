"""Lists of job numbers for tests of dropping: good ones, each refusal on both sides of its limit, faults in every order; and archives
that are worth all of them.

A list is made for the jobs of an archive, and carries the answer that it was made for, where the archive is accepted and the buffer is
long enough.
"""

import itertools
from collections import namedtuple

import archive
import cases

# `listed` is the run of bytes, eight a number.
List = namedtuple("List", "name listed refusal")

# Bytes that are no digit: those beside the digits, and the ends.
NO_DIGITS = (0x2F, 0x3A, 0x00, 0xFF)


def good(there):
    """Lists of numbers that are all there; each list once, so that of few jobs there are fewer."""
    first, middle, last = (there[at : at + 1] for at in (0, len(there) // 2, len(there) - 1)) if there else ([], [], [])
    seen = set()
    for name, numbers in (
        ("no number", []),
        ("the first job", first),
        ("the last job", last),
        ("the middle job", middle),
        ("the last job and the first", last + first),
        ("all jobs", there),
        ("all jobs, from the last on", there[::-1]),
        ("every second job", there[::2]),
        ("every second job, from the last but one on", there[-2::-2]),
        ("all but the first job", there[1:]),
        ("all but the last job", there[:-1]),
        ("all but the middle job", [number for number in there if number not in middle]),
        ("the first job twice", first * 2),
        ("the last job twice, the first between", last + first + last),
        ("each job twice", [number for number in there for _ in range(2)]),
        ("all jobs twice", there * 2),
        ("the middle job a hundred times", middle * 100),
        ("all jobs behind the first a thousand times", first * 1000 + there),
    ):
        listed = b"".join(numbers)
        if listed not in seen:
            seen.add(listed)
            yield List(name, listed, 0)


def every_one(there):
    """Every list of up to four numbers of these few jobs, in every order and as often as may be."""
    for count in range(5):
        for numbers in itertools.product(there, repeat=count):
            yield List(b" ".join(numbers).decode() or "no number", b"".join(numbers), 0)


def lengths(there):
    """27: lists of other lengths than multiples of eight, of numbers that are there, that are none and that are not there."""
    for name, number in (("good", b"".join(there)), ("no", b"2400001/"), ("absent", absent(there)[0])):
        if number:
            for length in (*range(1, 8), 9, 12, 15, 17, 63, 65, 511, 513, 519, 8191, 8193):
                yield List("%d bytes of %s numbers" % (length, name), (number * 8193)[:length], 27)


def no_digits(there):
    """18: each byte of a number that is none, alone and behind one that is there."""
    number = there[-1] if there else b"24000017"
    for at in range(archive.NUMBER):
        for byte in NO_DIGITS:
            wrong = cases.byte_set(number, at, byte)
            yield List("digit %d is byte %02x" % (at, byte), wrong, 18)
            if there:
                yield List("a job, and digit %d is byte %02x" % (at, byte), there[0] + wrong, 18)


def absent(there):
    """Numbers that are not there: beside those that are, at the ends of the two spans of years, and far from all."""
    beside = [cases.digits((int(number) + step) % 10**8) for number in there for step in (-1, 1)]
    return [number for number in dict.fromkeys(beside + cases.IN_ORDER + [b"24000017", b"44444444"]) if number not in there]


def missing(there):
    """19: each such number, alone and behind all that are there."""
    for number in absent(there):
        yield List("%s, which is not there" % number.decode(), number, 19)
        yield List("all jobs and %s, which is not there" % number.decode(), b"".join(there) + number, 19)


def orders(there):
    """Good numbers, 18 and 19 in every order of up to three, with bytes behind them that make it 27, and without. The first fault counts;
    27 comes before them all."""
    kinds = [("good", there[len(there) // 2], 0)] if there else []
    kinds += [("none", b"2400001:", 18), ("absent", absent(there)[0], 19)]
    for count in range(1, 4):
        for chosen in itertools.product(kinds, repeat=count):
            name = "numbers: %s" % ", ".join(kind for kind, _, _ in chosen)
            listed = b"".join(number for _, number, _ in chosen)
            yield List(name, listed, next((refusal for _, _, refusal in chosen if refusal), 0))
            for more in (1, 7):
                yield List("%s, and %d bytes" % (name, more), listed + b"2400001"[:more], 27)


def made(there):
    """Every list that was made for a known answer, for an archive of these jobs."""
    for group in (good, lengths, no_digits, missing, orders):
        yield from group(there)


# Two good ones, and one of each other kind. Most archives that are refused would have job 24000017.
KINDS = [
    List("a job", b"24000017", 0),
    List("no number", b"", 0),
    List("seven bytes", b"2400001", 27),
    List("a number that is none", b"2400001/", 18),
    List("a number that is not there", b"44444444", 19),
]


def numbers_in(listed):
    """The numbers of a list that 27 passes."""
    return [listed[at : at + archive.NUMBER] for at in range(0, len(listed), archive.NUMBER)]


def there_in(file):
    """The job numbers of an accepted archive."""
    return [entry.digits for entry in archive.entries_of(file)]


def archives(tag_key):
    """Archives of no job, of one, of a few, of jobs of both spans of years, of 64, and full ones; some jobs have no bytes."""
    yield cases.Draft(cases.KEYS[24], 7, [], tag_key).case("no jobs", 0)
    yield cases.Draft(cases.KEYS[16], 0xFFFFFFFF, cases.numbered([29]), tag_key).case("one job", 0)
    yield cases.sample(tag_key).case("sample", 0)
    yield cases.three_jobs(tag_key, cases.KEYS[32]).case("three jobs", 0)
    yield cases.Draft(cases.KEYS[24], 0, cases.numbered([0, 0, 0]), tag_key).case("three empty jobs", 0)
    yield cases.Draft(cases.KEYS[16], 0x01020304, cases.many(cases.IN_ORDER), tag_key).case("jobs of both spans", 0)
    yield cases.Draft(cases.KEYS[32], 7, cases.numbered(range(64)), tag_key).case("64 jobs", 0)
    yield cases.full(tag_key).case("one job, 65,536 bytes", 0)
    yield cases.Draft(cases.KEYS[24], 7, cases.numbered(cases.filled([1008] * 63, tag_key)), tag_key).case("64 jobs, 65,536 bytes", 0)
