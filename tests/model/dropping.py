"""Holds the dropping of jobs to the model, call by call.

    python3 tests/model/dropping.py [target/staticlib/libbenchlib.a]

The calls are those of library.py. Of each the number is compared, and every byte of the buffer: the archive without the jobs at its front,
what it held behind that, and all that it held where dropping is refused. Buffers are of the new archive's length, of a byte less, of the
old one's, longer, and of no bytes. Each archive of the model is dropped from, refused ones too: of these the answer is their own, whatever
the list is. Some of the archives written are then checked; of these the jobs that are left open to the same plain bytes as before, and
those that are gone are not found, nor dropped again. The length that dropping answers these calls do not tell; the program `drop` shows
it. The last line is `archive dropping: N calls agree`, or the first call that differs, and then the exit status is 1.
"""

import sys

import archive
import cases
import lists
from library import FILL, compare, loaded

RANDOM_CASES = 400
# Buffers for what is refused, whatever their length is.
ANY_ROOMS = (0, 57, archive.LONGEST_FILE)


def rooms(length, before):
    """Lengths of buffers for what has this length, made of an archive of so many bytes."""
    return sorted({0, 1, length // 2, length - 16, length - 1, length, length + 1, before - 1, before, before + 40})


def all_cases():
    """Each archive that is dropped from, and whether it is accepted."""
    for case in [*cases.made(), *cases.changes(), *cases.tagged_changes(), *cases.random_changes(0, RANDOM_CASES)]:
        try:
            archive.check(*case.lent())
        except archive.Refused:
            yield case, False
        else:
            yield case, True


def of_refused(case, turn):
    """A list of each kind, of the two good ones by turns; the answer is the archive's own."""
    for step, made in enumerate([lists.KINDS[turn % 2], *lists.KINDS[2:]]):
        yield case, made, ANY_ROOMS[(turn + step) % 3]


def of_accepted(case, turn, written):
    """Of the good lists those that it is the turn of, into a buffer that is long enough, or by turns a byte short; and one that is refused,
    into any buffer."""
    there = lists.there_in(case.file)
    of_turn = list(lists.good(there))[turn % 3 :: 3]
    for step, made in enumerate(of_turn):
        length = len(written(*case.lent(), made.listed))
        yield case, made, max(length + (-1, 0, 5)[(turn // 3 + step) % 3], 0)
    refused = [made for made in lists.orders(there) if made.refusal]
    yield case, refused[turn % len(refused)], ANY_ROOMS[turn % 3]


def of_every_list(case, written):
    """Good lists into buffers of all these lengths; those that are refused into any, by turns."""
    for turn, made in enumerate(lists.made(lists.there_in(case.file))):
        if made.refusal:
            yield case, made, ANY_ROOMS[turn % 3]
            continue
        length = len(written(*case.lent(), made.listed))
        yield from ((case, made, room) for room in rooms(length, len(case.file)) if room >= 0)


def of_every_length(case):
    """One list of each kind, into buffers of every length, before 20 and past it."""
    there = lists.there_in(case.file)
    for made in (*lists.KINDS[1:], lists.List("the last job", there[-1], 0), lists.List("all jobs", b"".join(there), 0)):
        yield from ((case, made, room) for room in range(161))


def calls(written):
    """Each call: the case, the list, and the buffer's length. By `written` the model gives what goes to the front of a long enough one."""
    for turn, (case, accepted) in enumerate(all_cases()):
        yield from of_accepted(case, turn, written) if accepted else of_refused(case, turn)
    for tag_key in (None, cases.TAG_KEY):
        for case in lists.archives(tag_key):
            yield from of_every_list(case, written)
        for case in (cases.sample(tag_key).case("sample", 0), cases.three_jobs(tag_key).case("three jobs", 0)):
            yield from of_every_length(case)
        case = cases.three_jobs(tag_key).case("three jobs", 0)
        for made in lists.every_one(lists.there_in(case.file)):
            yield case, made, len(case.file)


def droppings():
    return calls(archive.drop)


def followed():
    """Archives and good lists, of which the archive that is written is then looked at: of each accepted archive a list by turns, and of
    some every list."""
    for turn, case in enumerate(case for case, accepted in all_cases() if accepted):
        good = list(lists.good(lists.there_in(case.file)))
        yield case, good[turn % len(good)]
    for tag_key in (None, cases.TAG_KEY):
        for case in lists.archives(tag_key):
            there = lists.there_in(case.file)
            yield from ((case, made) for made in lists.good(there) if len(there) < 64)


def look_at(library, case, made):
    """Checks what dropping wrote and opens every job that was there: to the same plain bytes as before, or with 19. Dropping again what is
    gone is refused."""
    smaller = case._replace(file=archive.drop(*case.lent(), made.listed))
    what = "what is left of %s without %s" % (case.name, made.name)
    compare("the check of %s" % what, (library.checked(smaller), b""), (0, b""))
    gone = lists.numbers_in(made.listed)
    for number in lists.there_in(case.file):
        plain = archive.plain_bytes(*case.lent(), number)
        wanted = (19, FILL * (len(plain) + 3)) if number in gone else (0, plain + 3 * FILL)
        compare("job %s of %s" % (number.decode(), what), library.opened(smaller, number, (), len(plain) + 3), wanted)
    again = (19, FILL * len(case.file)) if gone else (0, case.file)
    compare("the same list on %s" % what, library.dropped(smaller, made.listed, len(case.file)), again)


def main():
    met = set()
    with loaded() as library:
        for case, made, room in droppings():
            wanted = archive.dropped_into(*case.lent(), made.listed, FILL * room)
            compare("%s, list: %s, %d bytes of room" % (case.name, made.name, room), library.dropped(case, made.listed, room), wanted)
            met.add(wanted[0])
        for case, made in followed():
            look_at(library, case, made)
    if met != {0, 1} | set(range(5, 21)) | {24, 25, 27}:
        sys.exit("archive dropping: of the refusals only %s were met" % sorted(met))
    print("archive dropping: %d calls agree" % library.calls)


if __name__ == "__main__":
    main()
