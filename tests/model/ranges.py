"""Holds the check of archives, the opening of jobs and ranges, and counter mode from any first byte on, to the model, call by call.

    python3 tests/model/ranges.py [target/staticlib/libbenchlib.a]

The calls are those that the static library `benchlib` exports; a shared library is made of it, and called in this process. Of each call the
number is compared, every byte of the buffer, and bytes before and behind it, which nobody lent; the buffers begin at every place in
memory modulo 16. How many bytes an opening counts these calls do not tell; the program `open` and `known_answers` show it. A tagged
archive is checked with each of its bytes changed to each other value, and with each cut. The last line is `archive ranges: N calls agree`,
or the first call that differs, and then the exit status is 1.
"""

import sys

import archive
import cases
import libcrypto
from library import FILL, compare, loaded

# How many bytes of the keystream the code makes at a time.
CHUNK = 4096
# Longer than three chunks, and of no whole number of blocks.
LENGTH = 3 * CHUNK + 37
# Keys with tag keys of another length.
KEY_PAIRS = [(cases.KEYS[key], cases.TAG_KEYS[tag_key]) for key, tag_key in ((16, 24), (24, 32), (32, 16))]
# First bytes and counts about powers of 2; 2^36 bytes are 2^32 blocks.
HUGE = [2**k + d for k in (31, 32, 33, 36, 60, 63, 64) for d in (-17, -16, -1, 0, 1, 16) if 2**k + d < 2**64]


def refusal_of(case):
    try:
        archive.check(*case.lent())
    except archive.Refused as refused:
        return refused.number
    return 0


def expected(case, number, bounds, room):
    """The same by the model: the refusal or 0, and the buffer."""
    refusal, _, buffer = archive.opened_into(*case.lent(), number, bounds, FILL * room)
    return refusal, buffer


# ---- openings


def long_ranges(step):
    """Ranges of the long job, as first byte and count; of the places of a chunk only every so many."""
    # every start and every end within three blocks
    yield from ((first, count) for first in range(48) for count in range(49))
    # a start at every place of a chunk, with ends about those of blocks, of chunks and of the job
    for first in range(0, CHUNK + 1, step):
        for end in (first, first + 1, first + 16, CHUNK, CHUNK + 1, 2 * CHUNK - 1, LENGTH):
            if end >= first:
                yield first, end - first
    # an end at every place of a chunk, from starts about the borders of blocks and chunks
    for end in range(CHUNK, 2 * CHUNK + 1, step):
        yield from ((first, end - first) for first in (0, 1, 15, 16, 17, CHUNK - 1, CHUNK))
    # about the job's end: up to it, of no bytes at it, and past it
    for first in range(LENGTH - 40, LENGTH + 4):
        yield from ((first, count) for count in range(44))
    # first, count or both so large that their sum passes 2^32 or 2^64
    small = [0, 1, 16, LENGTH - 1, LENGTH, LENGTH + 1]
    yield from ((first, count) for first in HUGE for count in small + HUGE)
    yield from ((first, count) for first in small for count in HUGE)


def rooms():
    """Ranges with buffers on both sides of their count, a byte short of it but long enough for less among them."""
    for first in (0, 1, 15, 16, CHUNK - 1, CHUNK, LENGTH - 100, LENGTH):
        for count in (0, 1, 2, 15, 16, 17, 100, 101, CHUNK, CHUNK + 1, LENGTH, LENGTH + 1, 2**64 - 1):
            for room in {0, 1, min(count, LENGTH) // 2, *range(max(count - 2, 0), count + 3), LENGTH - 1, LENGTH, LENGTH + 1}:
                if room <= LENGTH + 3:
                    yield first, count, room


def openings():
    """Each call: the case, the job number, the range or none for the whole job, and the buffer's length."""
    # a tagged archive is gone through whole in each call
    long_jobs = [(cases.long_job(key, LENGTH), 1) for key in cases.KEYS.values()]
    long_jobs += [(cases.long_job(key, LENGTH, tag_key), 61) for key, tag_key in KEY_PAIRS]
    for case, step in long_jobs:
        for first, count in long_ranges(step):
            yield case, b"24000017", (first, count), min(count, LENGTH) + 3
        for first, count, room in rooms():
            yield case, b"24000017", (first, count), room
        for room in (0, 1, LENGTH - 1, LENGTH, LENGTH + 1):
            yield case, b"24000017", (), room
        # the jobs beside it, one that is not there, and words that are no number
        for number in (b"24000016", b"24000018", b"24000019", b"2400001", b"", b"2400001/"):
            for bounds in ((), (0, 0), (0, 1), (0, 13), (1, 12), (1, 13), (13, 0), (14, 0), (2**64 - 1, 1), (9, 2**64 - 1)):
                for room in (0, 1, 12, 13):
                    yield case, number, bounds, room
    # a wrong tag comes before all that is wrong with what is asked
    for number in (b"24000017", b"24000019", b"24000020", b"2400001"):
        for bounds in ((), (0, 0), (0, 20), (0, 21), (2**64 - 1, 1)):
            for room in (0, 1, 20, 40):
                yield cases.wrong_tag(), number, bounds, room
    # every archive of the model that is shorter than a chunk, or too long: where it is refused, with its own number, whatever is asked
    for case in cases.made():
        if case.key is not None and (len(case.file) < CHUNK or case.refusal == 6):
            for number in (b"24000017", b"240000170"):
                for bounds in ((), (0, 3), (2, 2), (6, 0), (2**64 - 1, 1)):
                    for room in (0, 1, 40):
                        yield case, number, bounds, room


# ---- changed bytes and cuts


def every_value(file, at, key, tag_key):
    """The file with one byte changed to each other value."""
    for value in set(range(256)) - {file[at]}:
        name = "byte %d set to %02x, %d bytes of tag key" % (at, value, len(tag_key))
        yield cases.Case(name, key, cases.byte_set(file, at, value), None, tag_key)


def altered():
    """Tagged archives with one byte changed, to every other value, and with a cut at every place; and archives of both layouts with
    every other layout byte, under no tag key. None of them is good."""
    for key, tag_key in KEY_PAIRS:
        tagged, plain = cases.changed_jobs(key, tag_key), cases.changed_jobs(key)
        for at in range(len(tagged.file())):
            yield from every_value(tagged.file(), at, key, tag_key)
        yield from cases.cuts(tagged)
        yield from every_value(tagged.file(), 0, key, b"")
        yield from every_value(plain.file(), 0, key, b"")


# ---- counter mode


def keystream(key, prefix, first, length):
    """The keystream from byte `first` on, its block index modulo 2^32: each counter block by itself through libcrypto."""
    block, offset = first // 16, first % 16
    counters = ((block + i) % 2**32 for i in range((offset + length + 15) // 16))
    return libcrypto.forward(key, b"".join(prefix + index.to_bytes(4, "big") for index in counters))[offset : offset + length]


def streams():
    """Each call: the key, the prefix, the first byte, and the run."""
    prefix = b"twelve bytes"
    for key in (*cases.KEYS.values(), b"", bytes(15), bytes(17), bytes(33)):
        for first in [*range(0, 34), CHUNK - 1, CHUNK, CHUNK + 1, *HUGE]:
            for length in (0, 1, 15, 16, 17, 33, CHUNK - 1, CHUNK, CHUNK + 17):
                yield key, prefix, first, cases.text(length)


def streamed(key, prefix, first, run):
    """What counter mode answers and leaves, by libcrypto."""
    if len(key) not in cases.KEYS:
        return 1, run
    return 0, archive.exclusive_or(run, keystream(key, prefix, first, len(run)))


# ---- all of them


def main():
    met = set()
    with loaded() as library:
        for case in cases.made():
            if case.key is not None:
                compare("the check of %s" % case.name, (library.checked(case), b""), (case.refusal, b""))
        for case in altered():
            wanted = refusal_of(case)
            if wanted == 0:
                sys.exit("archive ranges: %s: the model accepts it" % case.name)
            compare("the check of %s" % case.name, (library.checked(case), b""), (wanted, b""))
        for case, number, bounds, room in openings():
            wanted = expected(case, number, bounds, room)
            what = "%s, job %r, range %s, %d bytes of room" % (case.name, number, bounds, room)
            compare(what, library.opened(case, number, bounds, room), wanted)
            met.add(wanted[0])
        for key, prefix, first, run in streams():
            what = "counter mode, key of %d bytes, first byte %d, %d bytes" % (len(key), first, len(run))
            compare(what, library.streamed(key, prefix, first, run), streamed(key, prefix, first, run))
    if met != {0, 1} | set(range(5, 21)) | {24, 25, 26}:
        sys.exit("archive ranges: of the refusals only %s were met" % sorted(met))
    print("archive ranges: %d calls agree" % library.calls)


if __name__ == "__main__":
    main()
