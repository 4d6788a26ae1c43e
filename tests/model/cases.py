"""Archives for tests: good ones, each refusal on both sides of its limit, faults in pairs, changed bytes.

Each case made by hand carries the answer it was made for; where it is None, the model alone decides.
What both layouts have in common is made by one group, under no tag key and under one.
"""

import functools
import random
from collections import namedtuple

import archive
import libcrypto

KEYS = {
    16: bytes(range(16)),
    24: bytes(range(24)),
    32: bytes(range(32)),
}
# Each is the front of the next, and none is a key.
TAG_KEYS = {length: bytes(range(0x10, 0x10 + length)) for length in KEYS}
# That of most tagged archives: of another length than most keys.
TAG_KEY = TAG_KEYS[24]


class Case(namedtuple("Case", "name key file refusal tag_key", defaults=[None])):
    """`refusal` is 0 for an archive that is to be accepted, and None where only the model says.
    `key` or `tag_key` None is a missing key.bin or tag.bin."""

    def lent(self):
        """Key, tag key and file, as every call takes them: what is missing is empty."""
        return self.key or b"", self.tag_key or b"", self.file

    def files(self):
        return {"key.bin": self.key, "tag.bin": self.tag_key}

    def input(self):
        return self.file


class Draft:
    """An archive in parts, of layout 2 where there is a tag key. It is good as made; a test then changes a part.

    The tag is libcrypto's, and right whatever part is changed, until a test changes how it is made."""

    def __init__(self, key, archive_number, jobs, tag_key=None):
        """`jobs`: pairs of eight digits and plain bytes, in the order of years."""
        self.key = key
        self.tag_key = tag_key
        self.layout = 2 if tag_key else 1
        self.key_length = len(key)
        self.count = len(jobs)
        self.archive_number = archive_number
        self.key_check = archive.key_check(key)
        self.extra_length = 0  # what the plate's whole length says beyond the truth
        self.entries = []
        self.bodies = []
        self.tail = b""  # what follows the last body
        self.tag = functools.partial(libcrypto.cmac, tag_key) if tag_key else None  # made of all that stands before it
        self.cut = None  # where the finished file is cut off
        start = archive.PLATE + archive.ENTRY * len(jobs)
        for digits, plain in jobs:
            self.entries.append([digits, start, len(plain)])
            stream = archive.keystream(key, archive_number, digits, len(plain))
            self.bodies.append(archive.exclusive_or(plain, stream))
            start += len(plain)

    def file(self):
        contents = b"".join(
            digits + start.to_bytes(4, "big") + length.to_bytes(4, "big")
            for digits, start, length in self.entries
        )
        rest = contents + b"".join(self.bodies) + self.tail
        length = archive.PLATE + len(rest) + (archive.TAG if self.tag else 0) + self.extra_length
        plate = (
            bytes([self.layout, self.key_length])
            + self.count.to_bytes(2, "big")
            + self.archive_number.to_bytes(4, "big")
            + self.key_check
            + length.to_bytes(4, "big")
        )
        tag = self.tag(plate + rest) if self.tag else b""
        return (plate + rest + tag)[: self.cut]

    def change_key_check(self, at, change):
        check = bytearray(self.key_check)
        check[at] ^= change
        self.key_check = bytes(check)

    def case(self, name, refusal):
        return Case(name, self.key, self.file(), refusal, self.tag_key)


def digits(number):
    return b"%08d" % number


def text(length):
    """Plain bytes of a length, no two blocks alike."""
    return b"".join(i.to_bytes(4, "big") for i in range(length // 4 + 1))[:length]


def numbered(lengths, first=24000017):
    """Jobs of the lengths given, numbered upwards."""
    return [(digits(first + i), text(length)) for i, length in enumerate(lengths)]


def filled(lengths, tag_key=None):
    """The lengths, and one more that brings the archive to 65,536 bytes."""
    taken = archive.PLATE + archive.ENTRY * (len(lengths) + 1) + sum(lengths) + (archive.TAG if tag_key else 0)
    return lengths + [archive.LONGEST_FILE - taken]


def whole_length_set(file):
    """The file, its plate's whole length put right."""
    return file[:16] + len(file).to_bytes(4, "big") + file[20:]


def tag_set(tag_key, file):
    """The file, its last sixteen bytes the tag of those before."""
    front = file[: -archive.TAG]
    return front + libcrypto.cmac(tag_key, front)


def sample(tag_key=None):
    """The archive of document 01's example, with a plain text of five bytes."""
    return Draft(KEYS[16], 7, [(b"24000017", b"dried"), (b"24000018", b"")], tag_key)


def three_jobs(tag_key=None, key=KEYS[16]):
    return Draft(key, 7, numbered([5, 0, 20]), tag_key)


def wrong_tag():
    draft = three_jobs(TAG_KEY)
    draft.tag = lambda front: bytes(archive.TAG)
    return draft.case("three jobs and a wrong tag", 25)


def full(tag_key=None, key=KEYS[16]):
    """One job, 65,536 bytes in all."""
    return Draft(key, 7, numbered(filled([], tag_key)), tag_key)


def long_job(key, length, tag_key=None):
    """A job of so many bytes, 24000017, behind one that is no whole number of blocks, and one of no bytes behind it."""
    jobs = [(b"24000016", text(13)), (b"24000017", text(length)), (b"24000018", b"")]
    name = "a job of %d bytes%s" % (length, ", tagged" if tag_key else "")
    return Draft(key, 0x01020304, jobs, tag_key).case(name, 0)


# ---- under no tag key and under one


def good(tag_key):
    yield sample(tag_key).case("sample", 0)
    for length, key in KEYS.items():
        for lengths in ([], [0], [1], [15], [16], [17], [0, 0, 0], [5, 0, 20], [33, 1, 16, 0, 100]):
            yield Draft(key, 7, numbered(lengths), tag_key).case("good: key %d, bodies %s" % (length, lengths), 0)
        yield Draft(key, 7, numbered(range(64)), tag_key).case("good: key %d, 64 jobs" % length, 0)
        yield Draft(key, 7, numbered([0] * 64), tag_key).case("good: key %d, 64 empty jobs" % length, 0)
        yield full(tag_key, key).case("good: key %d, one job, 65,536 bytes" % length, 0)
    for archive_number in (0, 1, 0x01020304, 0x80000000, 0xFFFFFFFF):
        draft = Draft(KEYS[16], archive_number, numbered([40, 3]), tag_key)
        yield draft.case("good: archive number %d" % archive_number, 0)
    for count in (9, 10, 11, 63, 64):
        yield Draft(KEYS[32], 7, numbered([7] * count), tag_key).case("good: %d jobs of 7 bytes" % count, 0)
    # starts and lengths on both sides of each number of decimal digits
    for length in (9, 10, 11, 63, 64, 99, 100, 101, 963, 964, 999, 1000, 9963, 9964, 9999, 10000, 12345):
        yield Draft(KEYS[16], 7, numbered([length, 2, 0]), tag_key).case("good: body of %d bytes" % length, 0)
    spread = filled([0, 1, 255, 256, 257, 4095, 4096, 4097], tag_key)
    yield Draft(KEYS[24], 7, numbered(spread), tag_key).case("good: nine jobs, 65,536 bytes", 0)
    most = filled([1008] * 63, tag_key)
    yield Draft(KEYS[16], 7, numbered(most), tag_key).case("good: 64 jobs, 65,536 bytes", 0)
    ends = [(b"70000000", b"a"), (b"99999999", b"bc"), (b"00000000", b""), (b"69999999", b"def")]
    yield Draft(KEYS[16], 7, ends, tag_key).case("good: first and last job numbers of both spans", 0)


# Lengths of key files and of tag files.
LENGTHS = [*range(65), 100, 255, 256, 4096, 65537]


def key_lengths(tag_key):
    """1, and with it 8: the same archives under key files of every length."""
    yield Case("no key.bin", None, sample(tag_key).file(), 1, tag_key)
    yield Case("no key.bin, empty archive", None, b"", 1, tag_key)
    for length in [0, 15, 16, 17, 23, 24, 25, 31, 32, 33] if tag_key else LENGTHS:
        key = (bytes(range(256)) * 257)[:length]
        for plate_length in (16, 24, 32):
            file = three_jobs(tag_key, KEYS[plate_length]).file()
            if length not in KEYS:
                refusal = 1
            else:
                refusal = 0 if length == plate_length else 8
            yield Case("key file of %d bytes, plate says %d" % (length, plate_length), key, file, refusal, tag_key)
        yield Case("key file of %d bytes, empty archive" % length, key, b"", 5 if length in KEYS else 1, tag_key)


def file_lengths(tag_key):
    """5 and 6."""
    whole = Draft(KEYS[16], 7, [], tag_key).file()
    for length in range(20):
        yield Case("file of %d bytes" % length, KEYS[16], whole[:length], 5, tag_key)
        yield Case("file of %d zero bytes" % length, KEYS[16], bytes(length), 5, tag_key)
    yield Case("file of %d bytes" % len(whole), KEYS[16], whole, 0, tag_key)
    fullest = filled([], tag_key)[0]
    for length in (65535, 65536, 65537, 65538, 70000, 131072):
        draft = Draft(KEYS[16], 7, numbered([fullest + length - 65536]), tag_key)
        yield draft.case("file of %d bytes" % length, 6 if length > 65536 else 0)
    yield Case("65,536 good bytes and one more", KEYS[16], full(tag_key).file() + b"\0", 6, tag_key)
    yield Case("file of 65,536 zero bytes", KEYS[16], bytes(65536), 7, tag_key)
    yield Case("file of 65,537 zero bytes", KEYS[16], bytes(65537), 6, tag_key)


def plates(tag_key):
    """7 to 12, and 24."""
    for layout in (0, 3, 0x81, 0x82, 255):
        draft = three_jobs(tag_key)
        draft.layout = layout
        yield draft.case("layout byte %d" % layout, 7)
    for draft in (three_jobs(tag_key), Draft(KEYS[16], 7, [], tag_key)):
        _other_layout(draft)
        yield draft.case("layout byte %d before %d jobs" % (draft.layout, draft.count), 24)
    for key_length in (0, 1, 15, 17, 23, 24, 25, 32, 33, 128, 144, 255):
        draft = three_jobs(tag_key)
        draft.key_length = key_length
        yield draft.case("plate's key length %d under 16" % key_length, 8)

    for count, lengths in ((64, [0] * 64), (65, [0] * 65), (66, [0] * 66), (200, [0] * 200)):
        draft = Draft(KEYS[16], 7, numbered(lengths), tag_key)
        yield draft.case("%d entries and as many in the plate" % count, 9 if count > 64 else 0)
    for count, refusal in ((64, 11), (65, 9), (256, 9), (257, 9), (320, 9), (65535, 9)):
        draft = three_jobs(tag_key)
        draft.count = count
        yield draft.case("count %d before three entries" % count, refusal)

    for extra in (-45, -16, -1, 1, 16, 45, 0x100, 0x10000, 0x1000000, 0x80000000):
        draft = three_jobs(tag_key)
        draft.extra_length = extra
        yield draft.case("whole length off by %d" % extra, 10)

    for count in (1, 2, 3, 63, 64):
        draft = Draft(KEYS[16], 7, numbered([0] * count), tag_key)
        yield draft.case("%d entries and no body" % count, 0)
        short = whole_length_set(draft.file()[:-1])
        yield Case("%d entries and a byte short" % count, KEYS[16], short, 11, tag_key)
    draft = Draft(KEYS[16], 7, [], tag_key)
    draft.count = 1
    yield draft.case("count 1 and no entry", 11)
    draft.tail = bytes(15)
    yield draft.case("count 1 and 15 bytes", 11)

    for at in range(8):
        for change in (0x01, 0x80, 0xFF):
            draft = three_jobs(tag_key)
            draft.change_key_check(at, change)
            yield draft.case("key check byte %d changed by %02x" % (at, change), 12)
    for length, key in KEYS.items():
        wrong = bytearray(key)
        wrong[-1] ^= 1
        file = three_jobs(tag_key, key).file()
        yield Case("another key of %d bytes" % length, bytes(wrong), file, 12, tag_key)


def no_jobs(tag_key):
    """12 where no entry is left to check, alone and before 17; and 10 before both."""
    for length, key in KEYS.items():
        for tail in (0, 1, 16, 255, 256):
            what = "no jobs, key %d, %d bytes after the plate" % (length, tail)
            for at in (0, 7):
                draft = Draft(key, 7, [], tag_key)
                draft.tail = bytes(tail)
                draft.change_key_check(at, 1)
                yield draft.case("%s, key check byte %d wrong" % (what, at), 12)
                draft.extra_length = 1
                yield draft.case("%s, key check byte %d and whole length wrong" % (what, at), 10)
            draft = Draft(key, 7, [], tag_key)
            draft.tail = bytes(tail)
            yield Case("%s, another key" % what, key[:-1] + b"\0", draft.file(), 12, tag_key)


def entries(tag_key):
    """13 to 17."""
    for index in range(3):
        for at in range(8):
            for byte in (0x2F, 0x3A, 0x00, 0x20, 0xB0, 0xFF):
                draft = three_jobs(tag_key)
                number = bytearray(draft.entries[index][0])
                number[at] = byte
                draft.entries[index][0] = bytes(number)
                yield draft.case("entry %d, digit %d is byte %02x" % (index, at, byte), 13)

    # each digit one lower and one higher, in either span of years
    for first in (b"55555555", b"85555555"):
        seconds = [(first, 14)]
        for at in range(8):
            digit = first[at] - 0x30
            seconds.append((first[:at] + b"%d" % (digit - 1) + b"9" * (7 - at), 14))
            seconds.append((first[:at] + b"%d" % (digit + 1) + b"0" * (7 - at), 0))
        for second, refusal in seconds:
            draft = Draft(KEYS[16], 7, [(first, b"first"), (second, b"second")], tag_key)
            yield draft.case("%s then %s" % (first.decode(), second.decode()), refusal)
    for last, refusal in ((24000079, 14), (24000078, 14), (24000080, 0)):
        jobs = numbered([1] * 63)
        draft = Draft(KEYS[16], 7, jobs + [(digits(last), b"x")], tag_key)
        yield draft.case("63 ascending, then %d" % last, refusal)
    for index in range(3):
        for off in (-20, -16, -1, 1, 16, 0x100, 0x10000, 0x1000000, 0x80000000):
            draft = three_jobs(tag_key)
            draft.entries[index][1] += off
            yield draft.case("entry %d starts %d off" % (index, off), 15)
        for start in (0, 20, 0xFFFFFFFF):
            draft = three_jobs(tag_key)
            draft.entries[index][1] = start
            yield draft.case("entry %d starts at %d" % (index, start), 15)
    draft = three_jobs(tag_key)
    draft.entries[1][1] = draft.entries[0][1]
    yield draft.case("entry 1 starts at entry 0's start", 15)
    draft = three_jobs(tag_key)
    draft.entries[0][2] += 1
    yield draft.case("entry 0 runs into the next", 15)
    draft = three_jobs(tag_key)
    draft.entries[0][2] -= 1
    yield draft.case("a gap after entry 0", 15)

    for index in range(3):
        start = three_jobs().entries[index][1]
        room = len(three_jobs().file()) - start
        # where a tag follows: to its first byte, its last but one, the file's end, and past it
        for length in (
            room + 1,
            room + 15,
            room + 16,
            room + 17,
            room + 0x100,
            room + 0x10000,
            0x7FFFFFFF,
            0x80000000,
            2**32 - start,
            2**32 - 1,
        ):
            draft = three_jobs(tag_key)
            draft.entries[index][2] = length
            yield draft.case("entry %d is %d bytes long" % (index, length), 16)
    draft = three_jobs(tag_key)
    draft.bodies[2] = draft.bodies[2][:-1]
    yield draft.case("the last body lacks a byte", 16)
    draft = Draft(KEYS[16], 7, numbered([0]), tag_key)
    draft.entries[0][2] = 1
    yield draft.case("one byte claimed past the contents", 16)

    for count in (1, 2, 16, 255, 256):
        draft = three_jobs(tag_key)
        draft.tail = bytes(count)
        yield draft.case("%d bytes after the last body" % count, 17)
        draft = Draft(KEYS[16], 7, [], tag_key)
        draft.tail = bytes(count)
        yield draft.case("no jobs and %d bytes" % count, 17)
        draft = Draft(KEYS[16], 7, numbered([0, 0]), tag_key)
        draft.tail = bytes(count)
        yield draft.case("empty bodies and %d bytes" % count, 17)
    draft = three_jobs(tag_key)
    draft.entries[2][2] -= 1
    yield draft.case("the last entry leaves a byte", 17)
    draft = three_jobs(tag_key)
    draft.count = 2
    yield draft.case("two counted of three entries", 15)
    draft = three_jobs(tag_key)
    draft.count = 0
    yield draft.case("none counted of three entries", 17)


# Job numbers in order: 1970 to 1999, then 2000 to 2069. Both sides of both ends of each span.
IN_ORDER = [b"70000000", b"70999999", b"71000000", b"97000004", b"98999999", b"99000000", b"99999999"]
IN_ORDER += [b"00000000", b"00999999", b"01000000", b"05000001", b"68999999", b"69000000", b"69999999"]


def many(numbers):
    """Jobs of these numbers."""
    return [(number, text(i % 5)) for i, number in enumerate(numbers)]


def spans(tag_key):
    """14 by the order of years, where there are many jobs."""
    # by the plain number is from 00000000 on
    for start in range(len(IN_ORDER)):
        turned = IN_ORDER[start:] + IN_ORDER[:start]
        draft = Draft(KEYS[24], 7, many(turned), tag_key)
        yield draft.case("jobs of both spans, from %s on" % turned[0].decode(), 14 if start else 0)
    old = [digits(97000000 + i) for i in range(32)]
    new = [digits(5000000 + i) for i in range(32)]
    for numbers, name, refusal in (
        (old + new, "32 old jobs, then 32 new", 0),
        (new + old, "32 new jobs, then 32 old", 14),
        (new[:1] + old, "a new job, then 32 old", 14),
        (new + old[:1], "32 new jobs, then an old one", 14),
        (old + new[:1] + [digits(97000032)], "32 old jobs, a new one, then an old one", 14),
    ):
        yield Draft(KEYS[32], 7, many(numbers), tag_key).case(name, refusal)


# ---- faults that can be put into one draft together


def _short_key(draft):
    draft.key = draft.key[:15]


def _short_tag_key(draft):
    draft.tag_key = TAG_KEY[:15]


def _cut(draft):
    draft.cut = 19


def _long(draft):
    draft.tail = b""
    draft.tail = bytes(65537 - len(draft.file()))


def _layout(draft):
    draft.layout = 3


def _other_layout(draft):
    draft.layout = 1 if draft.tag else 2


def _other_tag_key(draft):
    draft.tag_key = None if draft.tag else TAG_KEY


def _key_length(draft):
    draft.key_length = 24


def _count(draft):
    draft.count = 65


def _whole_length(draft):
    draft.extra_length = 1


def _contents(draft):
    draft.count = 60


def _key_check(draft):
    draft.key_check = bytes(8)


def _tail(draft):
    draft.tail = b"\0"


def _tag(draft):
    draft.tag = lambda front: bytes(archive.TAG)


Fault = namedtuple("Fault", "name number put")

# In the order in which they are met: before the entries, in them, and after them.
FRONT_FAULTS = [
    Fault("1", 1, _short_key),
    Fault("1 of the tag key", 1, _short_tag_key),
    Fault("5", 5, _cut),
    Fault("6", 6, _long),
    Fault("7", 7, _layout),
    Fault("24", 24, _other_layout),
    Fault("24 by the tag key", 24, _other_tag_key),
    Fault("8", 8, _key_length),
    Fault("9", 9, _count),
    Fault("10", 10, _whole_length),
    Fault("11", 11, _contents),
    Fault("12", 12, _key_check),
]


def _no_digit(draft, index):
    draft.entries[index][0] = draft.entries[index][0][:7] + b"/"


def _not_above(draft, index):
    draft.entries[index][0] = draft.entries[index - 1][0]


def _start(draft, index):
    draft.entries[index][1] += 1


def _length(draft, index):
    draft.entries[index][2] = 2**32 - 1


ENTRY_FAULTS = {13: _no_digit, 14: _not_above, 15: _start, 16: _length}


def end_faults(tag_key):
    return [Fault("17", 17, _tail)] + ([Fault("25", 25, _tag)] if tag_key else [])


def faulty(jobs, tag_key):
    """Archives of the jobs with one fault each: its name and number, the entry that has it and the draft.
    The entry is -1 for a fault that is met before all entries, and their count for one that is met after them."""
    for place, faults in ((-1, FRONT_FAULTS), (len(jobs), end_faults(tag_key))):
        for fault in faults:
            draft = Draft(KEYS[16], 7, jobs, tag_key)
            fault.put(draft)
            yield fault.name, fault.number, place, draft
    for number, put in ENTRY_FAULTS.items():
        for index in range(len(jobs)):
            if (number, index) != (14, 0):  # entry 0 has none before it
                draft = Draft(KEYS[16], 7, jobs, tag_key)
                put(draft, index)
                yield "%d in entry %d" % (number, index), number, index, draft


def years_and_faults(tag_key):
    """14 by the order of years beside another fault, and faults beside jobs of both spans that are in order."""
    for numbers, refusal in (
        ([5000001, 97000004], 14),
        ([97000004, 5000001], 0),
        ([97000017, 97000018, 97000019], 0),
        ([99999998, 99999999, 0], 0),
    ):
        jobs = [(digits(number), text(3 + i)) for i, number in enumerate(numbers)]
        for name, number, place, draft in faulty(jobs, tag_key):
            met = number
            # the one 14 is in entry 1
            if refusal and place >= 1:
                met = min(refusal, number) if place == 1 else refusal
            yield draft.case("%s, fault %s" % (b" ".join(n for n, _ in jobs).decode(), name), met)


def pairs(tag_key):
    """Two faults in one archive: the answer is the one that stands first in the order."""
    whole = FRONT_FAULTS + end_faults(tag_key)
    for i, first in enumerate(whole):
        for second in whole[i + 1 :]:
            # a file is not both too short and too long; and the other layout is right under the other tag key
            if (first.number, second.number) not in ((5, 6), (24, 24)):
                draft = three_jobs(tag_key)
                second.put(draft)
                first.put(draft)
                yield draft.case("faults %s and %s" % (first.name, second.name), first.number)
    for fault in whole:
        for number, put in ENTRY_FAULTS.items():
            for index in range(3):
                if (number, index) == (14, 0):
                    continue
                draft = three_jobs(tag_key)
                put(draft, index)
                fault.put(draft)
                name = "faults %s and %d in entry %d" % (fault.name, number, index)
                yield draft.case(name, fault.number if fault in FRONT_FAULTS else number)
    for first in ENTRY_FAULTS:
        for second in ENTRY_FAULTS:
            for i in range(3):
                for j in range(i, 3):
                    if (first, i) == (14, 0) or (second, j) == (14, 0):
                        continue
                    if i == j and first >= second:
                        continue
                    draft = three_jobs(tag_key)
                    ENTRY_FAULTS[second](draft, j)
                    ENTRY_FAULTS[first](draft, i)
                    name = "faults %d in entry %d and %d in entry %d" % (first, i, second, j)
                    yield draft.case(name, first)


def pile(tag_key):
    """Every fault from one on, all at once."""
    order = [fault for fault in FRONT_FAULTS if fault.put != _other_tag_key]
    order += [Fault(str(number), number, functools.partial(put, index=1)) for number, put in ENTRY_FAULTS.items()]
    order += end_faults(tag_key)
    for lowest, fault in enumerate(order):
        draft = three_jobs(tag_key)
        for other in reversed(order[lowest:]):
            # a cut file hides the rest, and a long one cannot be cut as well
            if other.number != 5 or other is fault:
                other.put(draft)
        yield draft.case("every fault from %s on" % fault.name, fault.number)


# ---- under no tag key


def years():
    """14 by the order of years, where there are two jobs, or one of each year."""
    for i, first in enumerate(IN_ORDER):
        for j, second in enumerate(IN_ORDER):
            draft = Draft(KEYS[16], 7, [(first, b"first"), (second, b"second")])
            yield draft.case("%s then %s" % (first.decode(), second.decode()), 0 if i < j else 14)
    each_year = [digits(year % 100 * 10**6) for year in range(1970, 2070)]
    for start in (0, 36):
        part = each_year[start : start + 64]
        draft = Draft(KEYS[16], 7, many(part))
        yield draft.case("a job of each year, %s to %s" % (part[0].decode(), part[-1].decode()), 0)
    for year, next_year in zip(each_year, each_year[1:]):
        draft = Draft(KEYS[16], 7, many([next_year, year]))
        yield draft.case("%s, and then the year before" % next_year.decode(), 14)


# ---- what only a tag key brings


def byte_set(file, at, value):
    return file[:at] + bytes([value]) + file[at + 1 :]


def good_tags():
    """Every length of key with every length of tag key; the two may be the same bytes."""
    for length, key in KEYS.items():
        for tag_length, tag_key in TAG_KEYS.items():
            what = "good: key %d, tag key %d" % (length, tag_length)
            for lengths in ([], [0], [28], [29], [44, 0, 3]):
                yield Draft(key, 7, numbered(lengths), tag_key).case("%s, bodies %s" % (what, lengths), 0)
        yield three_jobs(key, key).case("good: the key of %d bytes for both" % length, 0)
    for tag_length in (16, 32):
        tag_key = TAG_KEYS[tag_length]
        draft = Draft(KEYS[16], 7, numbered(filled([1008] * 63, tag_key)), tag_key)
        yield draft.case("good: tag key %d, 64 jobs, 65,536 bytes" % tag_length, 0)


def tag_key_lengths():
    """1 of the tag key, 24 and 25: archives of both layouts under tag files of every length.
    A longer tag file begins with the right tag key."""
    bytes_of_tag_keys = bytes(range(0x10, 0x100)) * 300
    for length in LENGTHS:
        tag_key = bytes_of_tag_keys[:length]
        nearest = max(size for size in KEYS if size <= max(length, 16))
        if length == 0:
            refusals = [0, 24, 5]
        else:
            refusals = [24, 0, 5] if length in KEYS else [1, 1, 1]
        files = [three_jobs().file(), three_jobs(TAG_KEYS[nearest]).file(), b""]
        for what, file, refusal in zip(("layout 1", "layout 2", "empty archive"), files, refusals):
            yield Case("tag file of %d bytes, %s" % (length, what), KEYS[16], file, refusal, tag_key)
    for length in (0, 1, 15, 16, 17, 23, 25, 31, 33, 40):
        for key in (None, b"", KEYS[16][:15], KEYS[32] + b"\0"):
            what = "no key" if key is None else "key of %d bytes" % len(key)
            name = "%s, tag key of %d bytes, layout 2" % (what, length)
            yield Case(name, key, three_jobs(TAG_KEY).file(), 1, bytes_of_tag_keys[:length])
    for length, tag_key in TAG_KEYS.items():
        for made_length, made_under in TAG_KEYS.items():
            if length != made_length:
                what = "tag under %d bytes of the tag key, and read under %d" % (made_length, length)
                yield Case(what, KEYS[16], three_jobs(made_under).file(), 25, tag_key)


def layouts():
    """24 both ways, and what is read as layout 1 where tag.bin is empty."""
    for none, what in ((None, "no tag.bin"), (b"", "empty tag.bin")):
        yield Case("%s, layout 1" % what, KEYS[16], three_jobs().file(), 0, none)
        yield Case("%s, layout 1, no jobs" % what, KEYS[16], Draft(KEYS[16], 7, []).file(), 0, none)
        yield Case("%s, layout 2" % what, KEYS[16], three_jobs(TAG_KEY).file(), 24, none)
        yield Case("%s, layout 2, no jobs" % what, KEYS[16], Draft(KEYS[16], 7, [], TAG_KEY).file(), 24, none)
        # a tag is nothing but bytes that remain
        draft = three_jobs(TAG_KEY)
        draft.layout = 1
        yield Case("%s, layout 1 and a tag" % what, KEYS[16], draft.file(), 17, none)
        draft = Draft(KEYS[16], 7, [])
        draft.layout = 2
        yield Case("%s, 20 bytes with layout 2" % what, KEYS[16], draft.file(), 24, none)
        yield Case("%s, empty archive" % what, KEYS[16], b"", 5, none)
    for length, tag_key in TAG_KEYS.items():
        yield Case("tag key of %d bytes, layout 1" % length, KEYS[16], three_jobs().file(), 24, tag_key)
        draft = three_jobs(tag_key)
        draft.layout = 1
        yield draft.case("tag key of %d bytes, layout 1 and a tag" % length, 24)
        # layout 2 without its tag: the last bodies are where the tag ought to be
        for draft, refusal in ((sample(), 11), (three_jobs(), 16), (Draft(KEYS[16], 7, numbered([16])), 16)):
            draft.layout = 2
            draft.tag_key = tag_key
            yield draft.case("tag key of %d bytes, no tag after %d jobs" % (length, draft.count), refusal)


def short_of_the_tag():
    """11 where contents and tag do not both fit, down to where the contents alone do."""
    for count in (0, 1, 2, 64):
        whole = Draft(KEYS[16], 7, numbered([0] * count), TAG_KEY).file()
        for lacking in range(1, 17):
            file = whole_length_set(whole[:-lacking])
            yield Case("%d entries and %d bytes" % (count, 16 - lacking), KEYS[16], file, 11, TAG_KEY)
        # the tag right over what is before it, though it takes up a part of the last entry
        for lacking in (1, 8, 16) if count else ():
            file = tag_set(TAG_KEY, whole_length_set(whole[:-lacking]))
            name = "%d entries, the tag from %d bytes before their end on" % (count, lacking)
            yield Case(name, KEYS[16], file, 11, TAG_KEY)


def tags():
    """25: a wrong tag, right bytes before it."""
    right = functools.partial(libcrypto.cmac, TAG_KEY)
    wrong = {
        "zero": lambda front: bytes(16),
        "sixteen bytes ff": lambda front: b"\xff" * 16,
        "under the key": lambda front: libcrypto.cmac(KEYS[16], front),
        "under the tag key's first 16 bytes": lambda front: libcrypto.cmac(TAG_KEYS[16], front),
        "under the tag key and zero bytes": lambda front: libcrypto.cmac(TAG_KEY.ljust(32, b"\0"), front),
        "of all but the last byte": lambda front: right(front[:-1]),
        "of all but the first byte": lambda front: right(front[1:]),
        "of a byte more": lambda front: right(front + b"\0"),
        "of all with a tag of zero bytes": lambda front: right(front + bytes(16)),
        "of no bytes": lambda front: right(b""),
        "of the plate": lambda front: right(front[:20]),
        "of what follows the plate": lambda front: right(front[20:]),
        "of the bodies": lambda front: right(front[68:]),
        "of the bytes with layout 1": lambda front: right(b"\1" + front[1:]),
        "of the bytes with a whole length less the tag": lambda front: right(whole_length_set(front)),
        "of the bytes filled up by zero bytes": lambda front: right(front.ljust(96, b"\0")),
        "of the bytes filled up by 80 and zero bytes": lambda front: right((front + b"\x80").ljust(96, b"\0")),
        "of another archive": lambda front: right(sample().file()),
        "encrypted once more": lambda front: libcrypto.forward(TAG_KEY, right(front)),
        "turned round": lambda front: right(front)[::-1],
        "its first byte last": lambda front: right(front)[1:] + right(front)[:1],
        "its halves swapped": lambda front: right(front)[8:] + right(front)[:8],
        "eight bytes of it": lambda front: right(front)[:8] + bytes(8),
        "its bytes one place on": lambda front: b"\0" + right(front)[:15],
    }
    for name, made in wrong.items():
        draft = three_jobs(TAG_KEY)
        draft.tag = made
        yield draft.case("the tag is %s" % name, 25)
    file = three_jobs(TAG_KEY).file()
    for at in range(-16, 0):
        for change in (0x01, 0x80, 0xFF):
            changed = byte_set(file, len(file) + at, file[at] ^ change)
            yield Case("tag byte %d changed by %02x" % (16 + at, change), KEYS[16], changed, 25, TAG_KEY)
    # so that the exclusive-or of all differences is 0, and in the second their sum modulo 256 too
    changed = file[:-2] + bytes([file[-2] ^ 0x55, file[-1] ^ 0x55])
    yield Case("two tag bytes changed alike", KEYS[16], changed, 25, TAG_KEY)
    changed = file[:-16] + bytes(byte ^ 0x80 for byte in file[-16:])
    yield Case("all tag bytes changed by 80", KEYS[16], changed, 25, TAG_KEY)
    for length, tag_key in TAG_KEYS.items():
        key, file = KEYS[length], three_jobs(tag_key, KEYS[length]).file()
        for at in (0, length // 2, length - 1):
            other = byte_set(tag_key, at, tag_key[at] ^ 1)
            yield Case("tag key of %d bytes, byte %d of another" % (length, at), key, file, 25, other)
        yield Case("key for tag key, %d bytes" % length, key, file, 25, key)
    for lengths in ([], [0], [27], [28], [4000]):
        file = Draft(KEYS[32], 7, numbered(lengths), TAG_KEYS[16]).file()
        changed = byte_set(file, len(file) - 1, file[-1] ^ 1)
        yield Case("bodies %s and another tag" % lengths, KEYS[32], changed, 25, TAG_KEYS[16])
    # bytes that no other rule looks at
    file = full(TAG_KEY).file()
    for at in (4, 7, 27, 36, 4096, 32768, 65519, 65520, 65535):
        changed = byte_set(file, at, file[at] ^ 1)
        yield Case("65,536 bytes, byte %d changed" % at, KEYS[16], changed, 25, TAG_KEY)


def cuts(draft):
    """Every cut of a tagged archive: as it is, with the whole length put right, and with the tag put right too.
    The last body that has bytes ends at the tag, so a cut takes some of them."""
    file, key, tag_key = draft.file(), draft.key, draft.tag_key
    for length in range(len(file)):
        yield Case("cut to %d bytes" % length, key, file[:length], 10 if length >= 20 else 5, tag_key)
        if length >= 20:
            refusal = 16 if length >= 36 + 16 * draft.count else 11
            cut = whole_length_set(file[:length])
            yield Case("cut to %d bytes, and the plate says so" % length, key, cut, refusal, tag_key)
            if length >= 36:
                yield Case("cut to %d bytes and tagged anew" % length, key, tag_set(tag_key, cut), refusal, tag_key)


def longer():
    """Bytes behind the tag: the whole length as it was, put right, and with a last body that takes up the tag."""
    file = three_jobs(TAG_KEY).file()
    for count in (1, 2, 15, 16, 17, 32, 255):
        for what, more in (("zero bytes", bytes(count)), ("bytes of the tag", (file[-16:] * 16)[:count])):
            name = "%d %s behind the tag" % (count, what)
            yield Case(name, KEYS[16], file + more, 10, TAG_KEY)
            yield Case("%s, and the plate says so" % name, KEYS[16], whole_length_set(file + more), 17, TAG_KEY)
            last = three_jobs(TAG_KEY)
            last.entries[2][2] += count
            reaching = whole_length_set(last.file()[:-16] + file[-16:] + more)
            yield Case("%s, in the last body" % name, KEYS[16], reaching, 25, TAG_KEY)


# ---- changed bytes


def changed_jobs(key, tag_key=None):
    return Draft(key, 0x01020304, numbered([3, 0, 18]), tag_key)


def changes():
    """Every single byte of a good archive of three jobs changed, to several values each."""
    for length, key in KEYS.items():
        file = changed_jobs(key).file()
        for at, byte in enumerate(file):
            values = {byte ^ 1, byte ^ 0x80, 0, 0xFF, (byte + 1) % 256, (byte - 1) % 256} - {byte}
            for value in sorted(values):
                name = "key %d, byte %d set to %02x" % (length, at, value)
                yield Case(name, key, byte_set(file, at, value), None)


def tagged_changes():
    """The same where there is a tag, to two values each: every one is refused."""
    file = changed_jobs(KEYS[16], TAG_KEY).file()
    for at, byte in enumerate(file):
        for change in (0x01, 0x80):
            name = "tagged, byte %d changed by %02x" % (at, change)
            yield Case(name, KEYS[16], byte_set(file, at, byte ^ change), None, TAG_KEY)


def random_changes(seed, count):
    """Good archives with up to three random changes; the seed settles them all.
    Half have a tag, which is put right again in half of these. Some are read under another tag key, or under none."""
    generator = random.Random(seed)
    for i in range(count):
        key = KEYS[generator.choice((16, 24, 32))]
        numbers = [digits(n) for n in generator.sample(range(10**8), generator.randrange(6))]
        numbers.sort(key=archive.place if generator.randrange(4) else int)
        jobs = [(number, generator.randbytes(generator.choice((0, 1, 16, 17, 40)))) for number in numbers]
        tag_key = generator.choice((None, None, None, *TAG_KEYS.values()))
        file = Draft(key, generator.randrange(2**32), jobs, tag_key).file()
        for _ in range(generator.randrange(4)):
            how = generator.randrange(4)
            at = generator.randrange(len(file))
            if how == 0:
                file = byte_set(file, at, generator.randrange(256))
            elif how == 1:
                file = byte_set(file, at, file[at] ^ 1 << generator.randrange(8))
            elif how == 2:
                file = whole_length_set(file[: max(20, at)])
            else:
                file = whole_length_set(file + generator.randbytes(generator.randrange(1, 20)))
        if tag_key and generator.randrange(2):
            file = tag_set(tag_key, file)
        if generator.randrange(16) == 0:
            tag_key = generator.choice((None, b"", *TAG_KEYS.values()))
        yield Case("random case %d of seed %d" % (i, seed), key, file, None, tag_key)


BOTH = (good, key_lengths, file_lengths, plates, no_jobs, entries, spans, years_and_faults, pairs, pile)
TAGGED = (good_tags, tag_key_lengths, layouts, short_of_the_tag, tags, longer)


def made():
    """Every case that was made for a known answer."""
    for group in BOTH:
        yield from group(None)
        for case in group(TAG_KEY):
            yield case._replace(name="layout 2: " + case.name)
    for group in (years, *TAGGED):
        yield from group()
    yield from cuts(sample(TAG_KEYS[32]))
