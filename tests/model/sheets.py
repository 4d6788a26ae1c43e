"""Job sheets for tests of sealing, with key files and plain bytes: good ones, each refusal on both sides of its limit, faults in pairs,
changed bytes; and the sheets of archives, from which these have to come out again.

Each case made by hand carries the answer it was made for; where it is None, the model alone decides.
What both layouts have in common is made by one group, under no tag key and under one.
"""

import random
from collections import namedtuple

import archive
from cases import IN_ORDER, KEYS, TAG_KEY, TAG_KEYS, byte_set, digits, filled

# Its fronts are the keys of cases.py.
KEY_FILE = bytes(range(256)) * 257
TAG_FILE = bytes(range(0x10, 0x100)) * 300
PLAIN = random.Random(0).randbytes(300000)
# What the first byte of a sheet may say, and the key length that it means.
KEY_LENGTHS = {0: 32, 16: 16, 24: 24, 32: 32}
# Lengths of sheets: all short ones, and about those of 64 and 65 jobs, of pages, of what the program reads at a time, and of 30,000 jobs.
SHEET_LENGTHS = [*range(41), *range(760, 800), *range(4088, 4108), *range(4880, 4900), *range(8188, 8200), *range(8976, 8992)]
SHEET_LENGTHS += [*range(65530, 65548), *range(360000, 360020)]


class Case(namedtuple("Case", "name key_file tag_key sheet plain refusal")):
    """`refusal` is 0 where an archive is to be sealed, and None where only the model says.
    `key_file`, `tag_key` or `sheet` None is a missing key.bin, tag.bin or sheet.bin."""

    def lent(self):
        """Key file, tag key, sheet and plain bytes, as the call takes them: what is missing is empty."""
        return self.key_file or b"", self.tag_key or b"", self.sheet or b"", self.plain

    def files(self):
        return {"key.bin": self.key_file, "tag.bin": self.tag_key, "sheet.bin": self.sheet}

    def input(self):
        return self.plain


class Sheet:
    """A sheet in parts, and what goes with it. It is good as made; a test then changes a part."""

    def __init__(self, lengths=(5, 0, 20), tag_key=None, key_length=16):
        """Jobs of these lengths, numbered upwards."""
        self.key_file = KEY_FILE[: KEY_LENGTHS[key_length]]
        self.tag_key = tag_key
        self.key_length = key_length
        self.archive_number = 7
        self.lines = [[digits(24000017 + i), length] for i, length in enumerate(lengths)]
        self.tail = b""  # what follows the last line
        self.plain = text(sum(lengths))

    def sheet(self):
        lines = b"".join(number + length.to_bytes(4, "big") for number, length in self.lines)
        return bytes([self.key_length]) + self.archive_number.to_bytes(4, "big") + lines + self.tail

    def case(self, name, refusal):
        return Case(name, self.key_file, self.tag_key, self.sheet(), self.plain, refusal)


def text(length):
    """So many plain bytes."""
    return PLAIN[:length]


def sample(tag_key=None):
    """The sheet of document 01's example."""
    sheet = Sheet([5, 0], tag_key)
    sheet.plain = b"dried"
    return sheet


def numbered(numbers, tag_key=None):
    """Jobs of these numbers, some of no bytes."""
    sheet = Sheet([i % 5 for i in range(len(numbers))], tag_key)
    for line, number in zip(sheet.lines, numbers):
        line[0] = number
    return sheet


# ---- under no tag key and under one


def good(tag_key):
    yield sample(tag_key).case("sample", 0)
    for key_length in KEY_LENGTHS:
        what = "good: %d on the sheet" % key_length
        for lengths in ([], [0], [1], [15], [16], [17], [0, 0, 0], [5, 0, 20], [33, 1, 16, 0, 100], [4095, 4096, 4097, 3], [28], [29]):
            yield Sheet(lengths, tag_key, key_length).case("%s, bodies %s" % (what, lengths), 0)
        yield Sheet(range(64), tag_key, key_length).case("%s, 64 jobs" % what, 0)
        yield Sheet([0] * 64, tag_key, key_length).case("%s, 64 empty jobs" % what, 0)
        yield Sheet(filled([], tag_key), tag_key, key_length).case("%s, one job, 65,536 bytes" % what, 0)
        for length in (33, 48, 64, 4096):
            sheet = Sheet(tag_key=tag_key, key_length=key_length)
            sheet.key_file = KEY_FILE[:length]
            yield sheet.case("%s, key file of %d bytes" % (what, length), 0)
    for archive_number in (0, 1, 0x01020304, 0x80000000, 0xFFFFFFFF):
        sheet = Sheet([40, 3], tag_key)
        sheet.archive_number = archive_number
        yield sheet.case("good: archive number %d" % archive_number, 0)
    for count in (9, 10, 11, 63, 64):
        yield Sheet([7] * count, tag_key, 32).case("good: %d jobs of 7 bytes" % count, 0)
    yield Sheet(filled([0, 1, 255, 256, 257, 4095, 4096, 4097], tag_key), tag_key, 24).case("good: nine jobs, 65,536 bytes", 0)
    yield Sheet(filled([1008] * 63, tag_key), tag_key).case("good: 64 jobs, 65,536 bytes", 0)
    for byte in (0x00, 0x0A, 0xFF):
        sheet = Sheet([100, 0, 4100], tag_key)
        sheet.plain = bytes([byte]) * 4200
        yield sheet.case("good: all plain bytes are %02x" % byte, 0)


def sheet_lengths(tag_key):
    """21, and 9 behind it: a sheet of empty jobs, cut off at these lengths."""
    whole = Sheet([0] * 30002, tag_key).sheet()
    for length in SHEET_LENGTHS:
        fits = length >= 5 and length % 12 == 5
        refusal = 21 if not fits else 9 if length > 5 + 12 * 64 else 0
        yield Case("sheet of %d bytes" % length, KEYS[16], tag_key, whole[:length], b"", refusal)
    for length, refusal in ((4, 21), (5, 0), (6, 21), (16, 21), (17, 13), (18, 21), (773, 13), (785, 9), (360005, 9), (360006, 21)):
        yield Case("sheet of 16 and zero bytes, %d in all" % length, KEYS[16], tag_key, b"\x10" + bytes(length - 1), b"", refusal)
        yield Case("sheet of %d zero bytes" % length, KEYS[32], tag_key, bytes(length), b"", refusal)
        yield Case("sheet of %d zero bytes, 31 of key" % length, KEYS[32][:31], tag_key, bytes(length), b"", 21 if refusal == 21 else 1)
        sheet = b"\xff" * length
        yield Case("sheet of %d bytes ff" % length, KEYS[16], tag_key, sheet, b"", 21 if refusal == 21 else 22)
    yield Case("no sheet.bin", KEYS[16], tag_key, None, b"", 21)
    yield Case("no sheet.bin, and plain bytes", KEYS[16], tag_key, None, b"dried", 21)
    yield Case("no sheet.bin and no key.bin", None, tag_key, None, b"", 21)


def first_bytes(tag_key):
    """22: every first byte, with a key file that is long enough for each."""
    for byte in range(256):
        sheet = Sheet(tag_key=tag_key)
        sheet.key_length = byte
        sheet.key_file = KEY_FILE[:256]
        yield sheet.case("first byte %d" % byte, 0 if byte in KEY_LENGTHS else 22)


def key_files(tag_key):
    """1: key files of every length."""
    lengths = [0, 15, 16, 17, 23, 24, 25, 31, 32, 33] if tag_key else [*range(41), 63, 64, 65, 100, 255, 256, 4096, 65537]
    for key_length, least in KEY_LENGTHS.items():
        what = "%d on the sheet" % key_length
        for length in lengths:
            sheet = Sheet(tag_key=tag_key, key_length=key_length)
            sheet.key_file = KEY_FILE[:length]
            yield sheet.case("%s and a key file of %d bytes" % (what, length), 1 if length < least else 0)
        sheet = Sheet([], tag_key, key_length)
        sheet.key_file = None
        yield sheet.case("%s, no jobs and no key.bin" % what, 1)


def counts(tag_key):
    """9, whatever stands in the lines. Some counts are those of 64 jobs and fewer modulo 2^8 or 2^16."""
    for count in (63, 64, 65, 66, 67, 128, 200, 256, 257, 259, 320, 1000, 30000, 65536, 65539, 65600):
        sheet = Sheet([0] * count, tag_key)
        yield sheet.case("%d lines" % count, 9 if count > 64 else 0)
        if count > 64:
            sheet.lines[0][0] = b"2400001/"
            sheet.lines[1][1] = 2**32 - 1
            yield sheet.case("%d lines with faults" % count, 9)


def numbers(tag_key):
    """13 and 14."""
    for index in range(3):
        for at in range(8):
            for byte in (0x2F, 0x3A, 0x00, 0x20, 0xB0, 0xFF):
                sheet = Sheet(tag_key=tag_key)
                sheet.lines[index][0] = byte_set(sheet.lines[index][0], at, byte)
                yield sheet.case("line %d, digit %d is byte %02x" % (index, at, byte), 13)
    sheet = Sheet([0] * 64, tag_key)
    sheet.lines[63][0] = b"2400008:"
    yield sheet.case("the last of 64 lines has no digit at its end", 13)

    # each digit one lower and one higher, in either span of years
    for first in (b"55555555", b"85555555"):
        seconds = [(first, 14)]
        for at in range(8):
            digit = first[at] - 0x30
            seconds.append((first[:at] + b"%d" % (digit - 1) + b"9" * (7 - at), 14))
            seconds.append((first[:at] + b"%d" % (digit + 1) + b"0" * (7 - at), 0))
        for second, refusal in seconds:
            yield numbered([first, second], tag_key).case("%s then %s" % (first.decode(), second.decode()), refusal)
    for last, refusal in ((24000079, 14), (24000078, 14), (24000080, 0)):
        sheet = Sheet([1] * 64, tag_key)
        sheet.lines[63][0] = digits(last)
        yield sheet.case("63 ascending, then %d" % last, refusal)


def spans(tag_key):
    """14 by the order of years, where there are many jobs."""
    for start in range(len(IN_ORDER)):
        turned = IN_ORDER[start:] + IN_ORDER[:start]
        yield numbered(turned, tag_key).case("jobs of both spans, from %s on" % turned[0].decode(), 14 if start else 0)
    old = [digits(97000000 + i) for i in range(32)]
    new = [digits(5000000 + i) for i in range(32)]
    for order, name, refusal in (
        (old + new, "32 old jobs, then 32 new", 0),
        (new + old, "32 new jobs, then 32 old", 14),
        (new + old[:1], "32 new jobs, then an old one", 14),
        (old + new[:1] + [digits(97000032)], "32 old jobs, a new one, then an old one", 14),
    ):
        yield numbered(order, tag_key).case(name, refusal)


def sums(tag_key):
    """6, with as many plain bytes as the lengths ask for where there can be, and else as many as they are modulo 2^16 or 2^32, or none."""
    for count in (1, 2, 63, 64):
        for off in (-1, 0, 1):
            lengths = filled([3] * (count - 1), tag_key)
            lengths[-1] += off
            yield Sheet(lengths, tag_key).case("%d jobs, %d bytes" % (count, 65536 + off), 6 if off > 0 else 0)
    past = 2**32 - archive.PLATE - archive.ENTRY - (archive.TAG if tag_key else 0)  # one job of so many bytes: 2^32 in all
    for lengths in (
        [65536],
        [65536 + 5],
        [32768, 32768],
        [32768, 32768 + 5],
        [100000, 0, 5],
        [0] * 63 + [65536],
        [2**24],
        [2**31 - 1],
        [2**31],
        [past - 1],
        [past],
        [past + 19],
        [past + 20],
        [2**32 - 1],
        [2**32 - 1, 1],
        [1, 2**32 - 1],
        [2**32 - 1, 6],
        [2**31, 2**31],
        [2**31, 2**31 + 5],
        [2**32 - 1, 2**32 - 1],
        [2**32 - 1, 2**32 - 1, 7],
        [2**32 - 1] * 64,
        [2**32 - 1] * 63 + [63],
        [2**32 - 1] * 63 + [63 + 5],
        [2**26] * 64,
        [2**27] * 64,
        [2**26] * 63 + [2**26 + 5],
        [2**26 - 1] * 64,
        [0] * 63 + [2**32 - 1],
        [2**32 - 1] + [0] * 63,
    ):
        whole = sum(lengths)
        for length in sorted({0, whole % 2**16, whole % 2**32, whole}):
            if length <= 300000:
                sheet = Sheet([0] * len(lengths), tag_key)
                for line, long in zip(sheet.lines, lengths):
                    line[1] = long
                sheet.plain = text(length)
                name = "lengths %s.. of %d, %d plain bytes" % (lengths[:3], whole, length)
                yield sheet.case(name, 6)


def plain_lengths(tag_key):
    """16 and 17: fewer plain bytes than a sheet asks for, as many and more, and more than any archive holds."""
    full = filled([], tag_key)[0]
    for lengths, given in (
        ([], [0, 1, 2, 16, 65536, 65537, 300000]),
        ([0], [0, 1, 16, 65536, 300000]),
        ([0] * 64, [0, 1, 300000]),
        ([1], [0, 1, 2]),
        ([5, 0, 20], [*range(60), 4096, 65499, 65500, 65501, 65535, 65536, 65537, 65536 + 24, 65536 + 25, 131072 + 25, 300000]),
        ([16, 16], range(30, 35)),
        ([4096], [0, 4095, 4096, 4097]),
        ([7] * 64, [0, 7, 441, 447, 448, 449]),
        ([full], [0, 1, full - 1, full, full + 1, 65535, 65536, 65537, 131072, 300000]),
        ([full - 17, 0], [full - 18, full - 16]),
        ([0, full - 16], [full - 17, full - 16, full - 15]),
    ):
        for length in given:
            sheet = Sheet(lengths, tag_key)
            sheet.plain = text(length)
            refusal = 16 if length < sum(lengths) else 17 if length > sum(lengths) else 0
            yield sheet.case("%d jobs of %d bytes, %d plain bytes" % (len(lengths), sum(lengths), length), refusal)


# ---- faults that can be put into one sheet together


def _tail(sheet):
    sheet.tail = b"\0"


def _first_byte(sheet):
    sheet.key_length = 17


def _short_key_file(sheet):
    sheet.key_file = KEY_FILE[:15]


def _zero(sheet):
    """0 on the sheet of a key file of 16 bytes."""
    sheet.key_length = 0


def _short_tag_key(sheet):
    sheet.tag_key = TAG_KEY[:15]


def _many(sheet):
    sheet.lines += [[digits(24000100 + i), 0] for i in range(65 - len(sheet.lines))]


def _longer(sheet, *lengths):
    """Lines that are longer by these lengths, and as many plain bytes more."""
    for line, length in zip(sheet.lines, lengths):
        line[1] += length
    sheet.plain += bytes(sum(lengths))


def _short_plain(sheet):
    sheet.plain = sheet.plain[:-1]


def _no_plain(sheet):
    sheet.plain = b""


def _long_plain(sheet):
    sheet.plain += b"\0"


Fault = namedtuple("Fault", "name number put")

# In the order in which they are met: before the jobs, in them, and after them.
FRONT_FAULTS = [
    Fault("21", 21, _tail),
    Fault("22", 22, _first_byte),
    Fault("1", 1, _short_key_file),
    Fault("1 by 0 on the sheet", 1, _zero),
    Fault("1 of the tag key", 1, _short_tag_key),
    Fault("9", 9, _many),
]
# 6 and 16 are of all jobs together: a fault of the first one too comes after all that is wrong with the numbers of others.
END_FAULTS = [
    Fault("6 by line 0", 6, lambda sheet: _longer(sheet, 65536)),
    Fault("6 by line 2", 6, lambda sheet: _longer(sheet, 0, 0, 65536)),
    Fault("6 by all lines", 6, lambda sheet: _longer(sheet, 30000, 30000, 30000)),
    Fault("16 by a byte", 16, _short_plain),
    Fault("16 by all bytes", 16, _no_plain),
    Fault("17", 17, _long_plain),
]


def _no_digit(sheet, index):
    sheet.lines[index][0] = sheet.lines[index][0][:7] + b"/"


def _not_above(sheet, index):
    sheet.lines[index][0] = sheet.lines[index - 1][0]


# Line 0 has none before it.
LINE_FAULTS = [(13, 0, _no_digit), (13, 1, _no_digit), (14, 1, _not_above), (13, 2, _no_digit), (14, 2, _not_above)]


def pairs(tag_key):
    """Two faults in one sheet: the answer is the one that stands first in the order."""
    whole = FRONT_FAULTS + END_FAULTS
    for i, first in enumerate(whole):
        for second in whole[i + 1 :]:
            # plain bytes are not both too few and too many, and a sheet has one first byte
            if {first.number, second.number} not in ({16}, {16, 17}) and (first.put, second.put) != (_first_byte, _zero):
                sheet = Sheet(tag_key=tag_key)
                second.put(sheet)
                first.put(sheet)
                yield sheet.case("faults %s and %s" % (first.name, second.name), first.number)
    for fault in whole:
        for number, index, put in LINE_FAULTS:
            sheet = Sheet(tag_key=tag_key)
            put(sheet, index)
            fault.put(sheet)
            name = "faults %s and %d in line %d" % (fault.name, number, index)
            yield sheet.case(name, fault.number if fault in FRONT_FAULTS else number)
    for i, (number, index, put) in enumerate(LINE_FAULTS):
        for other, place, put_other in LINE_FAULTS[i + 1 :]:
            sheet = Sheet(tag_key=tag_key)
            put_other(sheet, place)
            put(sheet, index)
            yield sheet.case("faults %d in line %d and %d in line %d" % (number, index, other, place), number)


def pile(tag_key):
    """Every fault from one on, all at once, with too few plain bytes or too many."""
    lines = [Fault("%d in line 1" % number, number, lambda sheet, put=put: put(sheet, 1)) for number, _, put in LINE_FAULTS[1:3]]
    for last in END_FAULTS[3:]:
        order = FRONT_FAULTS + lines + [END_FAULTS[0], last]
        for lowest, fault in enumerate(order):
            sheet = Sheet(tag_key=tag_key)
            for other in reversed(order[lowest:]):
                other.put(sheet)
            yield sheet.case("every fault from %s on, to %s" % (fault.name, last.name), fault.number)


def long_inputs(tag_key):
    """300,000 plain bytes beside each fault of the sheet, which comes before 17."""
    for fault in FRONT_FAULTS:
        sheet = Sheet(tag_key=tag_key)
        fault.put(sheet)
        sheet.plain = text(300000)
        yield sheet.case("fault %s and 300,000 plain bytes" % fault.name, fault.number)
    for number, index, put in LINE_FAULTS:
        sheet = Sheet(tag_key=tag_key)
        put(sheet, index)
        sheet.plain = text(300000)
        yield sheet.case("fault %d in line %d and 300,000 plain bytes" % (number, index), number)
    for length in (65536, 300000, 300001, 2**32 - 1):
        sheet = Sheet(tag_key=tag_key)
        sheet.lines[0][1] = length
        sheet.plain = text(300000)
        yield sheet.case("a job of %d bytes and 300,000 plain bytes" % length, 6)


def long_sheets(tag_key):
    """Each fault that comes before the jobs, on sheets of more jobs than are taken."""
    for count in (66, 341, 342, 5461, 30000):
        for fault in FRONT_FAULTS:
            sheet = Sheet([0] * count, tag_key)
            fault.put(sheet)
            yield sheet.case("fault %s on %d lines" % (fault.name, count), fault.number)


# ---- under no tag key


def years():
    """14 by the order of years, where there are two jobs, or one of each year."""
    for i, first in enumerate(IN_ORDER):
        for j, second in enumerate(IN_ORDER):
            yield numbered([first, second]).case("%s then %s" % (first.decode(), second.decode()), 0 if i < j else 14)
    each_year = [digits(year % 100 * 10**6) for year in range(1970, 2070)]
    for start in (0, 36):
        part = each_year[start : start + 64]
        yield numbered(part).case("a job of each year, %s to %s" % (part[0].decode(), part[-1].decode()), 0)


# ---- tag keys


def tag_keys():
    """Every length of key with every length of tag key; an empty one is none; the two may be the same bytes."""
    for key_length in KEY_LENGTHS:
        for tag_length, tag_key in TAG_KEYS.items():
            for lengths in ([], [0], [28], [29], [44, 0, 3]):
                name = "good: %d on the sheet, tag key %d, bodies %s" % (key_length, tag_length, lengths)
                yield Sheet(lengths, tag_key, key_length).case(name, 0)
        sheet = Sheet(key_length=key_length)
        sheet.tag_key = sheet.key_file
        yield sheet.case("good: %d on the sheet, the key for both" % key_length, 0)
        yield Sheet(tag_key=b"", key_length=key_length).case("good: %d on the sheet, empty tag.bin" % key_length, 0)


def tag_key_lengths():
    """1 of the tag key, beside good key files and short ones; 21 and 22 before it, and 9 after it."""
    for length in [*range(65), 100, 255, 256, 4096, 65537]:
        tag_key = TAG_FILE[:length]
        yield Sheet(tag_key=tag_key).case("tag file of %d bytes" % length, 0 if length in (0, *KEYS) else 1)
    for length in (0, 1, 15, 16, 17, 31, 32, 33, 34, 65537):
        good_length = length in (0, *KEYS)
        for fault in (*FRONT_FAULTS[:4], FRONT_FAULTS[5], END_FAULTS[0]):
            sheet = Sheet()
            fault.put(sheet)
            sheet.tag_key = TAG_FILE[:length]
            refusal = fault.number if good_length or fault in FRONT_FAULTS[:4] else 1
            yield sheet.case("tag file of %d bytes and fault %s" % (length, fault.name), refusal)


# ---- changed bytes


def changes():
    """Every single byte of a good sheet changed, to several values each, under a key file that is long enough for each length."""
    for tag_key in (None, TAG_KEY):
        sheet = Sheet([3, 0, 18], tag_key)
        sheet.archive_number = 0x01020304
        sheet.key_file = KEY_FILE[:32]
        right = sheet.case("", None)
        for at, byte in enumerate(right.sheet):
            for value in sorted({byte ^ 1, byte ^ 0x80, 0, 0xFF, (byte + 1) % 256, (byte - 1) % 256} - {byte}):
                name = "byte %d of the sheet set to %02x%s" % (at, value, ", tagged" if tag_key else "")
                yield right._replace(name=name, sheet=byte_set(right.sheet, at, value))


def random_sheets(seed, count):
    """Sheets with up to two random changes, of a byte or a bit, of the sheet's length or of how many plain bytes there are; the seed
    settles them all. Some key files are too short for their sheet, and some tag keys are bad."""
    generator = random.Random(seed)
    for i in range(count):
        key_length = generator.choice(list(KEY_LENGTHS))
        key_file = generator.randbytes(generator.choice((16, 24, 32, 32, 33, 64)))
        tag_key = generator.choice((None, b"", generator.randbytes(generator.choice((16, 24, 32, 32, 33)))))
        chosen = [digits(number) for number in generator.sample(range(10**8), generator.choice((0, 1, 2, 3, 5, 64)))]
        chosen.sort(key=archive.place if generator.randrange(8) else int)
        lengths = [generator.choice((0, 1, 16, 17, 40, 1000)) for _ in chosen]
        plain = generator.randbytes(sum(lengths))
        lines = b"".join(number + length.to_bytes(4, "big") for number, length in zip(chosen, lengths))
        sheet = bytes([key_length]) + generator.randbytes(4) + lines
        for _ in range(generator.randrange(3)):
            how = generator.randrange(6)
            at = generator.randrange(len(sheet) or 1)
            if how == 0:
                sheet = byte_set(sheet, at, generator.randrange(256))
            elif how == 1 and sheet:
                sheet = byte_set(sheet, at, sheet[at] ^ 1 << generator.randrange(8))
            elif how == 2:
                sheet = sheet[: generator.choice((at, 5 + at // 12 * 12))]
            elif how == 3:
                sheet += generator.randbytes(generator.choice((1, 11, 12)))
            elif how == 4:
                plain = plain[: generator.randrange(len(plain) + 1)]
            else:
                plain += generator.randbytes(generator.randrange(1, 50))
        yield Case("random sheet %d of seed %d" % (i, seed), key_file, tag_key, sheet, plain, None)


BOTH = (good, sheet_lengths, first_bytes, key_files, counts, numbers, spans, sums, plain_lengths, pairs, pile, long_inputs, long_sheets)


def made():
    """Every case that was made for a known answer."""
    for group in BOTH:
        yield from group(None)
        for case in group(TAG_KEY):
            yield case._replace(name="layout 2: " + case.name)
    for group in (years, tag_keys, tag_key_lengths):
        yield from group()


# ---- archives rebuilt from their own jobs


def rebuilt(archives):
    """Of each accepted archive, its own sheet, key and plain bytes, and the archive that is to come out of them.
    The key file is longer than the key by turns, and where the key has 32 bytes, the sheet by turns says 0."""
    turn = 0
    for case in archives:
        try:
            archive.check(*case.lent())
        except archive.Refused:
            continue
        sheet = archive.sheet_of(case.file)
        if sheet[0] == 32 and turn % 2:
            sheet = byte_set(sheet, 0, 0)
        key_file = case.key + TAG_FILE[: (0, 1, 17)[turn % 3]]
        plain = archive.plain_of(*case.lent())
        yield Case("rebuilt: " + case.name, key_file, case.tag_key, sheet, plain, 0), case.file
        turn += 1
