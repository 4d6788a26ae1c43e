"""Sees that docs/FORMAT.md is true: its worked examples, its cipher, its reader, its writer, its way to drop jobs, its rule for
hexadecimal, its names.

    python3 tests/docs/check_format.py [PAGE]

The examples' bytes are those of examples/sample and examples/tagged, their values of E and their tag
libcrypto's, their listing what the program `jobs` is stored to print. The cipher below is written from
the section "ARIA in short" alone, apart from the model of tests/vectors, reads its tables, constants and
rotations off the page and follows sentences that must stand there; it must give the published vectors
and libcrypto's bytes. The reader below is written from the page alone too, and takes the fields and the
order of the checks from it; it must answer what the model of tests/model answers, on files of both
layouts, whole and spoiled. So must the writer below on sheets, good and bad; what it writes is read again
by the reader, and what the reader accepts is written again. And so must the way to drop jobs below, on
archives and lists, good and bad; what is left is read again, and is what the writer makes of the other jobs.
Every definition that the page names stands in the file that it gives, needs no name that the page does not explain
or find in a file above it, and gives the vectors and the tags too, computed by definitions.py.
"""

import functools
import itertools
import os
import random
import re
import shutil
import subprocess
import sys

TOP = os.path.normpath(os.path.join(os.path.dirname(os.path.abspath(__file__)), "..", ".."))
sys.path.insert(0, os.path.join(TOP, "tests", "model"))

import archive  # noqa: E402
import definitions  # noqa: E402
import libcrypto  # noqa: E402
from records import records  # noqa: E402

CODE = re.compile(r"`([^`]+)`")
HEX = re.compile(r"[0-9A-Fa-f ]+")
BYTES = re.compile(r"[0-9a-f]{2}( [0-9a-f]{2})*")
PLAIN = bytes(range(0x00, 0x100, 0x11))
KEYS = [bytes(range(n)) for n in (16, 24, 32)]
SMALL, TAGGED = "A small archive, byte by byte", "The same archive with a tag, byte by byte"
SHEET, WORKED_SHEET = "The sheet, 5 bytes and 12 a job", "The sheet of both archives, byte by byte"
WRITER, SEALED = "The checks of a writer", "The archive of a sheet"
DROPPER, LEFT = "The checks of dropping", "The archive that is left"
WORKED_LEFT = "Both archives without job 24000018, byte by byte"
# Words of prose that are written with the letters a to f alone.
WORDS = {"a", "be", "add", "added", "bad"}
# Words of a paper that the reader does not have.
FOREIGN = [r"\b[Pp]lates?\b", r"\b[Cc]ontents\b", r"\b[Dd]ocument \d+", r"\b0[12]\b", r"\b[Dd]emand \d"]
ROOTS = ["schedule_of", "encrypted", "counter_block", "keystream", "add_stream", "mac_of"]
# Sentences on the tag whose truth is tried below.
TAGGED_SAYS = [
    "The tag shows a change of any byte of the file, its own included.",
    "Who sets the layout byte to 1, takes 16 from the whole length and cuts the tag off has an archive of layout 1,",
    "which is accepted where no tag key is given.",
    "such a file is then refused, with 24.",
    "the jobs can be read all the same, as those of an archive of layout 1 under the same key.",
    "set byte 0 to `01`; take 16 from the number in bytes 16 to 19, the whole length; cut the last 16 bytes off.",
    "bytes 16 to 19 are `00 00 00 49` and become `00 00 00 39`, bytes 57 to 72 go, and what is left is the first archive.",
    "The tag key must be a key of its own, under which nothing is encrypted: not the key of this archive, nor of any other.",
    "no check here looks for it, and of another archive's key none could.",
    "There may be no jobs; the file is then 20 bytes long, or 36 in layout 2.",
    "So a file of layout 2 with 20 to 35 bytes, which has no room for a header and a tag, gets 11 where no check before that applies.",
    "The program `jobs`, with the tag key in `tag.bin`, prints of this archive the same three lines as of the one above; without it, `refused 24`.",
    "Under another tag key it prints `refused 25`.",
]
# Sentences on writing whose truth is tried below.
WRITING_SAYS = [
    "the first byte tells them apart, `01` or `02` for an archive and `72` for the line.",
    "What follows them in the file is not looked at.",
    "A reader takes `key.bin` whole, so for reading a longer one has to be cut down to the key.",
    "The archive number and the job number, under one key, must never be given to two different bodies;",
    "No check here can notice it.",
    "To seal the same plain bytes again under the same numbers is harmless, and gives the same body.",
    "A sheet of 5 bytes has none, and makes an archive of no jobs.",
    "A sheet that is missing counts as one of no bytes, and a key file that is missing or cannot be read likewise: 21, and 1.",
    "So the same key, tag key, sheet and plain bytes always make the same archive.",
    "And a file that a reader accepts is what a writer makes, under the same keys, of its own jobs:",
    "of the sheet with its key length, its archive number and, entry by entry, job number and length,",
    "and of the plain bytes that its jobs open to.",
    "Each column, from top to bottom, is one of the two archives worked above.",
    "A sheet with `00` or `20` for its first byte is refused under this key, with 1, for it asks for 32 bytes of key.",
]
# Sentences on dropping jobs whose truth is tried below.
DROPPING_SAYS = [
    "to write the new archive then takes the tag key in layout 2, and in layout 1 no key.",
    "To what is written, their order makes no difference, and a number that is listed twice counts once. So there may be more than 64.",
    "A list of no bytes has no numbers; then nothing is dropped, and the new archive is the old one, byte for byte.",
    "So one number that is missing refuses the whole list, and no job is dropped.",
    "20 measures the new archive, its tag included, and not the old one.",
    "The new archive is never longer than the old one, so a buffer as long as the old one is long enough.",
    "What comes out is what a writer makes, under the same keys,",
    "of the old archive's own sheet without the lines of the jobs that go, and of the plain bytes of the others.",
    "A reader accepts it under the same keys.",
    "Each job that stays opens to the same plain bytes, and who asks for one that went gets 19.",
    "Where every job is listed, an archive of no jobs is left, of 20 bytes, or of 36 in layout 2.",
    "such a copy still holds the jobs, is accepted, and in layout 2 has its own right tag.",
    "The archive number stays the same, and may, for the bodies that stay are the same bytes.",
    "Each column, from top to bottom, is a whole new archive.",
]
# Sentences of rules that the cipher, the reader, the writer or the way to drop jobs below follows without reading them off the page: they
# must stand there as they are.
FOLLOWED = [
    "A number of several bytes has its most significant byte first and has no sign.",
    "A digit is one of the ten bytes `30` to `39`, the digits 0 to 9 of ASCII.",
    "where a tag is made, and there alone, it is under the tag key.",
    "Each is 16, 24 or 32 bytes long, and neither is in the archive.",
    "ARIA works in 12, 14 or 16 rounds for the three lengths.",
    "A file is 20 to 65,536 bytes long in layout 1, and 36 to 65,536 in layout 2.",
    "key check: the first eight bytes of E(sixteen bytes `ff`)",
    "The entry of job i, counted from 0, begins at position 20 + 16 × i.",
    "Job numbers ascend strictly in the order of years.",
    "The first two digits of a job number are its year: 70 to 99 are 1970 to 1999, 00 to 69 are 2000 to 2069.",
    "above another if its year is later, or if the years are the same and its other six digits are the greater number.",
    "The first begins where the directory ends, at 20 + 16 × count;",
    "The bodies' end is the end of the file in layout 1, and the position of the tag's first byte in layout 2: the file's length, or the file's length - 16.",
    "Plain byte j is therefore body byte j ⊕ byte j mod 16 of E(counter block j div 16).",
    "The layout is no part of a counter block, and neither is the tag key.",
    "The last 16 bytes of a file of layout 2 are its tag.",
    "It is made under the tag key of all bytes before it: the header, the directory, and the bodies as they stand in the file, sealed.",
    "A tag key of no bytes is none.",
    "make the whole check, all of the above, first",
    "find the entry that bears the job number, the same eight digits.",
    "first, a byte of the job counted from 0, and count, how many bytes from there on.",
    "in this order, 26 before 20:",
    "first plus count exceeds its length; a range of no bytes at the very end is accepted",
    "shorter than the range;",
    "The plain bytes of any other are bytes first to first + count - 1 of the job's plain bytes;",
    "only E(counter block n) for n from first div 16 to (first + count - 1) div 16.",
    "The key is the first bytes of the key file, as many as the sheet says.",
    "The tag key is taken as for reading.",
    "The line of job i, counted from 0, begins at position 5 + 12 × i.",
    "How many lines there are is told by the sheet's length alone: (length - 5) div 12.",
    "Sums are of whole numbers and never wrap. A refusal changes no byte of the buffer.",
    "The plain bytes are cut from the front into pieces as long as the lines say,",
    "and each piece ⊕ the keystream of its job, by the archive number and the job number, is the job's body.",
    "Then in layout 2 the tag, under the tag key, of all bytes so far. Nothing follows.",
    "The archive stands at the front of the buffer, and the bytes past it stay as they were.",
    "Number k, counted from 0, is the eight bytes from position 8 × k on.",
    "How many there are is told by the list's length alone: length div 8.",
    "The whole check of a reader comes first, check 25 included:",
    "Then for each number of the list in turn, both of its checks before the next number:",
    "A refusal changes no byte of the buffer, nor of the old archive.",
    "An entry stays if its job number is not in the list.",
    "Then the bodies of these jobs, in the same order, each with the bytes that it has in the old file, from its old start on.",
    "In layout 2 the tag follows, made anew under the tag key of all bytes so far; the old tag is of other bytes. Nothing follows.",
    "The new archive stands at the front of the buffer, and the bytes past it stay as they were.",
    "The bits of a byte are numbered 0 to 7, and bit 0 is worth 1.",
    "The inverse of x is the byte whose product with x is `01`; the inverse of `00` is `00`.",
    "S3(S1(x)) = x and S4(S2(x)) = x for every byte x.",
    "Layer one takes byte j of a block through S1, S2, S3, S4 where j mod 4 is 0, 1, 2, 3.",
    "FO(block, k) = A(layer one(block ⊕ k)). FE(block, k) = A(layer two(block ⊕ k)).",
    "KL is the first 16 bytes of the key. KR is the rest of it, filled up to 16 bytes by bytes `00` at the end.",
    "W0 = KL. W1 = FO(W0, K1) ⊕ KR. W2 = FE(W1, K2) ⊕ W0. W3 = FO(W2, K3) ⊕ W1.",
    "There are n + 1 of them, key 1 to key (n + 1). They come in fours: W0 ⊕ r(W1), W1 ⊕ r(W2), W2 ⊕ r(W3), W3 ⊕ r(W0),",
    "where r rotates a block as a number of 128 bits, byte 0 the most significant",
    "Key 17 is W0 ⊕ r(W1).",
    "rounds 1 to n - 1: FO with key i in an odd round i, FE with key i in an even one.",
    "E = layer two(block ⊕ key n) ⊕ key (n + 1).",
    "as a number of 128 bits, byte 0 the most significant, it is shifted left by one bit; where the bit that falls out is 1,",
    "L is E of sixteen bytes `00`. K1 is L doubled, K2 is K1 doubled.",
    "The last piece has 1 to 16 bytes; where there are no bytes at all, there is one piece of none.",
    "A last piece of 16 bytes is ⊕ K1. Any other is filled up to 16 bytes by a byte `80` and then bytes `00`, and is ⊕ K2.",
    "C is sixteen bytes `00` at first. For each piece in turn, C becomes E(C ⊕ piece). The C after the last piece is the tag.",
]


def read(path, mode="r"):
    with open(os.path.join(TOP, path), mode, encoding=None if "b" in mode else "utf-8") as file:
        return file.read()


# ---- the page's parts


class Page:
    def __init__(self, text):
        lines = text.splitlines()
        self.text = text
        self.indented = [block.strip("\n") for block in re.findall(r"(?:^    .*\n)+", text, re.M)]
        self.prose = "\n".join(line for line in lines if not line.startswith("    "))
        self.spans = CODE.findall(self.prose)
        self.outside = CODE.sub("", self.prose)
        self.words = CODE.sub(lambda span: "" if BYTES.fullmatch(span.group(1)) else span.group(1), self.text)

    def section(self, title):
        parts = re.split(r"^#+ (.*)\n", self.text, flags=re.M)
        return Page(dict(zip(parts[1::2], parts[2::2]))[title])

    def table(self, *heads):
        """The cells of every row of every table that is headed so, in order."""
        rows, within = [], False
        for line in self.text.splitlines():
            cells = [cell.strip() for cell in line.strip("|").split(" | ")]
            if not line.startswith("|"):
                within = False
            elif within and not line.startswith("|---"):
                rows.append(cells)
            elif cells == list(heads):
                within = True
        if not rows:
            raise LookupError("no table | %s |" % " | ".join(heads))
        return rows


def octets(cell):
    """The bytes of a cell that is set in code type."""
    digits = CODE.fullmatch(cell)
    if not digits or not BYTES.fullmatch(digits.group(1)):
        raise ValueError("%s is not bytes in code type" % cell)
    return bytes.fromhex(digits.group(1))


def xor(left, right):
    return bytes(x ^ y for x, y in zip(left, right))


def key_of(cell):
    """The key of a cell `the N bytes 00 to LAST`."""
    n, first, last = re.fullmatch(r"the (\d+) bytes `(..)` to `(..)`", cell).groups()
    key = bytes(range(int(first, 16), int(last, 16) + 1))
    if len(key) != int(n):
        raise ValueError("%s: these are %d bytes" % (cell, len(key)))
    return key


# ---- the rule for hexadecimal, and words of other papers


def faults_of_writing(page):
    for span in page.spans:
        if HEX.fullmatch(span) and not BYTES.fullmatch(span):
            yield "`%s` is in code type and is not bytes of two digits" % span
        if re.search(r"0x[0-9A-Fa-f]", span):
            yield "`%s` has another mark of hexadecimal" % span
    for found in re.findall(r"`[0-9]+` (?:bytes|bits|rounds|jobs)\b", page.prose):
        yield "%s: a count in code type" % found
    for token in re.findall(r"[\w.]+", page.outside):
        if re.fullmatch(r"[0-9]*[a-f][0-9a-f]*", token) and token not in WORDS or re.match(r"0x", token):
            yield "%s is hexadecimal outside code type" % token
    for word in FOREIGN:
        for found in re.findall(word, page.words):
            yield "%s: a word of a paper that the reader does not have" % found
    if len(page.indented) != 3:
        yield "%d indented blocks, where the page says three" % len(page.indented)


def faults_of_refusals(page):
    numbers = [int(row[0]) for row in page.section("Reading").table("number", "refused because")]
    if numbers != [1, 1, 5, 6, 7, 24, *range(8, 18), 25, 18, 19, 26, 20]:
        yield "the refusals are not 1 for each key, 5 to 7, 24, 8 to 17, 25, 18, 19, 26 and 20 in order"
    numbers = [int(row[0]) for row in page.section(WRITER).table("number", "refused because")]
    if numbers != [21, 22, 1, 1, 9, 13, 14, 6, 16, 17, 20]:
        yield "the refusals of a writer are not 21, 22, 1 for each key, 9, 13, 14, 6, 16, 17 and 20 in order"
    if [int(row[0]) for row in page.section(DROPPER).table("number", "refused because")] != [27, 18, 19, 20]:
        yield "the refusals of dropping are not 27, 18, 19 and 20 in order"


def faults_of_layout(page):
    """Fields follow each other without gaps, parts are as long as the model's, and so are the limits."""
    parts = (
        ("Header, %d bytes" % archive.PLATE, "position", archive.PLATE),
        ("Directory, %d bytes a job" % archive.ENTRY, "position in the entry", archive.ENTRY),
        ("Bodies", "position in the block", 16),
        ("The sheet, %d bytes and %d a job" % (archive.SHEET, archive.LINE), "position", archive.SHEET),
        (SHEET, "position in the line", archive.LINE),
    )
    for title, place, size in parts:
        at = 0
        for position, length, _ in page.section(title).table(place, "bytes", "meaning"):
            if int(position) != at:
                yield "%s: position %s should be %d" % (title, position, at)
            at += int(length)
        if at != size:
            yield "%s: the fields have %d bytes" % (title, at)
    page.section("Tag, %d bytes, layout 2 only" % archive.TAG)
    room = "%d + %d × count exceeds the file's length in layout 1, or %d + %d × count does in layout 2"
    yield from faults_of_limits(
        page.section("Reading"),
        {
            "5": "the file is shorter than %d bytes" % archive.PLATE,
            "6": "the file is longer than {:,} bytes".format(archive.LONGEST_FILE),
            "9": "the count exceeds %d" % archive.MOST_JOBS,
            "11": room % (archive.PLATE, archive.ENTRY, archive.PLATE + archive.TAG, archive.ENTRY),
        },
    )
    yield from faults_of_limits(
        page.section(WRITER),
        {
            "21": "the sheet's length is not %d plus a multiple of %d" % (archive.SHEET, archive.LINE),
            "9": "there are more than %d lines" % archive.MOST_JOBS,
            "6": "the length of the whole file, the tag included, exceeds {:,}".format(archive.LONGEST_FILE),
        },
    )
    page.section("The list, %d bytes a number" % archive.NUMBER)
    yield from faults_of_limits(page.section(DROPPER), {"27": "the list's length is not a multiple of %d" % archive.NUMBER})


def faults_of_limits(page, limits):
    said = dict(page.table("number", "refused because"))
    for number, reason in limits.items():
        if said[number] != reason:
            yield "refusal %s should say: %s" % (number, reason)


# ---- the worked examples


def faults_of_samples(page):
    """Both are worked, and the tagged one without its tag is the other."""
    yield from faults_of_sample(page.section(SMALL), "sample")
    yield from faults_of_sample(page.section(TAGGED), "tagged")
    key, _, file = sample("tagged")
    if (key, b"", without_tag(file)) != sample("sample"):
        yield "the tagged sample without its tag is not the sample"
    yield from faults_of_sheet(page.section(WORKED_SHEET))
    yield from faults_of_left(page.section(WORKED_LEFT))


def without_tag(file):
    """The page's three steps from layout 2 to layout 1."""
    length = int.from_bytes(file[16:20], "big") - 16
    return b"\1" + file[1:16] + length.to_bytes(4, "big") + file[20:-16]


def sample(folder):
    """A sample's key, its tag key and its archive; where there is no tag.bin there is no tag key."""
    place = "examples/%s/" % folder
    tag_key = read(place + "tag.bin", "rb") if os.path.exists(os.path.join(TOP, place, "tag.bin")) else b""
    return read(place + "key.bin", "rb"), tag_key, read(place + "archive.bin", "rb")


def to_seal(folder):
    """What a sample is made of beside its keys: its sheet and its plain bytes."""
    return read("examples/%s/sheet.bin" % folder, "rb"), read("examples/%s/plain.bin" % folder, "rb")


def faults_of_sample(page, folder):
    key, tag_key, file = sample(folder)
    yield from faults_of_rows(page, "examples/%s/archive.bin" % folder, file)
    if (tag_key or key).hex(" ") not in page.spans:
        yield "the key that examples/%s brings is not on the page" % folder


def faults_of_sheet(page):
    """The worked sheet is both samples', and what the page writes of it, column by column, is their archives."""
    sheet, plain = to_seal("sample")
    yield from faults_of_rows(page, "examples/sample/sheet.bin", sheet)
    if to_seal("tagged") != (sheet, plain):
        yield "the tagged sample's sheet and plain bytes are not the sample's"
    said = "The plain bytes are those of job 24000017 alone, the text `%s`," % plain.decode()
    if said not in page.text:
        yield "it does not say: %s" % said
    columns = columns_of(page.table("written of it", "without a tag key", "under the tag key"))
    if columns != [sample(name)[2] for name in ("sample", "tagged")]:
        yield "what is written of the sheet is not the samples' archives"
    lengths = [int.from_bytes(sheet[at + 8 : at + 12], "big") for at in range(5, len(sheet), 12)]
    front = 20 + 16 * len(lengths)
    for said in (
        "The lengths on the lines are %d in all, and there are %d plain bytes." % (sum(lengths), len(plain)),
        "The whole file is %d = 20 + 16 × %d + %d bytes long" % (front + sum(lengths), len(lengths), sum(lengths)),
        "without a tag key, and %d = %d + 16 with one." % (front + sum(lengths) + 16, front + sum(lengths)),
        "Entry 0 starts at %d = 20 + 16 × %d, entry 1 at %d = %d + %d." % (front, len(lengths), front + lengths[0], front, lengths[0]),
        "the sheet ends here, at %d = 5 + 12 × %d" % (len(sheet), len(lengths)),
    ):
        if said not in page.text:
            yield "it does not say: %s" % said


def columns_of(table):
    """The bytes of the second and the third column, from top to bottom; the last row is the tag, which the second has not."""
    *rows, (label, none, tag) = table
    if (label, none) != ("tag", "none"):
        raise ValueError("the last row is not the tag, of the third column alone")
    first, second = (b"".join(octets(row[at]) for row in rows) for at in (1, 2))
    return [first, second + octets(tag)]


def faults_of_left(page):
    """What is left of the samples, column by column, is the model's, and the tag libcrypto's; so are the lengths that are told."""
    listed = re.search(r"The list is that job's number, the eight bytes `([0-9a-f ]+)`\.", page.text).group(1)
    columns = columns_of(page.table("what is left", "of the first archive", "of the one with a tag"))
    if columns != [archive.drop(*sample(name), bytes.fromhex(listed)) for name in ("sample", "tagged")]:
        yield "what is left of the samples is not as the model leaves it"
    _, tag_key, _ = sample("tagged")
    if columns[1] != mended(columns[1], tag_key):
        yield "the tag of what is left is not libcrypto's"
    lengths = []
    for numbers in (b"24000017", b"2400001724000018", b"2400001824000017"):
        lengths.append([len(archive.drop(*sample(name), numbers)) for name in ("sample", "tagged")])
    one, both, other = lengths
    start, size = (int.from_bytes(columns[0][at : at + 4], "big") for at in (28, 32))
    for said in (
        "One entry stays, that of job %s." % columns[0][20:28].decode(),
        "The directory has 16 bytes less, so that job's body moves up from %d to %d = 20 + 16 × 1." % (start + 16, start),
        "The whole file is %d = 20 + 16 × 1 + %d bytes long in layout 1, and %d = %d + 16 in layout 2."
        % (len(columns[0]), size, len(columns[1]), len(columns[0])),
        "The tag is OpenSSL's too, under the same tag key, of bytes 0 to %d." % (len(columns[0]) - 1),
        "by the list `%s`, job 24000018 is left, with start 36 and length 0, in %d and %d bytes." % (b"24000017".hex(" "), *one),
        "Without both, in whichever order they are listed, no jobs are left, in %d and %d bytes." % tuple(both),
    ):
        if said not in page.text or both != other:
            yield "it does not say: %s" % said


def faults_of_rows(page, path, file):
    """The rows are the file's bytes, one after the other, and say the numbers that these are."""
    at = 0
    for place, cell, meaning in page.table("position", "bytes", "meaning"):
        data = octets(cell)
        last = at + len(data) - 1
        if place != ("%d" % at if last == at else "%d to %d" % (at, last)):
            yield "position %s: these bytes are %d to %d" % (place, at, last)
        if file[at : last + 1] != data:
            yield "position %s: the sample has %s" % (place, file[at : last + 1].hex(" "))
        if not re.match("key check|the body of|the tag of", meaning):
            said = data.decode() if data.isdigit() else "%d" % int.from_bytes(data, "big")
            if not re.search(r"(?<!\d)%s(?!\d)" % said, meaning):
                yield "position %s: the bytes are %s, the page says: %s" % (place, said, meaning)
        at = last + 1
    if at != len(file) or "`%s`, %d bytes" % (path, at) not in page.text:
        yield "%s has %d bytes, the page works %d" % (path, len(file), at)


def faults_of_example(page):
    """Counter blocks, keystream and plain bytes of the sample's job, by libcrypto."""
    key, file = read("examples/sample/key.bin", "rb"), read("examples/sample/archive.bin", "rb")
    rows = {label: octets(cell) for label, cell in page.table("job 24000017", "bytes")}
    stream = b""
    for index in (0, 1):
        counter = file[4:8] + file[20:28] + index.to_bytes(4, "big")
        stream += libcrypto.forward(key, counter)
        if rows["counter block %d" % index] != counter:
            yield "counter block %d is %s" % (index, counter.hex(" "))
        if rows["E(counter block %d)" % index] != stream[16 * index :]:
            yield "E(counter block %d) is %s" % (index, stream[16 * index :].hex(" "))
    if rows["body"] != file[52:57]:
        yield "the body is %s" % file[52:57].hex(" ")
    if rows["keystream"] != stream[:5]:
        yield "the keystream is %s" % stream[:5].hex(" ")
    if rows["plain bytes"] != xor(rows["body"], rows["keystream"]) or rows["plain bytes"] != b"dried":
        yield "the plain bytes are %s" % xor(rows["body"], rows["keystream"]).hex(" ")
    found = re.search(r"The range of that job with first (\d+) and count (\d+) is", page.text)
    if not found:
        yield "no range of the job is worked"
        return
    first, count = map(int, found.groups())
    parts = [rows[label][first : first + count].hex(" ") for label in ("body", "keystream", "plain bytes")]
    said = "body `%s`, keystream `%s`, plain bytes `%s`, the text `%s`." % (*parts, bytes.fromhex(parts[2]).decode())
    if "is bytes %d to %d of the last three rows: %s" % (first, first + count - 1, said) not in page.text:
        yield "the range should say: %s" % said


def faults_of_key_checks(page):
    rows = page.table("key", "E(sixteen bytes `ff`)", "key check")
    if [key_of(row[0]) for row in rows] != KEYS:
        yield "the key checks are not those of the RFC's three keys"
    for cell, whole, check in rows:
        sealed = libcrypto.forward(key_of(cell), b"\xff" * 16)
        if octets(whole) != sealed or octets(check) != sealed[:8]:
            yield "%s: E of sixteen bytes ff is %s" % (cell, sealed.hex(" "))


def faults_of_worked_tag(page):
    """The values on the way to the tagged sample's tag are those of the section's rule, and the tag is libcrypto's."""
    _, key, file = sample("tagged")
    rows = page.section(TAGGED).table("tag of bytes 0 to 56", "bytes")
    steps = tag_steps(functools.partial(libcrypto.forward, key), file[:57], constant_of(page))
    if [(label, octets(cell)) for label, cell in rows] != steps:
        yield "the tag is worked otherwise than by the rule: %s" % [(label, value.hex(" ")) for label, value in steps]
    if not file[57:] == steps[-1][1] == libcrypto.cmac(key, file[:57]):
        yield "the tagged sample's tag is not libcrypto's"
    if fallen(steps[0][1], steps[1][1]) != [0, 0] or "In neither doubling does a bit fall out." not in page.text:
        yield "it does not say which doublings let a bit fall out"


def faults_of_text(page):
    """What `jobs` prints, and the commands, which are run where their programs are found."""
    listing, command, tagging = ["\n".join(line[4:] for line in block.splitlines()) + "\n" for block in page.indented]
    if listing != read("crates/jobs/stdout"):
        yield "the listing is not crates/jobs/stdout"
    block, key = re.search(r"printf (\w+) .* -aria-128-ecb -nopad -K (\w+) ", command, re.S).groups()
    rows = dict(page.table("job 24000017", "bytes"))
    sealed = libcrypto.forward(bytes.fromhex(key), bytes.fromhex(block))
    if octets(rows["counter block 0"]).hex() != block or octets(rows["E(counter block 0)"]) != sealed:
        yield "the command does not encrypt counter block 0"
    whole, key = re.search(r"head -c (\d+) examples/tagged/archive.bin .* hexkey:(\w+) CMAC", tagging, re.S).groups()
    _, tag_key, file = sample("tagged")
    if int(whole) != len(file) - archive.TAG or bytes.fromhex(key) != tag_key:
        yield "the second command does not make the tagged sample's tag"
    if runs_commands():
        for text, wanted in ((command, sealed.hex()), (tagging, file[-archive.TAG :].hex().upper())):
            out = subprocess.run(["sh", "-c", text], capture_output=True, text=True, cwd=TOP)
            if out.stdout.strip() != wanted:
                yield "a command prints %s%s" % (out.stdout.strip(), out.stderr.strip())


def runs_commands():
    return all(shutil.which(program) for program in ("openssl", "xxd"))


# ---- the cipher, from "ARIA in short" alone


def product(x, y, lost):
    """The product of two bytes; `lost` is what a bit becomes that is lost in doubling."""
    total = 0
    for bit in range(8):
        if y >> bit & 1:
            total ^= x
        x = (x << 1) & 0xFF ^ (lost if x & 0x80 else 0)
    return total


def inverse(x, lost):
    return next((y for y in range(256) if product(x, y, lost) == 1), 0)


def rotated(block, side, places):
    number = int.from_bytes(block, "big")
    left = places if side == "left" else 128 - places
    return (number << left & (1 << 128) - 1 | number >> 128 - left).to_bytes(16, "big")


class Aria:
    def __init__(self, page):
        self.boxes = {}
        lost = int(re.search(r"if a bit is lost at the top, ⊕ `(..)`", page.text).group(1), 16)
        inverses = [inverse(x, lost) for x in range(256)]
        for name, first, row in page.table("box", "first byte", "bytes 0 to 7"):
            self.boxes[name] = self.table_of(inverses, octets(first)[0], octets(row))
        self.boxes["S3"] = [self.boxes["S1"].index(y) for y in range(256)]
        self.boxes["S4"] = [self.boxes["S2"].index(y) for y in range(256)]
        self.orders = [order.split(", ") for order in re.findall(r"through (S\d, S\d, S\d, S\d)\b", page.text)]
        rows = {}
        for left, left_row, right, right_row in page.table("byte", "of bytes", "byte", "of bytes"):
            rows[int(left)] = [int(i) for i in left_row.split()]
            rows[int(right)] = [int(i) for i in right_row.split()]
        self.rows = [rows[i] for i in range(16)]
        constants = {name: octets(cell) for name, cell in page.table("constant", "bytes")}
        self.lengths = {}
        for size, rounds, order in page.table("key", "rounds, n", "K1, K2, K3"):
            self.lengths[int(size.split()[0])] = (int(rounds), [constants[name] for name in order.split(", ")])
        self.rotations = []
        for keys, words in page.table("keys", "r"):
            first, last = re.fullmatch(r"(\d+)(?: to (\d+))?", keys).groups()
            side, places = re.fullmatch(r"(left|right) by (\d+) bits", words).groups()
            self.rotations.append((int(first), int(last or first), side, int(places)))

    @staticmethod
    def table_of(inverses, first, row):
        table = []
        for inverted in inverses:
            value = first
            for i in range(8):
                value ^= row[i] if inverted >> i & 1 else 0
            table.append(value)
        if len(set(table)) != 256:
            raise ValueError("a box has an entry twice")
        return table

    def layer(self, order, block):
        return bytes(self.boxes[order[j % 4]][x] for j, x in enumerate(block))

    def layer_one(self, block):
        return self.layer(self.orders[0], block)

    def layer_two(self, block):
        return self.layer(self.orders[1], block)

    def mixed(self, block):
        out = []
        for row in self.rows:
            total = 0
            for i in row:
                total ^= block[i]
            out.append(total)
        return bytes(out)

    def fo(self, block, k):
        return self.mixed(self.layer_one(xor(block, k)))

    def fe(self, block, k):
        return self.mixed(self.layer_two(xor(block, k)))

    def round_keys(self, key):
        """Key 1 to key n + 1."""
        rounds, (k1, k2, k3) = self.lengths[len(key)]
        kl, kr = key[:16], key[16:].ljust(16, b"\0")
        w0 = kl
        w1 = xor(self.fo(w0, k1), kr)
        w2 = xor(self.fe(w1, k2), w0)
        w3 = xor(self.fo(w2, k3), w1)
        keys = []
        for first, last, side, places in self.rotations:
            four = [(w0, w1), (w1, w2), (w2, w3), (w3, w0)]
            if first != len(keys) + 1:
                raise ValueError("the rows of round keys are not in order")
            keys += [xor(plain, rotated(turned, side, places)) for plain, turned in four[: last - first + 1]]
            if len(keys) != last:
                raise ValueError("a row of round keys has more than four")
        if len(keys) <= rounds:
            raise ValueError("%d rounds have no %d round keys" % (rounds, rounds + 1))
        return keys[: rounds + 1]

    def encrypted(self, key, block):
        keys = self.round_keys(key)
        n = len(keys) - 1
        for i in range(1, n):
            block = (self.fo if i % 2 else self.fe)(block, keys[i - 1])
        return xor(self.layer_two(xor(block, keys[n - 1])), keys[n])


def faults_of_aria(page):
    for sentence in FOLLOWED:
        if sentence not in page.text:
            yield "it does not say: %s" % sentence
    aria = Aria(page)
    for name, *cells in page.table("box", "of `00`", "of `01`", "of `53`", "of `ff`"):
        if [octets(cell)[0] for cell in cells] != [aria.boxes[name][x] for x in (0x00, 0x01, 0x53, 0xFF)]:
            yield "the entries of %s are not the rule's" % name
    stored = records(TOP + "/tests/data/aria-ecb.txt")
    published = [record for record in stored if record["origin"].startswith("RFC 5794")]
    vectors = page.table("key", "E(`%s`)" % PLAIN.hex(" "))
    if [(key_of(cell), PLAIN, octets(out)) for cell, out in vectors] != [
        tuple(bytes.fromhex(record[name]) for name in ("key", "in", "out")) for record in published
    ]:
        yield "the vectors are not the RFC's of tests/data/aria-ecb.txt"
    for cell, out in vectors:
        if aria.encrypted(key_of(cell), PLAIN) != octets(out):
            yield "%s: the section gives %s" % (cell, aria.encrypted(key_of(cell), PLAIN).hex(" "))
    stored = {record["key"]: record for record in records(TOP + "/tests/data/aria-intermediate.txt")}
    for cell, first, last in page.table("key", "round key 1", "last round key"):
        keys, record = aria.round_keys(key_of(cell)), stored[key_of(cell).hex()]
        if [key.hex() for key in keys] != [value for name, value in record.items() if name.startswith("ek")]:
            yield "%s: the section's round keys are not those of tests/data/aria-intermediate.txt" % cell
        if [octets(first), octets(last)] != [keys[0], keys[-1]]:
            yield "%s: the first and the last round key are not the section's" % cell
    for cell, whole, _ in page.table("key", "E(sixteen bytes `ff`)", "key check"):
        if aria.encrypted(key_of(cell), b"\xff" * 16) != octets(whole):
            yield "%s: the section gives another E(sixteen bytes ff)" % cell
    rows = dict(page.table("job 24000017", "bytes"))
    for block in ("counter block 0", "counter block 1"):
        if aria.encrypted(KEYS[0], octets(rows[block])) != octets(rows["E(%s)" % block]):
            yield "the section gives another E(%s)" % block
    source = random.Random(5794)
    for trial in range(96):
        key, block = source.randbytes((16, 24, 32)[trial % 3]), source.randbytes(16)
        if aria.encrypted(key, block) != libcrypto.forward(key, block):
            yield "the section differs from libcrypto under key %s on block %s" % (key.hex(), block.hex())
            return


# ---- tags


def constant_of(page):
    return int(re.search(r"the last byte is ⊕ `(\w\w)`", page.text).group(1), 16)


def tag_steps(encrypt, message, constant):
    """The tag by the section's sentences, with the values on the way to it: each with its label in the worked example."""

    def doubled(block):
        shifted = int.from_bytes(block, "big") * 2
        return xor((shifted % 2**128).to_bytes(16, "big"), bytes(15) + bytes([constant * (shifted >> 128)]))

    first = encrypt(bytes(16))
    k1 = doubled(first)
    k2 = doubled(k1)
    steps = [("L", first), ("K1", k1), ("K2", k2)]
    *pieces, last = [message[at : at + 16] for at in range(0, len(message), 16)] or [b""]
    value = bytes(16)
    for n, piece in enumerate(pieces):
        value = encrypt(xor(value, piece))
        steps += [("piece %d" % n, piece), ("C after piece %d" % n, value)]
    steps.append(("last piece", last))
    if len(last) == 16:
        steps.append(("last piece, ⊕ K1", xor(last, k1)))
    else:
        filled = (last + b"\x80").ljust(16, b"\0")
        steps += [("last piece, filled up", filled), ("last piece, filled up, ⊕ K2", xor(filled, k2))]
    return steps + [("C after the last piece, the tag", encrypt(xor(value, steps[-1][1])))]


def tag_of(encrypt, message, constant):
    return tag_steps(encrypt, message, constant)[-1][1]


def tagged(cell, file):
    """The bytes that a cell of the tags' table speaks of."""
    return {
        "no bytes": b"",
        "the first 16 bytes of the archive above": file[:16],
        "the archive above, 57 bytes": file,
    }[cell]


def fallen(*blocks):
    """Of each block, the bit that falls out when it is doubled."""
    return [block[0] >> 7 for block in blocks]


def faults_of_tags(page):
    """The tags are libcrypto's, and so are those that the section's rule gives; so are the values on the way to them."""
    rows = page.table("tag key", "bytes", "tag")
    subkeys = page.table("tag key", "L", "K1", "K2")
    if not [key_of(row[0]) for row in rows] == [key_of(row[0]) for row in subkeys] == KEYS:
        yield "the tags are not under the RFC's three keys"
    file = read("examples/sample/archive.bin", "rb")
    for cell, what, tag in rows:
        if octets(tag) != libcrypto.cmac(key_of(cell), tagged(what, file)):
            yield "%s, %s: the tag is not libcrypto's" % (cell, what)
    for key in KEYS:
        for length in range(50):
            made = tag_of(functools.partial(libcrypto.forward, key), (file * 2)[:length], constant_of(page))
            if made != libcrypto.cmac(key, (file * 2)[:length]):
                yield "the section gives another tag of %d bytes than libcrypto" % length
    bits = []
    for cell, *values in subkeys:
        steps = tag_steps(functools.partial(libcrypto.forward, key_of(cell)), b"", constant_of(page))
        if [octets(value) for value in values] != [value for _, value in steps[:3]]:
            yield "%s: L, K1 and K2 are not those of the rule" % cell
        bits.append(fallen(steps[0][1], steps[1][1]))
    said = "in both doublings of the first row, in none of the second, in the second alone of the third"
    if bits != [[1, 1], [0, 0], [0, 1]] or said not in page.text:
        yield "it does not say in which doublings a bit falls out"


# ---- the reader, from the page alone


class Reader:
    """What the page says of reading: its fields, and its checks in their order. `encrypt` is E of a key and a block."""

    def __init__(self, page, encrypt):
        self.encrypt, self.constant = encrypt, constant_of(page)
        self.header = fields(page.section("Header, 20 bytes"), "position")
        self.entry = fields(page.section("Directory, 16 bytes a job"), "position in the entry")
        self.block = fields(page.section("Bodies"), "position in the block")
        turns = "^Then for each entry in turn, all of its checks before the next entry:$|^Then:$|^A file that passes is accepted"
        parts = re.split(turns, page.section("Reading").text, flags=re.M)
        tables = [Page(part).table("number", "refused because") for part in parts]
        self.first, self.by_entry, self.then, self.opening = tables


def fields(page, place):
    """Where each field lies, by the words that its meaning begins with."""
    rows = page.table(place, "bytes", "meaning")
    return {re.split("[:;,]", meaning)[0]: (int(at), int(size)) for at, size, meaning in rows}


def counter_block(reader, archive_number, job_number, n):
    """Counter block n of a job, by the page's fields."""
    parts = {"archive number": archive_number, "job number": job_number, "n": n.to_bytes(4, "big")}
    block = bytearray(16)
    for name, (at, size) in reader.block.items():
        block[at : at + size] = parts[name]
    return bytes(block)


class Checked:
    """What a list of checks of the page is about: a file that is read, or a sheet that is sealed."""

    def applies(self, rows):
        return next((int(number) for number, reason in rows if CHECKS[reason](self)), 0)

    def refusal_by(self, rules):
        """The number of the first check that applies, 0 where none does: the first ones, those job by job, the last ones."""
        refused = self.applies(rules.first)
        self.index = 0
        while not refused and self.index < self.jobs():
            refused = self.applies(rules.by_entry)
            self.index += 1
        return refused or self.applies(rules.then)


class Reading(Checked):
    """A file as it is read under a key and a tag key, and what is asked of it."""

    def __init__(self, reader, key, tag_key, file, asked=b"", first=0, count=0, room=0):
        self.reader, self.key, self.tag_key, self.file = reader, key, tag_key, file
        self.asked, self.first, self.count, self.room = asked, first, count, room

    def header(self, name):
        at, size = self.reader.header[name]
        return self.file[at : at + size]

    def number(self, name):
        return int.from_bytes(self.header(name), "big")

    def entry(self, index, name):
        at, size = self.reader.entry[name]
        return self.file[20 + 16 * index + at :][:size]

    def body(self, index):
        """Where a body starts, and its length."""
        names = "start", "length of the body in bytes"
        return [int.from_bytes(self.entry(index, name), "big") for name in names]

    def jobs(self):
        return self.number("count of jobs")

    def end_before(self, index):
        """The end of the body before an entry, or of the directory for entry 0."""
        return sum(self.body(index - 1)) if index else 20 + 16 * self.jobs()

    def bodies_end(self):
        return len(self.file) - (16 if self.number("layout") == 2 else 0)

    def tag(self):
        return tag_of(functools.partial(self.reader.encrypt, self.tag_key), self.file[:-16], self.reader.constant)

    def found(self):
        return [index for index in range(self.jobs()) if self.entry(index, "job number") == self.asked]

    def refusal(self):
        """The number of the first check that applies, 0 where the file is accepted."""
        return self.refusal_by(self.reader)

    def opened(self):
        """The number of the first check that applies, or 0; and the plain bytes of the range."""
        refused = self.refusal() or self.applies(self.reader.opening)
        if refused:
            return refused, b""
        start, _ = self.body(self.found()[0])
        return 0, bytes(self.file[start + j] ^ self.stream(j) for j in range(self.first, self.first + self.count))

    def stream(self, j):
        return self.reader.encrypt(self.key, counter_block(self.reader, self.header("archive number"), self.asked, j // 16))[j % 16]

    def listing(self):
        """What `jobs` prints."""
        refused = self.refusal()
        if refused:
            return "refused %d\n" % refused
        lines = ["jobs %d\n" % self.jobs()]
        for index in range(self.jobs()):
            lines.append("%s %d %d\n" % (self.entry(index, "job number").decode(), *self.body(index)))
        return "".join(lines)


def digits(number):
    return all(0x30 <= byte <= 0x39 for byte in number)


def in_years(number):
    year = int(number[:2])
    return (1900 if year >= 70 else 2000) + year, int(number[2:])


# The way to each check of the reader, of the writer and of dropping, by the words that must stand on the page; its number and its place are
# the page's.
CHECKS = {
    "the key is not 16, 24 or 32 bytes long": lambda a: len(a.key) not in (16, 24, 32),
    "a tag key is given, and is not 16, 24 or 32 bytes long": lambda a: a.tag_key and len(a.tag_key) not in (16, 24, 32),
    "the file is shorter than 20 bytes": lambda a: len(a.file) < 20,
    "the file is longer than 65,536 bytes": lambda a: len(a.file) > 65536,
    "the layout byte is neither 1 nor 2": lambda a: a.number("layout") not in (1, 2),
    "a tag key is given and the layout is 1, or none is given and it is 2": (
        lambda a: a.number("layout") == (1 if a.tag_key else 2)
    ),
    "the header's key length differs from the key's": lambda a: a.number("length of the key in bytes") != len(a.key),
    "the count exceeds 64": lambda a: a.jobs() > 64,
    "the header's whole length differs from the file's": (
        lambda a: a.number("length of the whole file in bytes") != len(a.file)
    ),
    "20 + 16 × count exceeds the file's length in layout 1, or 36 + 16 × count does in layout 2": (
        lambda a: {1: 20, 2: 36}[a.number("layout")] + 16 * a.jobs() > len(a.file)
    ),
    "the key check differs": lambda a: a.header("key check") != a.reader.encrypt(a.key, b"\xff" * 16)[:8],
    "a byte of the job number is no digit": lambda a: not digits(a.entry(a.index, "job number")),
    "the job number is not above that of the entry before it in the order of years; "
    "entry 0 has no entry before it, and no check 14": (
        lambda a: a.index > 0
        and in_years(a.entry(a.index, "job number")) <= in_years(a.entry(a.index - 1, "job number"))
    ),
    "the start is not the end of the body before it, or of the directory for entry 0": (
        lambda a: a.body(a.index)[0] != a.end_before(a.index)
    ),
    "start plus length passes the bodies' end": lambda a: sum(a.body(a.index)) > a.bodies_end(),
    "bytes remain between the last body, or the directory if there are no jobs, and the bodies' end": (
        lambda a: a.end_before(a.jobs()) < a.bodies_end()
    ),
    "in layout 2, the last 16 bytes are not the tag of all bytes before them; layout 1 has no tag, and no check 25": (
        lambda a: a.number("layout") == 2 and a.file[-16:] != a.tag()
    ),
    "the number asked for is not exactly eight digits": lambda a: len(a.asked) != 8 or not digits(a.asked),
    "no entry bears it": lambda a: not a.found(),
    "the range passes the job's end: first plus count exceeds its length; a range of no bytes at the very end is accepted": (
        lambda a: a.first + a.count > a.body(a.found()[0])[1]
    ),
    "the buffer for the plain bytes is shorter than the range; a reader that makes the buffer itself never meets this": (
        lambda a: a.room < a.count
    ),
    "the sheet's length is not 5 plus a multiple of 12": lambda a: len(a.sheet) < 5 or (len(a.sheet) - 5) % 12 != 0,
    "the sheet's first byte is none of 0, 16, 24 and 32": lambda a: a.sheet[0] not in (0, 16, 24, 32),
    "the key file is shorter than the length of the key": lambda a: len(a.key_file) < a.key_length(),
    "there are more than 64 lines": lambda a: a.jobs() > 64,
    "the job number is not above that of the line before it in the order of years; "
    "line 0 has no line before it, and no check 14": (
        lambda a: a.index > 0
        and in_years(a.entry(a.index, "job number")) <= in_years(a.entry(a.index - 1, "job number"))
    ),
    "the length of the whole file, the tag included, exceeds 65,536": lambda a: a.whole() > 65536,
    "the plain bytes are fewer than the lengths on the lines in all": lambda a: len(a.plain) < sum(a.lengths()),
    "the plain bytes are more than that": lambda a: len(a.plain) > sum(a.lengths()),
    "the buffer for the archive is shorter than the whole file; a writer that makes the buffer itself never meets this": (
        lambda a: len(a.buffer) < a.whole()
    ),
    "the list's length is not a multiple of 8": lambda a: len(a.listed) % 8 != 0,
    "a byte of the number is no digit": lambda a: not digits(a.listed_at(a.index)),
    "the buffer for the new archive is shorter than that archive; a program that makes the buffer itself never meets this": (
        lambda a: len(a.buffer) < a.whole()
    ),
}


def written(key, tag_key, jobs):
    """An archive of jobs, by the page's layouts: of layout 2 where there is a tag key."""
    directory = bodies = b""
    for number, plain in jobs:
        start = 20 + 16 * len(jobs) + len(bodies)
        directory += number + start.to_bytes(4, "big") + len(plain).to_bytes(4, "big")
        bodies += libcrypto.counter(key, (7).to_bytes(4, "big") + number + bytes(4), plain)
    front = bytes([2 if tag_key else 1, len(key)]) + len(jobs).to_bytes(2, "big") + (7).to_bytes(4, "big")
    front += libcrypto.forward(key, b"\xff" * 16)[:8] + bytes(4)
    return mended(front + directory + bodies + bytes(16 if tag_key else 0), tag_key)


def mended(file, tag_key):
    """The file with its own length in the header, and with a right tag where there is a good tag key."""
    file = file[:16] + len(file).to_bytes(4, "big") + file[20:]
    return file[:-16] + libcrypto.cmac(tag_key, file[:-16]) if len(tag_key) in (16, 24, 32) else file


def trials():
    """Archives of both layouts, whole and spoiled, each with a key and a tag key."""
    key, tag_key = KEYS[0], bytes(range(0x10, 0x30))
    jobs = [(b"24000017", b"dried"), (b"24000018", b"")]
    samples = [(given, written(key, given, jobs)) for given in (b"", tag_key)]
    lengths = (0, 1, 15, 16, 17, 24, 31, 32, 33)
    for file in (b"", *(file for _, file in samples)):
        yield from ((bytes(range(n)), tag_key[:1] * m, file) for n in lengths for m in lengths)
    many = [(b"%08d" % n, bytes(n)) for n in range(65)]
    years = [(b"97000004", b"old"), (b"05000001", b"newer")]
    for given in (b"", *(bytes(range(0x10, 0x10 + n)) for n in (16, 24, 32))):
        for sealing in KEYS:
            for sheet in ([], jobs, many[:64], many, years, years[::-1]):
                yield sealing, given, written(sealing, given, sheet)
        room = 65536 - 36 - (16 if given else 0)
        for size in (room, room + 1):
            file = written(key, given, [(b"24000017", bytes(size))])
            yield from ((key, given, file), (key, given, b"\3" + file[1:]))
        for size in range(20, 38):
            yield key, given, mended(written(key, given, [])[:20].ljust(size, b"\0"), given)
    for given, file in samples:
        for at, byte in enumerate(file):
            for value in {0, 1, 2, 3, 0x2F, 0x30, 0x3A, 0xFF, byte ^ 1, byte ^ 0x80} - {byte}:
                changed = file[:at] + bytes([value]) + file[at + 1 :]
                yield from ((key, given, changed), (key, given, mended(changed, given)))
        for size in range(20, len(file)):
            yield from ((key, given, file[:size]), (key, given, mended(file[:size], given)))
    source = random.Random(2)
    for _ in range(4000):
        given, file = source.choice(samples)
        file = bytearray(file + bytes(source.choice((0, 0, 0, 1, 16))))
        for at in source.sample([0, 1, 2, 3, 8, 19, 20, 27, 31, 35, 36, 43, 47, 51, 56, len(file) - 1], source.randint(1, 4)):
            file[at] = source.choice((0, 1, 2, 24, 0x30, 0x37, file[at] + 1 & 0xFF, file[at] - 1 & 0xFF))
        file = mended(bytes(file), given) if source.randrange(3) else bytes(file)
        yield source.choice((key, key, key, KEYS[1], b"")), source.choice((given, given, given, b"", tag_key, b"\0")), file


def modelled(call, *arguments):
    """The model's refusal or 0, and what it answers."""
    try:
        return 0, call(*arguments)
    except archive.Refused as refused:
        return refused.number, b""


def faults_of_reading(page):
    """The page's reader answers what the model answers, and what the page says that it answers."""
    reader, met = Reader(page, libcrypto.forward), set()
    for key, tag_key, file in trials():
        refused, (wanted, _) = Reading(reader, key, tag_key, file).refusal(), modelled(archive.check, key, tag_key, file)
        met.add(wanted)
        if refused != wanted:
            yield "by the page %d, by the model %d: %s" % (refused, wanted, [part.hex() for part in (key, tag_key, file[:80])])
            return
    if met != {0, 1, *range(5, 18), 24, 25}:
        yield "the files meet only the refusals %s" % sorted(met)
    yield from faults_of_opening(page, reader)
    yield from faults_of_tagged(page, reader)


def faults_of_opening(page, reader):
    """Ranges of both samples' jobs open as the model opens them, and with the page's own cipher too."""
    by_page, met = Reader(page, Aria(page).encrypted), set()
    for folder in ("sample", "tagged"):
        key, tag_key, file = sample(folder)
        for asked in (b"24000017", b"24000018", b"24000019", b"2400001", b"2400001x"):
            for first, count, room in ((0, 0, 0), (0, 5, 5), (0, 5, 4), (1, 3, 9), (5, 0, 0), (5, 1, 1), (6, 0, 0), (0, 6, 5)):
                asking = (key, tag_key, file, asked, first, count, room)
                given, wanted = Reading(reader, *asking).opened(), modelled(archive.open_range, *asking)
                met.add(wanted[0])
                if given != wanted:
                    yield "%s: by the page %s, by the model %s of %s" % (folder, given, wanted, asking[3:])
        if Reading(by_page, key, tag_key, file, b"24000017", 0, 5, 5).opened() != (0, b"dried"):
            yield "the page's reader, with its cipher, does not open examples/%s" % folder
    if met != {0, 18, 19, 20, 26}:
        yield "what is asked meets only the refusals %s" % sorted(met)


def faults_of_tagged(page, reader):
    """What the page says that the tag shows, and that it does not."""
    key, tag_key, file = sample("tagged")
    bare = without_tag(file)
    header = written(key, tag_key, [])[:20]
    other = bytes(reversed(tag_key))
    answers = [
        ("the tagged sample", tag_key, file, 0),
        ("it under the archive's key", key, file, 25),
        ("it, tagged under the archive's key, under that", key, mended(file, key), 0),
        ("its tag taken off, without a tag key", b"", bare, 0),
        ("its tag taken off, with the tag key", tag_key, bare, 24),
        ("it, tagged under another tag key", tag_key, mended(file, other), 25),
        ("no jobs in layout 2", tag_key, mended(header + bytes(16), tag_key), 0),
    ]
    for size in range(20, 36):
        answers.append(("%d bytes" % size, tag_key, header[:16] + size.to_bytes(4, "big") + bytes(size - 20), 11))
    for what, given, read_file, wanted in answers:
        refused = Reading(reader, key, given, read_file).refusal()
        if refused != wanted:
            yield "%s: %d" % (what, refused)
    for at in range(len(file)):
        for bit in range(8):
            if not Reading(reader, key, tag_key, file[:at] + bytes([file[at] ^ 1 << bit]) + file[at + 1 :]).refusal():
                yield "a change of byte %d does not show" % at
    listing = read("crates/jobs/stdout")
    for given, wanted in ((tag_key, listing), (b"", "refused 24\n"), (other, "refused 25\n")):
        printed = Reading(reader, key, given, file).listing()
        if not printed == wanted == archive.jobs_text(key, given, file).decode():
            yield "`jobs` prints of the tagged sample: %s" % printed
    for sentence in TAGGED_SAYS:
        if sentence not in page.text:
            yield "it does not say: %s" % sentence


# ---- the writer, from the page alone


class Writer:
    """What the page says of writing: the sheet's fields, the checks in their order, and what is written in each field."""

    def __init__(self, page, encrypt):
        self.reader = Reader(page, encrypt)
        self.front = fields(page.section(SHEET), "position")
        self.line = fields(page.section(SHEET), "position in the line")
        # the length of the key that 0 on a sheet means
        self.key_length_0 = int(re.search("; 0 means ([0-9]+) ", page.section(SHEET).text)[1])
        turns = "^Then for each line in turn, both of its checks before the next line:$|^Then:$"
        parts = re.split(turns, page.section(WRITER).text, flags=re.M)
        self.first, self.by_entry, self.then = [Page(part).table("number", "refused because") for part in parts]
        self.header, self.entry = every_field(self.reader, page.section(SEALED), "Then an entry for each line, in the same order:")


def every_field(reader, page, turn):
    """What is written in every field of the header, and after the turn in every field of an entry."""
    header, entry = [Page(part).table("field", "what is written") for part in page.text.split(turn)]
    if [[name for name, _ in rows] for rows in (header, entry)] != [list(reader.header), list(reader.entry)]:
        raise ValueError("what is written is not every field, in order")
    return header, entry


def filled(made, rows, places):
    """The fields that the rows say, each at its place, of what is sealed or dropped."""
    out = bytearray(sum(size for _, size in places.values()))
    for name, words in rows:
        at, size = places[name]
        value = WRITTEN[words](made, name)
        out[at : at + size] = value if isinstance(value, bytes) else value.to_bytes(size, "big")
    return bytes(out)


class Sealing(Checked):
    """A sheet and plain bytes as they are sealed under a key file and a tag key into a buffer."""

    def __init__(self, writer, key_file, tag_key, sheet, plain, buffer=bytes(65536)):
        self.writer, self.key_file, self.tag_key, self.sheet = writer, key_file, tag_key, sheet
        self.plain, self.buffer = plain, buffer

    def field(self, name):
        at, size = self.writer.front[name]
        return self.sheet[at : at + size]

    def key_length(self):
        return self.field("length of the key in bytes")[0] or self.writer.key_length_0

    def jobs(self):
        return (len(self.sheet) - 5) // 12

    def entry(self, index, name):
        at, size = self.writer.line[name]
        return self.sheet[5 + 12 * index + at :][:size]

    def lengths(self):
        return [int.from_bytes(self.entry(index, "length of the body in bytes"), "big") for index in range(self.jobs())]

    def whole(self):
        return 20 + 16 * self.jobs() + sum(self.lengths()) + (16 if self.tag_key else 0)

    def start(self):
        """Where the body of the line that is at hand starts."""
        return 20 + 16 * self.jobs() + sum(self.lengths()[: self.index])

    def body(self, piece):
        """The body of the line that is at hand."""
        encrypt, job = self.writer.reader.encrypt, (self.field("archive number"), self.entry(self.index, "job number"))
        blocks = (len(piece) + 15) // 16
        return xor(piece, b"".join(encrypt(self.key(), counter_block(self.writer.reader, *job, n)) for n in range(blocks)))

    def key(self):
        return self.key_file[: self.key_length()]

    def archive(self):
        directory = bodies = b""
        for self.index, length in enumerate(self.lengths()):
            directory += filled(self, self.writer.entry, self.writer.reader.entry)
            bodies += self.body(self.plain[len(bodies) : len(bodies) + length])
        front = filled(self, self.writer.header, self.writer.reader.header) + directory + bodies
        if not self.tag_key:
            return front
        return front + tag_of(functools.partial(self.writer.reader.encrypt, self.tag_key), front, self.writer.reader.constant)

    def sealed(self):
        """The number of the first check that applies, or 0; and what stands in the buffer then."""
        refused = self.refusal_by(self.writer)
        if refused:
            return refused, self.buffer
        file = self.archive()
        return 0, file + self.buffer[len(file) :]


# The way to what is written in a field, by the writer and in dropping, by the words that must stand on the page.
WRITTEN = {
    "2 where a tag key is given, 1 where none is": lambda a, name: 2 if a.tag_key else 1,
    "32 where the sheet has 0, else as on the sheet; so never 0": lambda a, name: a.field(name)[0] or 32,
    "how many lines the sheet has": lambda a, name: a.jobs(),
    "as on the sheet": lambda a, name: a.field(name),
    "the first eight bytes of E(sixteen bytes `ff`)": lambda a, name: a.writer.reader.encrypt(a.key(), b"\xff" * 16)[:8],
    "20 + 16 × count + the lengths on the lines in all, + 16 in layout 2": lambda a, name: a.whole(),
    "as on the line": lambda a, name: a.entry(a.index, name),
    "20 + 16 × count for line 0; for any other the start and the length of the entry before it, added": lambda a, name: a.start(),
    "as in the old header": lambda a, name: a.old.header(name),
    "how many entries stay": lambda a, name: len(a.staying()),
    "20 + 16 × count + the lengths of the entries that stay in all, + 16 in layout 2": lambda a, name: a.whole(),
    "as in the old entry": lambda a, name: a.old.entry(a.staying()[a.index], name),
    "20 + 16 × count for the first; for any other the new start and the length of the entry before it, added": lambda a, name: a.start(),
}


def sheet_of(first, jobs, number=7):
    """A sheet of job numbers with lengths."""
    return bytes([first]) + number.to_bytes(4, "big") + b"".join(digits + length.to_bytes(4, "big") for digits, length in jobs)


def sheets():
    """Key files, tag keys, sheets, plain bytes and lengths of buffers: good ones, and each check on both sides of its limit."""
    key_file, tag_keys = bytes(range(40)), [bytes(range(0x10, 0x10 + n)) for n in (0, 16, 24, 32)]
    jobs, plain, many, room = [(b"24000017", 5), (b"24000018", 0)], b"dried", bytes(range(256)) * 260, 65536
    good = sheet_of(16, jobs)
    for given in (*tag_keys, b"\0", bytes(15), bytes(33)):
        for first in range(256):
            yield key_file, given, sheet_of(first, jobs), plain, room
        for first in (0, 15, 16, 24, 32):
            yield from ((key_file[:n], given, sheet_of(first, jobs), plain, room) for n in (0, 15, 16, 17, 23, 24, 31, 32, 33, 40))
    for given in tag_keys:
        for size in (*range(32), *range(771, 800)):
            yield key_file, given, sheet_of(32, [(b"%08d" % n, 0) for n in range(70)])[:size], b"", room
        for lines in ([], [(b"97000004", 20), (b"05000001", 33)], [(b"05000001", 20), (b"97000004", 33)], [(b"24000017", 0)] * 2):
            yield key_file, given, sheet_of(24, lines, 0xFEDCBA98), many[: sum(size for _, size in lines)], room
        for count in (64, 65):
            yield key_file, given, sheet_of(0, [(b"%08d" % n, n) for n in range(count)]), many[: count * (count - 1) // 2], room
        longest = 65536 - 36 - (16 if given else 0)
        for size in (longest, longest + 1, 2**32 - 1):
            yield from ((key_file, given, sheet_of(16, [(b"24000017", size)]), many[:have], room) for have in (longest, longest + 1))
        # lengths that come to 5 in 32 bits
        yield key_file, given, sheet_of(16, [(b"24000017", 2**32 - 1), (b"24000018", 6)]), plain, room
        yield from ((key_file, given, good, (plain + plain)[:n], 99) for n in range(11))
        yield from ((key_file, given, good, plain, n) for n in (0, 1, 19, 52, *range(55, 76)))
        for at, byte in enumerate(good):
            for value in {0, 1, 16, 0x2F, 0x30, 0x39, 0x3A, 0xFF, byte ^ 1} - {byte}:
                yield key_file, given, good[:at] + bytes([value]) + good[at + 1 :], plain, room
    source = random.Random(1)
    for _ in range(3000):
        given = source.choice((*tag_keys, b"", b"\0"))
        numbers = [b"%08d" % source.choice((source.randrange(10**8), 24000017, 70000000, 69999999)) for _ in range(source.randrange(4))]
        lines = [(digits, source.randrange(40)) for digits in (sorted(set(numbers), key=in_years) if source.randrange(3) else numbers)]
        sheet = bytearray(sheet_of(source.choice((0, 16, 24, 32)), lines, source.randrange(2**32)))
        for at in source.sample(range(len(sheet)), source.choice((0, 0, 0, 1))):
            sheet[at] = source.choice((0, 16, 0x30, 0x3A, source.randrange(256)))
        sheet = bytes(sheet) + bytes(source.choice((0, 0, 0, 0, 1, 12)))
        have = sum(length for _, length in lines) + source.choice((0, 0, 0, 0, 1, -1))
        whole = 20 + 16 * len(lines) + have + (16 if given else 0) + source.choice((0, 0, 1, -1))
        yield source.randbytes(source.choice((16, 24, 32, 32, 32, 40))), given, sheet, source.randbytes(max(have, 0)), max(whole, 0)


def faults_of_sealing(page):
    """The page's writer answers and writes what the model does, and what the page says that it does."""
    writer, met = Writer(page, libcrypto.forward), set()
    for key_file, tag_key, sheet, plain, room in sheets():
        buffer = b"\xa5" * room
        given = Sealing(writer, key_file, tag_key, sheet, plain, buffer).sealed()
        wanted = archive.sealed_into(key_file, tag_key, sheet, plain, buffer)
        met.add(wanted[0])
        if given != wanted:
            what = [part.hex() for part in (key_file, tag_key, sheet[:80], plain[:80])]
            yield "by the page %d, by the model %d, or other bytes: %s, a buffer of %d" % (given[0], wanted[0], what, room)
            return
        if not wanted[0] and len(plain) < 3000:
            yield from faults_of_sealed(writer, key_file, tag_key, sheet, plain, buffer, given[1])
    if met != {0, 1, 6, 9, 13, 14, 16, 17, 20, 21, 22}:
        yield "the sheets meet only the refusals %s" % sorted(met)
    yield from faults_of_resealing(writer)
    yield from faults_of_sealed_samples(page, writer)


def faults_of_sealed(writer, key_file, tag_key, sheet, plain, buffer, after):
    """What was written is accepted under the key as it was cut, and opens to the plain bytes; the buffer has its other bytes."""
    length = int.from_bytes(after[16:20], "big")
    file, key = after[:length], key_file[: sheet[0] or 32]
    if Reading(writer.reader, key, tag_key, file).refusal() or after[length:] != buffer[length:] or file[1] != len(key):
        yield "what is written of the sheet %s is not read again" % sheet.hex()
    elif (own_sheet(writer.reader, key, tag_key, file), opened_whole(writer.reader, key, tag_key, file)) != (
        bytes([len(key)]) + sheet[1:],
        plain,
    ):
        yield "what is written of the sheet %s does not list or open again" % sheet.hex()


def own_sheet(reader, key, tag_key, file):
    """The sheet of an accepted file's own jobs."""
    reading = Reading(reader, key, tag_key, file)
    names = "job number", "length of the body in bytes"
    lines = [reading.entry(index, name) for index in range(reading.jobs()) for name in names]
    return reading.header("length of the key in bytes") + reading.header("archive number") + b"".join(lines)


def opened_whole(reader, key, tag_key, file):
    """The plain bytes of an accepted file's jobs, end to end."""
    reading, plain = Reading(reader, key, tag_key, file), b""
    for index in range(reading.jobs()):
        start, length = reading.body(index)
        reading.asked = reading.entry(index, "job number")
        plain += bytes(file[start + j] ^ reading.stream(j) for j in range(length))
    return plain


def faults_of_resealing(writer):
    """What the page's reader accepts comes out again, byte for byte."""
    again = 0
    for key, tag_key, file in trials():
        if len(file) < 4096 and not Reading(writer.reader, key, tag_key, file).refusal():
            sheet, plain = (made(writer.reader, key, tag_key, file) for made in (own_sheet, opened_whole))
            again += 1
            if Sealing(writer, key + b"and more", tag_key, sheet, plain).sealed() != (0, file + bytes(65536 - len(file))):
                yield "an accepted archive does not come out again: %s" % file[:80].hex()
    if again < 100:
        yield "only %d archives were sealed again" % again


def faults_of_sealed_samples(page, writer):
    """Both samples come out of their own sheets by the page's own steps and its cipher, and what the page says of writing is so."""
    by_page = Writer(page, Aria(page).encrypted)
    for folder in ("sample", "tagged"):
        (key, tag_key, file), (sheet, plain) = sample(folder), to_seal(folder)
        for key_file in (key, key + b"\n", key + key):
            if Sealing(by_page, key_file, tag_key, sheet, plain, b"").sealed() != (20, b""):
                yield "a buffer of no bytes is not refused"
            if Sealing(by_page, key_file, tag_key, sheet, plain, bytes(len(file))).sealed() != (0, file):
                yield "by the page's steps examples/%s does not come out of its sheet" % folder
        for first in (b"\x00", b"\x20"):
            if Sealing(by_page, key, tag_key, first + sheet[1:], plain, bytes(len(file))).sealed() != (1, bytes(len(file))):
                yield "the key of examples/%s is enough for a sheet with %s" % (folder, first.hex())
        firsts = [archive.seal_output(key, tag_key, given, plain)[0][0] for given in (sheet, b"")]
        if firsts != [2 if tag_key else 1, 0x72]:
            yield "the first byte does not tell an archive from a refusal"
        if [Reading(writer.reader, longer, tag_key, file).refusal() for longer in (key + b"\n", key + key)] != [1, 8]:
            yield "a longer key file is taken for reading"
        other = Sealing(writer, key, tag_key, sheet, b"moist", bytes(len(file))).sealed()
        if other[0] or xor(other[1][52:57], file[52:57]) != xor(b"moist", plain):
            yield "two bodies under the same numbers do not betray each other"
        if [Sealing(writer, b"", tag_key, given, b"", b"").sealed()[0] for given in (b"", sheet)] != [21, 1]:
            yield "a missing sheet is not 21, or a missing key file not 1"
        none = Sealing(writer, key, tag_key, sheet[:5], b"").archive()
        if Reading(writer.reader, key, tag_key, none).listing() != "jobs 0\n":
            yield "a sheet of 5 bytes makes no archive of no jobs"
    for sentence in WRITING_SAYS:
        if sentence not in page.text:
            yield "it does not say: %s" % sentence


# ---- dropping jobs, from the page alone


class Dropper:
    """What the page says of dropping jobs: the checks in their order, and what is written in each field."""

    def __init__(self, page, encrypt):
        self.reader = Reader(page, encrypt)
        turns = "^Then for each number of the list in turn, both of its checks before the next number:$|^Then:$"
        parts = re.split(turns, page.section(DROPPER).text, flags=re.M)
        self.first, self.by_entry, self.then = [Page(part).table("number", "refused because") for part in parts]
        self.header, self.entry = every_field(self.reader, page.section(LEFT), "Then an entry for each that stays, in the same order:")


class Dropping(Checked):
    """An archive and a list of job numbers, as these are dropped under a key and a tag key into a buffer."""

    def __init__(self, dropper, key, tag_key, file, listed, buffer=bytes(65536)):
        self.dropper, self.old = dropper, Reading(dropper.reader, key, tag_key, file)
        self.tag_key, self.listed, self.buffer = tag_key, listed, buffer

    def jobs(self):
        """How many numbers are listed."""
        return len(self.listed) // 8

    def listed_at(self, k):
        return self.listed[8 * k : 8 * k + 8]

    def found(self):
        """The entries that bear the number that is at hand."""
        return [at for at in range(self.old.jobs()) if self.old.entry(at, "job number") == self.listed_at(self.index)]

    def staying(self):
        """The entries that stay, by their old places."""
        listed = {self.listed_at(k) for k in range(self.jobs())}
        return [at for at in range(self.old.jobs()) if self.old.entry(at, "job number") not in listed]

    def lengths(self):
        return [self.old.body(at)[1] for at in self.staying()]

    def whole(self):
        return 20 + 16 * len(self.staying()) + sum(self.lengths()) + (16 if self.old.number("layout") == 2 else 0)

    def start(self):
        """Where the body of the entry that is at hand starts then."""
        return 20 + 16 * len(self.staying()) + sum(self.lengths()[: self.index])

    def archive(self):
        """The archive that is left. Of the keys this takes the tag key, and that in layout 2 alone."""
        reader, directory, bodies = self.dropper.reader, b"", b""
        for self.index, at in enumerate(self.staying()):
            directory += filled(self, self.dropper.entry, reader.entry)
            start, length = self.old.body(at)
            bodies += self.old.file[start : start + length]
        front = filled(self, self.dropper.header, reader.header) + directory + bodies
        if self.old.number("layout") == 1:
            return front
        return front + tag_of(functools.partial(reader.encrypt, self.tag_key), front, reader.constant)

    def dropped(self):
        """The number of the first check that applies, or 0; and what stands in the buffer then."""
        refused = self.old.refusal() or self.refusal_by(self.dropper)
        if refused:
            return refused, self.buffer
        file = self.archive()
        return 0, file + self.buffer[len(file) :]


def lists_of(there):
    """Lists for an archive of these jobs: good ones, and 27, 18 and 19 alone, beside each other and behind good numbers."""
    every = b"".join(there)
    none, absent = b"2400001/", b"44444444"
    first, last = there[:1], there[-1:]
    yield from (b"", every, b"".join(there[::-1]), every * 2, b"".join(first * 100 + last), b"".join(there[::2]), b"".join(there[1:]))
    yield from (none, absent, none + absent, absent + none, every + none, every + absent, b"".join(last) + absent + none, bytes(8))
    yield from (b"2400001", every + b"2", none + b"2400001", absent + none + b"2400001")


def droppings(dropper):
    """Keys, archives, lists and lengths of buffers: each archive of `trials`, accepted or not, with a list by turns; those that are
    accepted with some more by turns; both samples with every list of up to three numbers, and buffers of every length."""
    seen, by_turns = set(), list(lists_of([b"24000017", b"24000018"]))
    for turn, (key, tag_key, file) in enumerate(trials()):
        yield key, tag_key, file, by_turns[turn % len(by_turns)], (0, 36, 52, 99, 65536)[turn % 5]
        reading = Reading(dropper.reader, key, tag_key, file)
        if (key, tag_key, file) in seen or reading.refusal():
            continue
        seen.add((key, tag_key, file))
        there = [reading.entry(index, "job number") for index in range(reading.jobs())]
        every = 3 if len(file) < 3000 else 9
        for step, listed in enumerate(list(lists_of(there))[len(seen) % every :: every]):
            whole = Dropping(dropper, key, tag_key, file, listed).whole()
            yield key, tag_key, file, listed, whole + (-1, 0, 9)[(turn + step) % 3]
    numbers = b"24000017", b"24000018", b"24000019", b"2400001x"
    for keys_and_file in (sample("sample"), sample("tagged")):
        for chosen in itertools.chain.from_iterable(itertools.product(numbers, repeat=count) for count in range(4)):
            yield from ((*keys_and_file, b"".join(chosen) + more, 80) for more in (b"", b"2", b"2400001"))
        for listed in (b"", b"24000017", b"24000018", b"2400001824000017", b"24000019", b"2400001", b"2400001x"):
            yield from ((*keys_and_file, listed, room) for room in range(80))


def faults_of_dropping(page):
    """By the page jobs are dropped as by the model, and what the page says of it is so."""
    dropper, writer, met = Dropper(page, libcrypto.forward), Writer(page, libcrypto.forward), set()
    for key, tag_key, file, listed, room in droppings(dropper):
        buffer = b"\xa5" * room
        given = Dropping(dropper, key, tag_key, file, listed, buffer).dropped()
        wanted = archive.dropped_into(key, tag_key, file, listed, buffer)
        met.add(wanted[0])
        if given != wanted:
            what = [part.hex() for part in (key, tag_key, file[:80], listed[:80])]
            yield "by the page %d, by the model %d, or other bytes: %s, a buffer of %d" % (given[0], wanted[0], what, room)
            return
        if not wanted[0]:
            yield from faults_of_dropped(dropper, writer, key, tag_key, file, listed, given[1])
    if met != {0, 1, *range(5, 21), 24, 25, 27}:
        yield "the archives and lists meet only the refusals %s" % sorted(met)
    yield from faults_of_dropped_samples(page)
    for sentence in DROPPING_SAYS:
        if sentence not in page.text:
            yield "it does not say: %s" % sentence


def faults_of_dropped(dropper, writer, key, tag_key, file, listed, after):
    """What is left is no longer than it was, is read again, and is what the writer makes of the jobs that stay; those that went are not
    found. To write it takes no key but the tag key."""
    length = int.from_bytes(after[16:20], "big")
    left, gone = after[:length], {listed[at : at + 8] for at in range(0, len(listed), 8)}
    what = "what is left of %s without %s" % (file[:80].hex(), listed[:80])
    if length > len(file) or left != Dropping(dropper, b"", tag_key, file, listed).archive() or not listed and left != file:
        yield "%s is longer, or takes a key" % what
    if Reading(dropper.reader, key, tag_key, left).refusal() or left[4:8] != file[4:8]:
        yield "%s is not accepted, or has another archive number" % what
        return
    if any(Reading(dropper.reader, key, tag_key, left, number).opened()[0] != 19 for number in gone):
        yield "%s still has a job" % what
    if length < 3000 and len(file) < 3000:
        sheet, plain = own_sheet(dropper.reader, key, tag_key, file), opened_whole(dropper.reader, key, tag_key, file)
        lines, rest, front = [sheet[at : at + 12] for at in range(5, len(sheet), 12)], b"", sheet[:5]
        for line in lines:
            size = int.from_bytes(line[8:], "big")
            if line[:8] not in gone:
                front, rest = front + line, rest + plain[:size]
            plain = plain[size:]
        if own_sheet(dropper.reader, key, tag_key, left) != front or opened_whole(dropper.reader, key, tag_key, left) != rest:
            yield "%s does not list or open to the other jobs" % what
        if Sealing(writer, key, tag_key, front, rest).archive() != left:
            yield "%s is not what a writer makes of the other jobs" % what


def faults_of_dropped_samples(page):
    """Both samples by the page's own cipher too: the order of the list and how often a number is in it makes no difference, one number that
    is missing leaves all as it was, and the old archive is accepted as before."""
    by_page = Dropper(page, Aria(page).encrypted)
    for folder in ("sample", "tagged"):
        key, tag_key, file = sample(folder)
        for numbers in (b"24000017", b"24000018"):
            wanted = archive.dropped_into(key, tag_key, file, numbers, bytes(len(file)))
            for listed in (numbers, numbers * 2, numbers * 65):
                if Dropping(by_page, key, tag_key, file, listed, bytes(len(file))).dropped() != wanted:
                    yield "by the page's cipher, examples/%s without %s is another" % (folder, listed.decode()[:16])
        none = {Dropping(by_page, key, tag_key, file, listed).archive() for listed in (b"2400001724000018", b"2400001824000017")}
        if {len(left) for left in none} != {36 if tag_key else 20} or len(none) != 1:
            yield "examples/%s without its jobs is not %d bytes" % (folder, 36 if tag_key else 20)
        if Dropping(by_page, key, tag_key, file, b"2400001724000019", bytes(99)).dropped() != (19, bytes(99)):
            yield "a number that is missing does not refuse the list"
        if Reading(by_page.reader, key, tag_key, file).listing() != read("crates/jobs/stdout"):
            yield "the old archive of examples/%s is not accepted as before" % folder


# ---- the project's definitions


def faults_of_definitions(page):
    """The definitions that the page names, and that these need, are all in its files, in its order, or explained."""
    rows = page.table("file", "what it defines", "names")
    paths = [CODE.fullmatch(row[0]).group(1) for row in rows]
    files = [definitions.File(read(path)) for path in paths]
    for (_, _, names), path, file in zip(rows, paths, files):
        for name in CODE.findall(names):
            if name not in file.bodies:
                yield "%s does not define `%s`" % (path, name)
    spans = CODE.findall(page.text.split("What the signs mean:")[1])
    explained = {definitions.bare(sign) for span in spans for sign in definitions.signs(span)}
    for name in sorted(set(definitions.GIVEN) - explained):
        yield "`%s` is computed by tests/docs/definitions.py, and the page does not explain it" % name
    home = {name: at for at, file in enumerate(files) for name in file.bodies}
    ahead, seen = list(ROOTS), set()
    while ahead:
        name = ahead.pop()
        if name in seen:
            continue
        seen.add(name)
        at = home[name]
        words = set(definitions.signs(files[at].bodies[name]))
        for other in sorted(files[at].taken | set(files[at].bodies)):
            if definitions.bare(other) not in words:
                continue
            if other in home and home[other] > at:
                yield "%s: `%s` stands on %s, which comes later" % (paths[at], name, paths[home[other]])
            elif other in home:
                ahead.append(other)
            elif definitions.bare(other) not in explained:
                yield "%s: `%s` needs `%s`, which the page neither finds nor explains" % (paths[at], name, other)


def faults_of_computing(page):
    """The definitions, computed by what the page says of their signs, give its boxes, the vectors and the sample."""
    paths = [CODE.fullmatch(row[0]).group(1) for row in page.table("file", "what it defines", "names")]
    names = definitions.names_of([definitions.File(read(path)) for path in paths])

    def computed(name, *arguments):
        return definitions.deep(lambda: definitions.value(names, name, *arguments))

    for name, table in Aria(page).boxes.items():
        if computed(name.lower()) != tuple(table):
            yield "%s of the definitions is not the page's" % name
    for cell, out in page.table("key", "E(`%s`)" % PLAIN.hex(" ")):
        schedule = computed("schedule_of", tuple(key_of(cell)))
        given = bytes(computed("encrypted", schedule, tuple(PLAIN)))
        if given != octets(out):
            yield "%s: the definitions give %s" % (cell, given.hex(" "))
    file = tuple(read("examples/sample/archive.bin", "rb"))
    schedule = computed("schedule_of", tuple(read("examples/sample/key.bin", "rb")))
    stream = computed("keystream", schedule, file[4:8] + file[20:28])
    rows = dict(page.table("job 24000017", "bytes"))
    for at in (0, 15, 16, 31):
        if definitions.deep(lambda: stream(at)) != octets(rows["E(counter block %d)" % (at // 16)])[at % 16]:
            yield "the definitions give another byte %d of the keystream" % at
    if bytes(computed("add_stream", stream, 0, file[52:57])) != b"dried":
        yield "the definitions do not open the sample"
    if bytes(computed("add_stream", stream, 1, file[53:56])) != b"rie":
        yield "the definitions do not open a range of the sample"
    rows = page.table("tag key", "bytes", "tag")
    tags = [(key_of(cell), tagged(what, bytes(file)), octets(tag)) for cell, what, tag in rows]
    _, tag_key, other = sample("tagged")
    for key, message, tag in tags + [(tag_key, other[: -archive.TAG], other[-archive.TAG :])]:
        made = computed("mac_of", computed("encrypted", computed("schedule_of", tuple(key))), tuple(message))
        if bytes(made) != tag:
            yield "the definitions give another tag of %d bytes: %s" % (len(message), bytes(made).hex(" "))


def faults_of_paths(page):
    for span in page.spans:
        if re.fullmatch(r"[\w./-]+/[\w./-]+", span) and not os.path.exists(os.path.join(TOP, span)):
            yield "there is no %s" % span


def main():
    page = Page(read(sys.argv[1] if len(sys.argv) > 1 else "docs/FORMAT.md"))
    checks = (
        faults_of_writing,
        faults_of_refusals,
        faults_of_layout,
        faults_of_samples,
        faults_of_example,
        faults_of_key_checks,
        faults_of_worked_tag,
        faults_of_text,
        faults_of_aria,
        faults_of_tags,
        faults_of_reading,
        faults_of_sealing,
        faults_of_dropping,
        faults_of_definitions,
        faults_of_computing,
        faults_of_paths,
    )
    wrong = []
    for check in checks:
        try:
            wrong += list(check(page))
        except (LookupError, ValueError, AttributeError, TypeError, OSError) as error:
            wrong.append("%s: %s" % (check.__name__, error))
    for fault in wrong:
        print("docs/FORMAT.md: " + fault)
    if wrong:
        sys.exit(1)
    spans = sum(1 for span in page.spans if BYTES.fullmatch(span))
    seen = [
        "the examples are the samples' and libcrypto's",
        "ARIA in short gives the RFC's vectors and the rule of CMAC libcrypto's tags",
        "so do the definitions",
        "a reader, a writer and the dropping of jobs by the page answer as the model",
        "%d spans of bytes keep the rule" % spans,
        "the commands were run" if runs_commands() else "the commands were not run, for want of openssl or xxd",
    ]
    print("docs/FORMAT.md: " + ", ".join(seen))


if __name__ == "__main__":
    main()
