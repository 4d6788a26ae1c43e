"""The rules of the dryer archive, read straight from document 01, with document 02's requests a, b, d, e, f, g, h and j.

A model for tests: plain Python over whole numbers and bytes, written apart from the proved code and
sharing nothing with it. Refusals carry the documents' numbers. Layout 2, which ends in a tag, is request d's;
a tag key of no bytes is none.
"""

import functools
from collections import namedtuple

import cmac
import libcrypto

PLATE = 20
ENTRY = 16
TAG = 16
LONGEST_FILE = 65536
MOST_JOBS = 64
# A job sheet: its front, and then so many bytes a job.
SHEET = 5
LINE = 12
# A list of job numbers: so many bytes a number.
NUMBER = 8
# The first word of `drop` where it is only to show what dropping would leave.
PREVIEW = b"--preview"

Entry = namedtuple("Entry", "digits start length")
Line = namedtuple("Line", "digits length")


class Refused(Exception):
    """The first case that applies; `number` is its number in the documents."""

    def __init__(self, number):
        super().__init__("refused %d" % number)
        self.number = number


def refuse_if(applies, number):
    if applies:
        raise Refused(number)


def number_at(data, at, size):
    return int.from_bytes(data[at : at + size], "big")


def all_digits(data):
    return all(0x30 <= byte <= 0x39 for byte in data)


def entry_at(file, index):
    at = PLATE + ENTRY * index
    return Entry(file[at : at + 8], number_at(file, at + 8, 4), number_at(file, at + 12, 4))


def place(number):
    """A job number's place in the order of the contents: its year, 1970 to 2069, then the other six digits.

    The documents speak of digits alone. In other bytes, by a rule of this project's own (docs/DECISIONS.md, 42), a byte
    counts by how far it is above the digit 0; one that is below, or missing, counts as 0.
    """
    values = [max(byte - 0x30, 0) for byte in number[:8].ljust(8, b"0")]
    year = 10 * values[0] + values[1]
    year += 1900 if year >= 70 else 2000
    others = 0
    for value in values[2:]:
        others = 10 * others + value
    return 10**6 * year + others


def key_check(key):
    return libcrypto.forward(key, b"\xff" * 16)[:8]


def check(key, tag_key, file):
    """The count of jobs. Refusals 1, 5 to 17, 24 and 25."""
    refuse_if(len(key) not in (16, 24, 32), 1)
    refuse_if(len(tag_key) not in (0, 16, 24, 32), 1)
    refuse_if(len(file) < PLATE, 5)
    refuse_if(len(file) > LONGEST_FILE, 6)
    layout = file[0]
    refuse_if(layout not in (1, 2), 7)
    refuse_if((layout == 1 and len(tag_key) > 0) or (layout == 2 and len(tag_key) == 0), 24)
    refuse_if(file[1] != len(key), 8)
    count = number_at(file, 2, 2)
    refuse_if(count > MOST_JOBS, 9)
    refuse_if(number_at(file, 16, 4) != len(file), 10)
    refuse_if((20 if layout == 1 else 36) + ENTRY * count > len(file), 11)
    refuse_if(file[8:16] != key_check(key), 12)
    # where the bodies have to end: at the file's end, or at the tag
    bodies_end = len(file) if layout == 1 else len(file) - TAG
    end = PLATE + ENTRY * count
    for index in range(count):
        entry = entry_at(file, index)
        refuse_if(not all_digits(entry.digits), 13)
        refuse_if(index > 0 and place(entry.digits) <= place(entry_at(file, index - 1).digits), 14)
        refuse_if(entry.start != end, 15)
        end = entry.start + entry.length
        refuse_if(end > bodies_end, 16)
    refuse_if(end != bodies_end, 17)
    refuse_if(layout == 2 and file[bodies_end:] != cmac.tag(tag_key, file[:bodies_end]), 25)
    return count


def search(contents, number):
    """The index of the entry that bears the number, in any bytes. The search ends at the first entry above it: 19."""
    for index in range(len(contents) // ENTRY):
        digits = contents[ENTRY * index :][:8]
        if digits == number:
            return index
        refuse_if(place(digits) > place(number), 19)
    raise Refused(19)


def find(key, tag_key, file, number):
    """The index of the job's entry. Refusals of `check`, then 18 and 19. Only an entry that bears the number ends
    this search, as in document 01: an early end must not show."""
    count = check(key, tag_key, file)
    refuse_if(len(number) != 8 or not all_digits(number), 18)
    for index in range(count):
        if entry_at(file, index).digits == number:
            return index
    raise Refused(19)


def counter_block(archive_number, digits, index):
    return archive_number.to_bytes(4, "big") + digits + index.to_bytes(4, "big")


def keystream(key, archive_number, digits, length):
    blocks = (length + 15) // 16
    counters = b"".join(counter_block(archive_number, digits, i) for i in range(blocks))
    return libcrypto.forward(key, counters)[:length]


def exclusive_or(a, b):
    return bytes(x ^ y for x, y in zip(a, b))


@functools.lru_cache(maxsize=256)
def plain_bytes(key, tag_key, file, number):
    """The job's plain bytes, all of them. Refusals of `find`."""
    entry = entry_at(file, find(key, tag_key, file, number))
    body = file[entry.start : entry.start + entry.length]
    return exclusive_or(body, keystream(key, number_at(file, 4, 4), entry.digits, entry.length))


def open_job(key, tag_key, file, number, room=LONGEST_FILE):
    """The job's plain bytes. Refusals of `find`, then 20 where a buffer of `room` bytes is too short."""
    plain = plain_bytes(key, tag_key, file, number)
    refuse_if(room < len(plain), 20)
    return plain


def open_range(key, tag_key, file, number, first, count, room=LONGEST_FILE):
    """`count` of the job's plain bytes, from byte `first` on. Refusals of `find`, then 26 where the range passes the
    job's end, then 20 where a buffer of `room` bytes is too short for the range."""
    plain = plain_bytes(key, tag_key, file, number)
    refuse_if(first + count > len(plain), 26)
    refuse_if(room < count, 20)
    return plain[first : first + count]


def opened(key, tag_key, file, number, bounds=(), room=LONGEST_FILE):
    """What opening gives of a range, by a first byte and a count, or of the whole job where there are none."""
    if bounds:
        return open_range(key, tag_key, file, number, *bounds, room)
    return open_job(key, tag_key, file, number, room)


def opened_into(key, tag_key, file, number, bounds, buffer):
    """The refusal of opening into a buffer or 0, how many bytes it counts, and what the buffer holds then."""
    try:
        plain = opened(key, tag_key, file, number, bounds, len(buffer))
    except Refused as refused:
        return refused.number, 0, buffer
    return 0, len(plain), plain + buffer[len(plain) :]


def lines_of(sheet):
    """The lines of a sheet that 21 passes."""
    return [Line(sheet[at : at + 8], number_at(sheet, at + 8, 4)) for at in range(SHEET, len(sheet), LINE)]


@functools.lru_cache(maxsize=256)
def sealed(key_file, tag_key, sheet, plain):
    """The archive of a sheet's jobs, their plain bytes end to end. Refusals 21, 22, 1, 9, 13, 14, 6, 16 and 17, in this order."""
    refuse_if(len(sheet) < SHEET or (len(sheet) - SHEET) % LINE != 0, 21)
    refuse_if(sheet[0] not in (0, 16, 24, 32), 22)
    key_length = 32 if sheet[0] == 0 else sheet[0]
    refuse_if(len(key_file) < key_length, 1)
    refuse_if(len(tag_key) not in (0, 16, 24, 32), 1)
    count = (len(sheet) - SHEET) // LINE
    refuse_if(count > MOST_JOBS, 9)
    lines = lines_of(sheet)
    for index, line in enumerate(lines):
        refuse_if(not all_digits(line.digits), 13)
        refuse_if(index > 0 and place(line.digits) <= place(lines[index - 1].digits), 14)
    wanted = sum(line.length for line in lines)
    whole_length = PLATE + ENTRY * count + wanted + (TAG if tag_key else 0)
    refuse_if(whole_length > LONGEST_FILE, 6)
    refuse_if(len(plain) < wanted, 16)
    refuse_if(len(plain) > wanted, 17)

    key = key_file[:key_length]
    layout = 2 if tag_key else 1
    plate = bytes([layout, key_length]) + count.to_bytes(2, "big") + sheet[1:5]
    plate += key_check(key) + whole_length.to_bytes(4, "big")
    contents = bodies = b""
    for line in lines:
        start = PLATE + ENTRY * count + len(bodies)
        contents += line.digits + start.to_bytes(4, "big") + line.length.to_bytes(4, "big")
        first = counter_block(number_at(sheet, 1, 4), line.digits, 0)
        bodies += libcrypto.counter(key, first, plain[len(bodies) : len(bodies) + line.length])
    front = plate + contents + bodies
    return front + cmac.tag(tag_key, front) if tag_key else front


def seal(key_file, tag_key, sheet, plain, room=LONGEST_FILE):
    """The archive. Refusals of `sealed`, then 20 where a buffer of `room` bytes is too short."""
    file = sealed(key_file, tag_key, sheet, plain)
    refuse_if(room < len(file), 20)
    return file


def sealed_into(key_file, tag_key, sheet, plain, buffer):
    """The refusal of sealing into a buffer or 0, and what the buffer holds then."""
    try:
        file = seal(key_file, tag_key, sheet, plain, len(buffer))
    except Refused as refused:
        return refused.number, buffer
    return 0, file + buffer[len(file) :]


def entries_of(file):
    """The entries of an accepted archive."""
    return [entry_at(file, index) for index in range(number_at(file, 2, 2))]


def sheet_of(file):
    """An accepted archive's own sheet: its key length, its archive number, and each job's digits and length."""
    lines = [entry.digits + entry.length.to_bytes(4, "big") for entry in entries_of(file)]
    return file[1:2] + file[4:8] + b"".join(lines)


def plain_of(key, tag_key, file):
    """The plain bytes of all jobs of an accepted archive, end to end."""
    return b"".join(plain_bytes(key, tag_key, file, entry.digits) for entry in entries_of(file))


def left_of(key, tag_key, file, listed):
    """The entries of the jobs whose numbers are not listed, eight bytes each; one that is listed twice counts once. Refusals of
    `check`, then 27, then 18 and 19 number by number."""
    check(key, tag_key, file)
    refuse_if(len(listed) % NUMBER != 0, 27)
    entries = entries_of(file)
    there = [entry.digits for entry in entries]
    gone = [listed[at : at + NUMBER] for at in range(0, len(listed), NUMBER)]
    for number in gone:
        refuse_if(not all_digits(number), 18)
        refuse_if(number not in there, 19)
    return [entry for entry in entries if entry.digits not in gone]


@functools.lru_cache(maxsize=256)
def dropped(key, tag_key, file, listed):
    """The archive without the jobs listed. Refusals of `left_of`. No body is opened: what is left of the sealed bytes moves up."""
    left = left_of(key, tag_key, file, listed)
    contents = bodies = b""
    for entry in left:
        start = PLATE + ENTRY * len(left) + len(bodies)
        contents += entry.digits + start.to_bytes(4, "big") + entry.length.to_bytes(4, "big")
        bodies += file[entry.start : entry.start + entry.length]
    whole_length = PLATE + len(contents) + len(bodies) + (TAG if tag_key else 0)
    # layout, key length, archive number and key check stay
    plate = file[0:2] + len(left).to_bytes(2, "big") + file[4:16] + whole_length.to_bytes(4, "big")
    front = plate + contents + bodies
    return front + cmac.tag(tag_key, front) if tag_key else front


def drop(key, tag_key, file, listed, room=LONGEST_FILE):
    """The archive without the jobs listed. Refusals of `dropped`, then 20 where a buffer of `room` bytes is too short for it."""
    smaller = dropped(key, tag_key, file, listed)
    refuse_if(room < len(smaller), 20)
    return smaller


def dropped_into(key, tag_key, file, listed, buffer):
    """The refusal of dropping into a buffer or 0, and what the buffer holds then."""
    try:
        smaller = drop(key, tag_key, file, listed, len(buffer))
    except Refused as refused:
        return refused.number, buffer
    return 0, smaller + buffer[len(smaller) :]


@functools.lru_cache(maxsize=256)
def foreseen(key, tag_key, file, listed):
    """Of the archive without the jobs listed the count, the whole length and the contents. Refusals of `left_of`. No archive is made:
    what goes is taken off the old one's length, and off the starts of what stands behind it."""
    left = left_of(key, tag_key, file, listed)
    entries = entries_of(file)
    contents, up = b"", ENTRY * (len(entries) - len(left))
    for entry in entries:
        if entry in left:
            contents += entry.digits + (entry.start - up).to_bytes(4, "big") + entry.length.to_bytes(4, "big")
        else:
            up += entry.length
    return len(left), len(file) - up, contents


def preview(key, tag_key, file, listed, room=LONGEST_FILE):
    """The count, the whole length and the contents. Refusals of `foreseen`, then 20 where a buffer of `room` bytes is too short for the
    contents."""
    count, length, contents = foreseen(key, tag_key, file, listed)
    refuse_if(room < len(contents), 20)
    return count, length, contents


def previewed_into(key, tag_key, file, listed, buffer):
    """The refusal of the preview into a buffer or 0, the count and the whole length, which are 0 beside a refusal; and what the buffer
    holds then."""
    try:
        count, length, contents = preview(key, tag_key, file, listed, len(buffer))
    except Refused as refused:
        return (refused.number, 0, 0), buffer
    return (0, count, length), contents + buffer[len(contents) :]


def jobs_text(key, tag_key, file):
    """What the program `jobs` prints."""
    try:
        count = check(key, tag_key, file)
    except Refused as refused:
        return b"refused %d\n" % refused.number
    lines = [b"jobs %d\n" % count]
    for index in range(count):
        entry = entry_at(file, index)
        lines.append(b"%s %d %d\n" % entry)
    return b"".join(lines)


def open_output(key, tag_key, file, number, *words):
    """What the program `open` writes, standard output and standard error, of a number and of the words of a range: none,
    or a first byte and a count in decimal."""
    try:
        return opened(key, tag_key, file, number, tuple(map(int, words))), b""
    except Refused as refused:
        return b"", b"refused %d\n" % refused.number


def seal_output(key_file, tag_key, sheet, plain):
    """What the program `seal` writes, standard output and standard error."""
    try:
        return seal(key_file, tag_key, sheet, plain), b""
    except Refused as refused:
        return b"refused %d\n" % refused.number, b""


def list_of(words):
    """The list that the program `drop` makes of its words. One that has not eight bytes becomes eight zero bytes, so that 18
    comes in its place, and a longer one is never two numbers."""
    return b"".join(word if len(word) == NUMBER else bytes(NUMBER) for word in words)


def drop_output(key, tag_key, file, *words):
    """What the program `drop` writes, standard output and standard error, of the job numbers that are its words: the new archive, or
    behind `--preview` what `jobs` prints of it."""
    only_shown = words[0] == PREVIEW
    try:
        smaller = drop(key, tag_key, file, list_of(words[1:] if only_shown else words))
    except Refused as refused:
        return b"", b"refused %d\n" % refused.number
    return jobs_text(key, tag_key, smaller) if only_shown else smaller, b""
