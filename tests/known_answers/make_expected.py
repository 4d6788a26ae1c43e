"""Writes what the program `known_answers` is to print, from the model of the archive rules and libcrypto alone.

    python3 tests/known_answers/make_expected.py > crates/known_answers/stdout

One line a case, `CASE: jobs N` or `CASE: refused N`. The cases are document 01's plate readings that
are not marked P: under a good key files of 19 bytes, of 20 bytes with layout 2, of 65,537 bytes, and
archives of 64 and 65 jobs of no bytes.

Then a line a call on the sample archive, examples/sample:

    find NUMBER: index I
    directory: HEX
    body of NUMBER: 'HEX'
    open NUMBER in N bytes: bytes M, buffer HEX

or `refused R` in place of the index or the bytes, and no bytes of a body. The buffer of N bytes is
shown whole, and had FILL everywhere before. Then a line a range,

    open NUMBER from FIRST, count COUNT, in N bytes: bytes M, buffer HEX

where the calls with buffers of one length have one buffer in turn. Then what checking answers of the
tagged sample, examples/tagged, and of the other under tag keys, and with bits changed, and the same
calls on the tagged sample. Then a line a call that seals the jobs of the samples,

    seal, CASE in N bytes: bytes M, buffer HEX

or `refused R`. The buffer is shown whole again, and no call before has altered it. The archives are
the samples, and in the last lines, which are about the sheet's key length and the key file's, one
under a key of 32 bytes. Then a line a search of bare contents, in which FILL stands for what a search
does not look at,

    search 'NUMBER' in 'CONTENTS': index I

or `refused R`. Then a line an engine, `ENGINE, RFC 5794 A.1: HEX`: the appendix's block, encrypted.

Then tags of the sample archive and of its front,

    cmac, N bytes: R, tag HEX

R the refusal's number or 0, and a comparison a line, `verify, CASE: R`, 0 for yes and 25 for no.
"""

import os
import sys

sys.path.insert(0, os.path.join(os.path.dirname(os.path.abspath(__file__)), "..", "model"))

import archive  # noqa: E402
import cmac  # noqa: E402
import libcrypto  # noqa: E402
import stored  # noqa: E402

KEY = bytes(range(16))
LONG_KEY = bytes(range(32))
NO_TAG_KEY = b""
FILL = b"."
BLOCK = bytes(0x11 * i for i in range(16))
SHEET = bytes([16, 0, 0, 0, 7]) + b"24000017" + bytes([0, 0, 0, 5]) + b"24000018" + bytes(4)
PLAIN = b"dried"
ROOM = 60


# The number asked for, the numbers of the contents, and how many bytes are cut off their end.
SEARCHES = [
    (b"24000016", [b"24000017", b"24000020"], 0),
    (b"24000018", [b"24000017", b"24000020"], 0),
    (b"24000021", [b"24000017", b"24000020"], 0),
    (b"24000017", [b"24000017", b"24000020", b"24000018"], 0),
    (b"24000018", [b"24000017", b"24000020", b"24000018"], 0),
    (b"24000020", [b"24000017", b"24000020", b"24000018"], 0),
    (b"24000017", [b"24000018", b"24000017", b"24000018"], 0),
    (b"24000018", [b"24000018", b"24000017", b"24000018"], 0),
    (b"24000020", [b"24000018", b"24000017", b"24000020"], 0),
    (b"24000018", [b"24000017", b"24000018"], 1),
    (b"24000017", [], 0),
    (b"", [], 0),
    (b"", [b"00000000"], 0),
    (b"2400001", [b"24000010"], 0),
    (b"240000170", [b"24000017"], 0),
    (b"24000010", [b"2400001/", b"24000010"], 0),
    (b"24000020", [b"2400001;", b"24000020"], 0),
    (b"2400001/", [b"24000010", b"2400001/"], 0),
    (b"97000004", [b"97000004", b"05000001"], 0),
    (b"05000001", [b"97000004", b"05000001"], 0),
    (b"70000000", [b"97000004", b"05000001"], 0),
    (b"69999999", [b"97000004", b"05000001"], 0),
    (b"97000004", [b"05000001", b"97000004"], 0),
    (b"05000001", [b"05000001", b"97000004"], 0),
    (b"24000017", [b":4000000", b"24000017"], 0),
    (b"24000017", [b"/9000000", b"24000017"], 0),
]


# The number asked for, the first byte, the count, and the buffer's length.
RANGES = [
    (b"24000017", 5, 1, 8),
    (b"24000017", 2**64 - 1, 1, 8),
    (b"24000017", 1, 2**64 - 1, 8),
    (b"24000019", 9, 9, 8),
    (b"24000017", 1, 3, 8),
    (b"24000017", 5, 0, 8),
    (b"24000017", 1, 3, 2),
    (b"24000017", 1, 5, 2),
    (b"24000017", 3, 2, 2),
]


def header(layout, count, length):
    front = bytes([layout, len(KEY)]) + count.to_bytes(2, "big") + (7).to_bytes(4, "big")
    return front + archive.key_check(KEY) + length.to_bytes(4, "big")


def empty_jobs(count):
    end = archive.PLATE + archive.ENTRY * count
    place = end.to_bytes(4, "big") + bytes(4)
    return header(1, count, end) + b"".join(b"%08d" % (24000000 + i) + place for i in range(count))


def cases():
    yield "19 bytes", header(1, 0, 19)[:19]
    yield "20 bytes with layout 2", header(2, 0, 20)
    yield "65537 bytes", header(1, 0, 65537) + bytes(65537 - archive.PLATE)
    yield "count 64", empty_jobs(64)
    yield "count 65", empty_jobs(65)


def answer(file, tag_key=NO_TAG_KEY):
    try:
        return "jobs %d" % archive.check(KEY, tag_key, file)
    except archive.Refused as refused:
        return "refused %d" % refused.number


def example(name):
    with open(os.path.join(stored.TOP, "examples", name), "rb") as file:
        return file.read()


def sample():
    return example("sample/archive.bin")


def bit_changed(file, at):
    return file[:at] + bytes([file[at] ^ 1]) + file[at + 1 :]


def tagged_cases():
    file, tag_key = example("tagged/archive.bin"), example("tagged/tag.bin")
    yield "tagged, no tag key", answer(file)
    yield "tagged, 33 bytes of tag key", answer(file, tag_key + b"\x30")
    yield "tagged, 31 bytes of tag key", answer(file, tag_key[:31])
    yield "tagged, under the key", answer(file, KEY)
    yield "tagged", answer(file, tag_key)
    yield "layout 1 under a tag key", answer(sample(), tag_key)
    yield "tagged, its last bit changed", answer(bit_changed(file, 72), tag_key)
    yield "tagged, a bit of the body changed", answer(bit_changed(file, 56), tag_key)
    yield "tagged, a bit of the archive number changed", answer(bit_changed(file, 7), tag_key)


def directory(tag_key, file):
    return file[archive.PLATE :][: archive.ENTRY * archive.check(KEY, tag_key, file)]


def place(call, *arguments):
    try:
        return "index %d" % call(*arguments)
    except archive.Refused as refused:
        return "refused %d" % refused.number


def body(tag_key, file, number):
    try:
        entry = archive.entry_at(file, archive.find(KEY, tag_key, file, number))
    except archive.Refused:
        return b""
    return file[entry.start :][: entry.length]


def opened(tag_key, file, number, buffer, bounds=()):
    """What opening answers and leaves, as it is printed, and the buffer then."""
    refusal, count, left = archive.opened_into(KEY, tag_key, file, number, bounds, buffer)
    answer = "refused %d" % refusal if refusal else "bytes %d" % count
    return "%s, buffer %s" % (answer, left.hex()), left


def calls(tag_key, file):
    # the second job, whose index is not 0, and one that is not there
    for number in (b"24000018", b"24000019"):
        yield "find %s" % number.decode(), place(archive.find, KEY, tag_key, file, number)
    yield "directory", directory(tag_key, file).hex()
    for number in (b"24000017", b"24000019"):
        yield "body of %s" % number.decode(), "'%s'" % body(tag_key, file, number).hex()
    # one that is not there; three bytes more than the body, then one fewer
    for number, room in ((b"24000019", 8), (b"24000017", 8), (b"24000017", 4)):
        yield "open %s in %d bytes" % (number.decode(), room), opened(tag_key, file, number, FILL * room)[0]


def ranges(tag_key, file):
    """Ranges about the ends of the job of five bytes and of the buffers, which a later call finds as an earlier one left them."""
    buffers = {8: FILL * 8, 2: FILL * 2}
    for number, first, count, room in RANGES:
        given, buffers[room] = opened(tag_key, file, number, buffers[room], (first, count))
        yield "open %s from %d, count %d, in %d bytes" % (number.decode(), first, count, room), given


def sheet_with(at, new):
    return SHEET[:at] + new + SHEET[at + len(new) :]


def refused_seals(tag_key):
    """The case, the key file, the tag key, the sheet and the plain bytes of calls that are refused whatever the buffer."""
    yield "28 bytes of sheet", KEY, NO_TAG_KEY, SHEET[:-1], PLAIN
    yield "key length 17", KEY, NO_TAG_KEY, sheet_with(0, bytes([17])), PLAIN
    # the sample's 57 bytes and those of the second job
    yield "65537 bytes of archive", KEY, NO_TAG_KEY, sheet_with(25, (65537 - 57).to_bytes(4, "big")), PLAIN
    yield "15 bytes of key file", KEY[:-1], NO_TAG_KEY, SHEET, PLAIN
    yield "33 bytes of tag key", KEY, tag_key + b"\x30", SHEET, PLAIN
    yield "65 lines", KEY, NO_TAG_KEY, SHEET[:5] + b"0" * 12 * 65, PLAIN
    yield "64 lines of one number", KEY, NO_TAG_KEY, SHEET[:5] + b"0" * 12 * 64, PLAIN
    yield "number 2400001/", KEY, NO_TAG_KEY, sheet_with(12, b"/"), PLAIN
    yield "24000019 before 24000018", KEY, NO_TAG_KEY, sheet_with(12, b"9"), PLAIN
    yield "4 plain bytes", KEY, NO_TAG_KEY, SHEET, PLAIN[:-1]
    yield "6 plain bytes", KEY, NO_TAG_KEY, SHEET, PLAIN + FILL


def sealed(case, key_file, tag_key, sheet, plain, room):
    """The call as it is printed, what it answers and leaves of a buffer of FILL, and the archive; of a refusal none."""
    call = "seal, %s in %d bytes" % (case, room)
    try:
        file = archive.seal(key_file, tag_key, sheet, plain, room)
    except archive.Refused as refused:
        return call, "refused %d, buffer %s" % (refused.number, (FILL * room).hex()), b""
    return call, "bytes %d, buffer %s" % (len(file), file.ljust(room, FILL).hex()), file


def seals():
    tag_key = example("tagged/tag.bin")
    for arguments in refused_seals(tag_key):
        call, given, file = sealed(*arguments, ROOM)
        assert not file
        yield call, given
    made = []
    for case, tag, short, room in (("sample", NO_TAG_KEY, 56, ROOM), ("tagged sample", tag_key, 72, 74)):
        for length in (short, room):
            call, given, file = sealed("the " + case, KEY, tag, SHEET, PLAIN, length)
            made.append(file)
            yield call, given
    assert made == [b"", sample(), b"", example("tagged/archive.bin")]


def key_lengths():
    """Key length 0 means 32: key files that are too short for it, and files that have more bytes than the key."""
    made = []
    for length, size in ((0, 16), (0, 24), (0, 31), (0, 33), (32, 33), (16, 33)):
        case = "key length %d, key file of %d" % (length, size)
        call, given, file = sealed(case, (LONG_KEY + FILL)[:size], NO_TAG_KEY, sheet_with(0, bytes([length])), PLAIN, ROOM)
        made.append(file)
        yield call, given
    long = made[4]
    assert long[1] == len(LONG_KEY) and archive.plain_of(LONG_KEY, NO_TAG_KEY, long) == PLAIN
    assert made == [b"", b"", b"", long, long, sample()]


def searches():
    for number, numbers, cut in SEARCHES:
        entries = b"".join(digits.ljust(archive.ENTRY, FILL) for digits in numbers)
        contents = entries[: len(entries) - cut]
        yield "search '%s' in '%s'" % (number.decode(), contents.decode()), place(archive.search, contents, number)


def tags(file):
    def tagged(message):
        made = cmac.tag(KEY, message)
        assert made == libcrypto.cmac(KEY, message)
        return "0, tag %s" % made.hex()

    for length in (0, 15, 16, 32, 57):
        yield "cmac, %d bytes" % length, tagged(file[:length])
    yield "cmac under a schedule", tagged(file)
    # a refusal has zero bytes beside it
    yield "cmac under 13 rounds", "3, tag %s" % bytes(cmac.BLOCK).hex()
    yield "cmac under 15 bytes of key", "1, tag %s" % bytes(cmac.BLOCK).hex()


def verdicts(file):
    tag = cmac.tag(KEY, file)
    other = tag[:-1] + bytes([tag[-1] ^ 1])
    short = tag[:-1]
    under = "verify under a schedule"
    yield "verify, the tag", cmac.verdict(KEY, file, tag)
    yield "verify, its last bit changed", cmac.verdict(KEY, file, other)
    yield "verify, 15 bytes of it", cmac.verdict(KEY, file, short)
    yield "verify, 15 bytes of key and tag", cmac.verdict(KEY[:15], file, short)
    yield under + ", the tag", cmac.verdict(KEY, file, tag)
    yield under + ", its last bit changed", cmac.verdict(KEY, file, other)
    yield under + ", 15 bytes of it", cmac.verdict(KEY, file, short)
    # a bad round count comes before the tag's length, as a bad key does
    yield "verify under 13 rounds, 15 bytes of it", 3


if __name__ == "__main__":
    for case, file in cases():
        print("%s: %s" % (case, answer(file)))
    for call, given in (*calls(NO_TAG_KEY, sample()), *ranges(NO_TAG_KEY, sample()), *tagged_cases()):
        print("%s: %s" % (call, given))
    tagged = example("tagged/tag.bin"), example("tagged/archive.bin")
    for call, given in (*calls(*tagged), *ranges(*tagged), *seals(), *key_lengths()):
        print("%s: %s" % (call, given))
    for call, given in searches():
        print("%s: %s" % (call, given))
    for engine in ("plain", "tables"):
        print("%s, RFC 5794 A.1: %s" % (engine, libcrypto.forward(KEY, BLOCK).hex()))
    for call, given in tags(sample()):
        print("%s: %s" % (call, given))
    for call, given in verdicts(sample()):
        print("%s: %d" % (call, given))
