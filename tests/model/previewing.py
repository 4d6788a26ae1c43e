"""Holds the preview of a dropping to the model and to dropping itself, call by call.

    python3 tests/model/previewing.py [target/staticlib/libbenchlib.a]

The calls are those of library.py, on the archives and lists of dropping.py. Of each the refusal, the count and the whole length are
compared, and every byte of the buffer: the contents at its front, what it held behind them, and all that it held where the preview is
refused. Buffers are of the contents' length, of a byte less, of the old archive's length, longer, and of no bytes, which is enough where no
job is left. Beside each call its jobs are dropped into another buffer, long enough: what the plate and the contents there say, or the
refusal, is what the preview has to say. Some buffers are lent to both: dropping gets 20 where the preview has room. The last line is
`archive previewing: N calls agree`, or the first call that differs, and then the exit status is 1.
"""

import sys

import archive
import dropping
from library import FILL, compare, loaded


def contents_left(*lent):
    return archive.preview(*lent)[2]


def previews():
    return dropping.calls(contents_left)


def as_dropped(library, case, listed, room):
    """What the preview has to answer and to leave, by what dropping wrote."""
    number, file = library.dropped(case, listed, archive.LONGEST_FILE)
    count, length = archive.number_at(file, 2, 2), archive.number_at(file, 16, 4)
    contents = file[archive.PLATE :][: archive.ENTRY * count]
    if number == 0 and room < len(contents):
        number = 20
    if number:
        return (number, 0, 0), FILL * room
    return (0, count, length), contents + FILL * (room - len(contents))


def look_at(library, case, listed, what):
    """A buffer that the contents fill is too short for the archive. Of the new archive, with nothing to be dropped, the preview says what
    it said of the old one."""
    room = len(contents_left(*case.lent(), listed))
    said = library.previewed(case, listed, room)
    compare("%s, a buffer for the contents" % what, said, as_dropped(library, case, listed, room))
    compare("%s, dropped into a buffer for the contents" % what, library.dropped(case, listed, room), (20, FILL * room))
    _, file = library.dropped(case, listed, said[0][2])
    compare("%s, what is left" % what, library.previewed(case._replace(file=file), b"", room), said)


def main():
    met = set()
    with loaded() as library:
        for case, made, room in previews():
            what = "%s, list: %s, %d bytes of room" % (case.name, made.name, room)
            wanted = archive.previewed_into(*case.lent(), made.listed, FILL * room)
            given = library.previewed(case, made.listed, room)
            compare(what, given, wanted)
            compare("%s, beside dropping" % what, given, as_dropped(library, case, made.listed, room))
            met.add(wanted[0][0])
        for case, made in dropping.followed():
            look_at(library, case, made.listed, "%s, list: %s" % (case.name, made.name))
    if met != {0, 1} | set(range(5, 21)) | {24, 25, 27}:
        sys.exit("archive previewing: of the refusals only %s were met" % sorted(met))
    print("archive previewing: %d calls agree" % library.calls)


if __name__ == "__main__":
    main()
