"""Holds the sealing of archives to the model, call by call.

    python3 tests/model/sealing.py [target/staticlib/libbenchlib.a]

The calls are those of library.py. Of each the number is compared, and every byte of the buffer: the archive at its front, what it held
behind that, and all that it held where sealing is refused. Buffers are of the archive's length, of a byte less, longer, and of no bytes.
Each archive of the model that is accepted and not random is sealed again from its own jobs. What was sealed is checked and opened, job
by job. The length that sealing answers these calls do not tell; the program `seal` shows it. The last line is `archive sealing: N calls
agree`, or the first call that differs, and then the exit status is 1.
"""

import sys

import archive
import cases
import sheets
from library import FILL, compare, loaded

RANDOM_SHEETS = 600
# Buffers for what is refused, whatever their length is.
ANY_ROOMS = (0, 57, archive.LONGEST_FILE)


def rooms(length):
    """Lengths of buffers for an archive of this length."""
    return sorted({0, 1, 16, 20, length // 2, length - 16, length - 1, length, length + 1, length + 40, archive.LONGEST_FILE + 40})


def sealings():
    """Each call: the case, and the buffer's length."""
    for case in [*sheets.made(), *sheets.changes(), *sheets.random_sheets(0, RANDOM_SHEETS)]:
        try:
            length = len(archive.seal(*case.lent()))
        except archive.Refused:
            yield from ((case, room) for room in ANY_ROOMS)
        else:
            yield from ((case, room) for room in rooms(length))
    # every length of a buffer, before 20 and past it
    for tag_key in (None, cases.TAG_KEY):
        for sheet in (sheets.Sheet([], tag_key), sheets.sample(tag_key), sheets.Sheet(tag_key=tag_key, key_length=24)):
            case = sheet.case("%d jobs, buffers of every length" % len(sheet.lines), 0)
            yield from ((case, room) for room in range(160))


def rebuilt():
    return sheets.rebuilt([*cases.made(), *cases.changes()])


def opened(library, case):
    """Checks and opens what was sealed: the archive's jobs and plain bytes are those that were handed over."""
    key_file, tag_key, sheet, plain = case.lent()
    file = archive.seal(key_file, tag_key, sheet, plain)
    whole = cases.Case(case.name, key_file[: sheets.KEY_LENGTHS[sheet[0]]], file, 0, tag_key)
    compare("the check of %s" % case.name, (library.checked(whole), b""), (0, b""))
    at = 0
    for line in archive.lines_of(sheet):
        given = library.opened(whole, line.digits, (), line.length + 3)
        compare("job %s of %s" % (line.digits.decode(), case.name), given, (0, plain[at : at + line.length] + 3 * FILL))
        at += line.length


def main():
    met = set()
    with loaded() as library:
        for case, room in sealings():
            wanted = archive.sealed_into(*case.lent(), FILL * room)
            compare("%s, %d bytes of room" % (case.name, room), library.sealed(case, room), wanted)
            met.add(wanted[0])
        for case in sheets.made():
            if case.refusal == 0:
                opened(library, case)
        for case, file in rebuilt():
            compare(case.name, library.sealed(case, len(file) + 5), (0, file + 5 * FILL))
    if met != {0, 1, 6, 9, 13, 14, 16, 17, 20, 21, 22}:
        sys.exit("archive sealing: of the refusals only %s were met" % sorted(met))
    print("archive sealing: %d calls agree" % library.calls)


if __name__ == "__main__":
    main()
