"""The model held to the readings of documents 01 and 02, to published vectors and to what each case was made for.

    python3 tests/model/selftest.py
"""

import os
import random
import unittest

import archive
import cases
import cmac
import libcrypto
import lists
import sheets
import stored
from records import records


def outcome(call, *arguments):
    """What a call answers, or its refusal."""
    try:
        return "gives", call(*arguments)
    except archive.Refused as refused:
        return "refused", refused.number


def refusal(call, *arguments):
    kind, value = outcome(call, *arguments)
    return value if kind == "refused" else 0


def plain_refusal(case):
    """The refusal where case 14 goes by the plain number, as in document 01 alone."""
    place, archive.place = archive.place, lambda number: int(number)
    try:
        return refusal(archive.check, *case.lent())
    finally:
        archive.place = place


def accepted():
    """The archives that are to be accepted, and their job numbers."""
    for case in cases.made():
        if case.refusal == 0:
            yield case, lists.there_in(case.file)


def read(path):
    with open(os.path.join(stored.TOP, path), "rb") as file:
        return file.read()


class Cipher(unittest.TestCase):
    def test_published_vectors(self):
        seen = 0
        for record in records(os.path.join(stored.TOP, "tests/data/aria-ecb.txt")):
            key, plain, sealed = (bytes.fromhex(record[name]) for name in ("key", "in", "out"))
            self.assertEqual(libcrypto.forward(key, plain), sealed, record["origin"])
            self.assertEqual(libcrypto.back(key, sealed), plain, record["origin"])
            seen += 1
        self.assertEqual(seen, 6)


class Readings(unittest.TestCase):
    """Document 01, plate readings and the program `jobs`."""

    def test_counter_block(self):
        block = archive.counter_block(7, b"24000017", 0)
        self.assertEqual(block.hex(), "00000007323430303030313700000000")

    def test_sizes(self):
        key = cases.KEYS[16]
        self.assertEqual(refusal(archive.check, key, b"", bytes([2] * 19)), 5)
        self.assertEqual(refusal(archive.check, key, b"", bytes([3] * 20)), 7)
        self.assertEqual(refusal(archive.check, key, b"", bytes([2] * 20)), 24)  # 7 before document 02, d
        self.assertEqual(refusal(archive.check, key, b"", bytes(65537)), 6)
        for count, number in ((64, 0), (65, 9)):
            file = cases.Draft(key, 7, cases.numbered([0] * count)).file()
            self.assertEqual(refusal(archive.check, key, b"", file), number)

    def test_jobs_text(self):
        sample = cases.sample()
        text = b"jobs 2\n24000017 52 5\n24000018 57 0\n"
        self.assertEqual(archive.jobs_text(sample.key, b"", sample.file()), text)
        self.assertEqual(archive.jobs_text(sample.key, b"", b""), b"refused 5\n")


class Years(unittest.TestCase):
    """Document 02, e."""

    def test_the_order(self):
        self.assertEqual(archive.place(b"97000004"), 1997000004)
        self.assertEqual(archive.place(b"05000001"), 2005000001)
        self.assertEqual([archive.place(digits) // 10**6 for digits in (b"70000000", b"99999999")], [1970, 1999])
        self.assertEqual([archive.place(digits) // 10**6 for digits in (b"00000000", b"69999999")], [2000, 2069])
        self.assertEqual(sorted(sorted(cases.IN_ORDER), key=archive.place), cases.IN_ORDER)

    def test_one_span_is_judged_as_before(self):
        """By the plain number; and a mixed archive in plain order, accepted so, gets 14."""
        judged = {"the same": 0, "mixed": 0}
        for case in cases.made():
            now = refusal(archive.check, *case.lent())
            before = plain_refusal(case)
            count = archive.number_at(case.file, 2, 2)
            numbers = [archive.entry_at(case.file, index).digits for index in range(count if count <= 64 else 0)]
            spans = {number >= b"70" for number in numbers if len(number) == 8 and archive.all_digits(number)}
            if len(spans) < 2:
                self.assertEqual(now, before, case.name)
                judged["the same"] += 1
            elif before == 0:
                self.assertEqual(now, 14, case.name)
                judged["mixed"] += 1
        self.assertGreater(judged["the same"], 1000)
        self.assertGreater(judged["mixed"], 10)


class Cases(unittest.TestCase):
    def test_each_case_has_the_answer_it_was_made_for(self):
        met = set()
        for case in cases.made():
            number = refusal(archive.check, *case.lent())
            self.assertEqual(number, case.refusal, case.name)
            met.add(number)
        self.assertEqual(met, {0, 1, 24, 25} | set(range(5, 18)))

    def test_names_are_distinct(self):
        names = [case.name for case in cases.made()]
        self.assertEqual(len(names), len(set(names)))


class Opening(unittest.TestCase):
    def test_plain_bytes_and_counter_mode(self):
        for key in cases.KEYS.values():
            jobs = cases.numbered([0, 1, 15, 16, 17, 100, 4096])
            file = cases.Draft(key, 0xFFFFFFFF, jobs).file()
            for index, (number, plain) in enumerate(jobs):
                self.assertEqual(archive.find(key, b"", file, number), index)
                self.assertEqual(archive.open_job(key, b"", file, number), plain)
                entry = archive.entry_at(file, index)
                body = file[entry.start : entry.start + entry.length]
                first = archive.counter_block(0xFFFFFFFF, number, 0)
                self.assertEqual(libcrypto.counter(key, first, body), plain)

    def test_refusals_and_their_order(self):
        sample = cases.sample()
        key, file = sample.key, sample.file()
        for number in (b"", b"2400001", b"240000170", b"2400001/", b":4000017"):
            self.assertEqual(refusal(archive.open_job, key, b"", file, number), 18)
            self.assertEqual(refusal(archive.open_job, key, b"", file[:-1], number), 10)
        self.assertEqual(refusal(archive.open_job, key, b"", file, b"24000016"), 19)
        self.assertEqual(refusal(archive.open_job, key, b"", file, b"24000016", 0), 19)
        self.assertEqual(refusal(archive.open_job, key, b"", file, b"24000017", 4), 20)
        self.assertEqual(refusal(archive.open_job, key, b"", file, b"24000017", 5), 0)
        self.assertEqual(refusal(archive.open_job, key, b"", file, b"24000018", 0), 0)


class Ranges(unittest.TestCase):
    """Document 02, f."""

    def test_a_range_is_that_part_of_counter_mode(self):
        """By libcrypto's counter mode from the block of the first byte on."""
        for key in cases.KEYS.values():
            file = cases.Draft(key, 0x01020304, cases.numbered([100])).file()
            entry = archive.entry_at(file, 0)
            body = file[entry.start :]
            for first in range(101):
                for count in range(101 - first):
                    block = archive.counter_block(0x01020304, entry.digits, first // 16)
                    skipped = first % 16
                    plain = libcrypto.counter(key, block, bytes(skipped) + body[first : first + count])[skipped:]
                    self.assertEqual(archive.open_range(key, b"", file, entry.digits, first, count), plain)

    def test_refusals_and_their_order(self):
        sample = cases.sample()
        key, file = sample.key, sample.file()
        for number, first, count, room, wanted in (
            (b"24000017", 0, 5, 5, 0),
            (b"24000017", 5, 0, 0, 0),
            (b"24000017", 2, 3, 3, 0),
            (b"24000017", 2, 3, 2, 20),
            (b"24000017", 0, 6, 9, 26),
            (b"24000017", 5, 1, 0, 26),
            (b"24000017", 6, 0, 0, 26),
            (b"24000017", 2**64 - 1, 1, 9, 26),
            (b"24000017", 1, 2**64 - 1, 9, 26),
            (b"24000018", 0, 0, 0, 0),
            (b"24000018", 0, 1, 9, 26),
            (b"24000019", 9, 9, 0, 19),
            (b"2400001", 9, 9, 0, 18),
        ):
            self.assertEqual(refusal(archive.open_range, key, b"", file, number, first, count, room), wanted)
            self.assertEqual(refusal(archive.open_range, key, b"", file[:-1], number, first, count, room), 10)


class Tagged(unittest.TestCase):
    """Document 02, d."""

    KEY, TAG_KEY = bytes(range(16)), bytes(range(0x10, 0x30))
    # worked by hand from the sample of layout 1: the layout, the whole length, and a tag behind it
    FRONT = bytes.fromhex(
        "02 10 0002 00000007 685c678e545d7b37 00000049"
        "3234303030303137 00000034 00000005"
        "3234303030303138 00000039 00000000"
        "71a8932aa6"
    )
    TAG = bytes.fromhex("1be9d398b9c7663e4ec34511c434e387")
    FILE = FRONT + TAG

    def with_bytes(self, at, part, length=None):
        """The archive with other bytes at a place, cut or filled up to a length if one is given, and tagged anew."""
        part = bytes.fromhex(part)
        front = self.FRONT[:at] + part + self.FRONT[at + len(part) :]
        front = front if length is None else front[: length - 16].ljust(length - 16, b"\0")
        return front + libcrypto.cmac(self.TAG_KEY, front)

    def test_a_small_archive(self):
        self.assertEqual(len(self.FILE), 73)
        self.assertEqual(libcrypto.cmac(self.TAG_KEY, self.FRONT), self.TAG)
        self.assertEqual(cmac.tag(self.TAG_KEY, self.FRONT), self.TAG)
        self.assertEqual(cases.sample(self.TAG_KEY).file(), self.FILE)
        plain = cases.sample().file()
        self.assertEqual(self.FRONT[1:16] + self.FRONT[20:], plain[1:16] + plain[20:])
        text = b"jobs 2\n24000017 52 5\n24000018 57 0\n"
        self.assertEqual(archive.jobs_text(self.KEY, self.TAG_KEY, self.FILE), text)
        self.assertEqual(archive.open_job(self.KEY, self.TAG_KEY, self.FILE, b"24000017"), b"dried")
        self.assertEqual(archive.open_range(self.KEY, self.TAG_KEY, self.FILE, b"24000017", 1, 3), b"rie")

    def test_each_refusal(self):
        right = (self.KEY, self.TAG_KEY)
        for (key, tag_key), file, wanted in (
            (right, self.FILE, 0),
            ((self.KEY[:15], self.TAG_KEY), self.FILE, 1),
            ((self.KEY, self.TAG_KEY[:31]), self.FILE, 1),
            ((self.KEY, self.TAG_KEY + b"\0"), b"", 1),
            (right, self.FILE[:19], 5),
            (right, self.FILE + bytes(65537 - 73), 6),
            (right, self.with_bytes(0, "03"), 7),
            ((self.KEY, b""), self.with_bytes(0, "03"), 7),
            ((self.KEY, b""), self.FILE, 24),
            (right, self.with_bytes(0, "01"), 24),
            (right, self.with_bytes(1, "18"), 8),
            (right, self.with_bytes(2, "0041"), 9),
            (right, self.with_bytes(16, "00000039"), 10),
            (right, self.with_bytes(16, "00000043", 67), 11),
            (right, self.with_bytes(16, "00000044", 68), 16),
            (right, self.with_bytes(2, "0003"), 11),
            (right, self.with_bytes(15, "38"), 12),
            (right, self.with_bytes(20, "2f"), 13),
            (right, self.with_bytes(43, "37"), 14),
            (right, self.with_bytes(31, "35"), 15),
            (right, self.with_bytes(48, "00000001"), 16),
            (right, self.with_bytes(48, "00000010"), 16),
            (right, self.with_bytes(16, "0000004a", 74), 17),
            (right, self.FRONT + self.TAG[:15] + b"\x86", 25),
            ((self.KEY, self.TAG_KEY[:16]), self.FILE, 25),
            (right, self.FRONT + libcrypto.cmac(self.KEY, self.FRONT), 25),
        ):
            self.assertEqual(refusal(archive.check, key, tag_key, file), wanted, (wanted, file.hex()))
            # and before all that opening tells
            for number, first, count, room, told in (
                (b"24000017", 0, 5, 5, 0),
                (b"2400001", 9, 9, 0, 18),
                (b"24000016", 9, 9, 0, 19),
                (b"24000017", 5, 1, 0, 26),
                (b"24000017", 0, 5, 4, 20),
            ):
                number_told = refusal(archive.open_range, key, tag_key, file, number, first, count, room)
                self.assertEqual(number_told, wanted or told, (wanted, file.hex()))

    def test_an_archive_without_jobs(self):
        """36 bytes; with fewer, down to the plate's 20, tag and contents do not both fit."""
        file = cases.Draft(self.KEY, 7, [], self.TAG_KEY).file()
        self.assertEqual((len(file), archive.check(self.KEY, self.TAG_KEY, file)), (36, 0))
        for length in range(20, 36):
            short = cases.whole_length_set(file[:length])
            self.assertEqual(refusal(archive.check, self.KEY, self.TAG_KEY, short), 11, length)

    def test_every_change_is_refused(self):
        for case in cases.tagged_changes():
            self.assertNotEqual(refusal(archive.check, *case.lent()), 0, case.name)

    def test_both_layouts_open_to_the_same(self):
        for key in cases.KEYS.values():
            jobs = cases.numbered([0, 1, 15, 16, 17, 100])
            plain = cases.Draft(key, 7, jobs).file()
            for tag_key in cases.TAG_KEYS.values():
                tagged = cases.Draft(key, 7, jobs, tag_key).file()
                self.assertEqual(archive.jobs_text(key, tag_key, tagged), archive.jobs_text(key, b"", plain))
                for number, body in jobs:
                    self.assertEqual(archive.open_job(key, tag_key, tagged, number), body)


class Sealing(unittest.TestCase):
    """Document 02, a, what d says of writing, and j."""

    KEY, TAG_KEY = Tagged.KEY, Tagged.TAG_KEY
    # worked by hand: key length 16, archive number 7, and the two jobs of document 01's example
    SHEET = bytes.fromhex("10 00000007 3234303030303137 00000005 3234303030303138 00000000")
    # the archive of layout 1, of which the tagged one was worked
    FILE = b"\1" + Tagged.FRONT[1:16] + bytes([0, 0, 0, 57]) + Tagged.FRONT[20:]

    def test_a_small_archive(self):
        self.assertEqual(archive.seal(self.KEY, b"", self.SHEET, b"dried"), self.FILE)
        self.assertEqual(archive.seal(self.KEY, self.TAG_KEY, self.SHEET, b"dried"), Tagged.FILE)
        self.assertEqual(archive.seal_output(self.KEY, b"", self.SHEET, b"dried"), (self.FILE, b""))
        self.assertEqual(archive.seal_output(self.KEY, b"", b"", b"dried"), (b"refused 21\n", b""))
        for file, tag_key in ((self.FILE, b""), (Tagged.FILE, self.TAG_KEY)):
            self.assertEqual(archive.sheet_of(file), self.SHEET)
            self.assertEqual(archive.plain_of(self.KEY, tag_key, file), b"dried")

    def test_key_files(self):
        """0 means 32; the key is the front of the key file; the plate never says 0."""
        for first, length in ((0, 32), (16, 16), (24, 24), (32, 32)):
            sheet = bytes([first]) + self.SHEET[1:]
            wanted = cases.Draft(cases.KEYS[length], 7, [(b"24000017", b"dried"), (b"24000018", b"")]).file()
            for more in (0, 1, 8, 16, 48):
                self.assertEqual(archive.seal(bytes(range(length + more)), b"", sheet, b"dried"), wanted)
            self.assertEqual(wanted[1], length)
            self.assertEqual(refusal(archive.seal, bytes(length - 1), b"", sheet, b"dried"), 1)
        for length in (16, 24):
            self.assertEqual(refusal(archive.seal, bytes(length), b"", b"\0" + self.SHEET[1:], b"dried"), 1)

    def test_zero_means_32(self):
        """0 on any sheet, good or not, has the answer and the bytes of 32 in its place."""
        met = set()
        for case in [*sheets.made(), *sheets.changes(), *sheets.random_sheets(0, 200)]:
            key_file, tag_key, sheet, plain = case.lent()
            for file in (key_file, sheets.KEY_FILE[:31], sheets.KEY_FILE[:33]) if sheet else ():
                for room in (100, archive.LONGEST_FILE):
                    zero, full = (archive.sealed_into(file, tag_key, bytes([k]) + sheet[1:], plain, bytes(room)) for k in (0, 32))
                    self.assertEqual(zero, full, case.name)
                    met.add(zero[0])
        self.assertEqual(met, {0, 1, 6, 9, 13, 14, 16, 17, 20, 21})

    def test_each_refusal_before_those_behind_it(self):
        """From good things, one fault more at a time, the last of the order first."""

        def lines(*jobs):
            return b"".join(number + length.to_bytes(4, "big") for number, length in jobs)

        right = [self.KEY, b"", self.SHEET, b"dried", 57]
        self.assertEqual(refusal(archive.seal, *right), 0)
        first, second = (b"24000017", 5), (b"24000018", 0)
        many = [(b"%08d" % (24000019 + i), 0) for i in range(63)]
        for wanted, at, value in (
            (20, 4, 56),
            (17, 3, b"dried."),
            (16, 3, b"drie"),
            (6, 2, self.SHEET[:5] + lines(first, (b"24000018", 65480))),
            (6, 2, self.SHEET[:5] + lines((b"24000017", 2**32 - 1), (b"24000018", 5))),
            (14, 2, self.SHEET[:5] + lines(first, (b"24000017", 65480))),
            (14, 2, self.SHEET[:5] + lines((b"00000000", 5), (b"99999999", 65480))),
            (14, 2, self.SHEET[:5] + lines(first, (b"24000017", 65480), (b"2400001x", 0))),
            (13, 2, self.SHEET[:5] + lines(first, (b"2400001/", 65480))),
            (13, 2, self.SHEET[:5] + lines((b":4000017", 5), (b"24000017", 65480), (b"24000017", 0))),
            (9, 2, self.SHEET[:5] + lines((b":4000017", 5), second, *many)),
            (1, 1, bytes(17)),
            (1, 0, self.KEY[:15]),
            (22, 2, b"\1" + self.SHEET[1:5] + lines((b":4000017", 5), second, *many)),
            (21, 2, b"\1" + self.SHEET[1:5] + lines((b":4000017", 5), second, *many) + b"0"),
        ):
            right[at] = value
            self.assertEqual(refusal(archive.seal, *right), wanted, (wanted, value))

    def test_each_case_has_the_answer_it_was_made_for(self):
        met = set()
        for case in sheets.made():
            self.assertEqual(refusal(archive.seal, *case.lent()), case.refusal, case.name)
            met.add(case.refusal)
        self.assertEqual(met, {0, 1, 6, 9, 13, 14, 16, 17, 21, 22})

    def test_names_are_distinct(self):
        names = [case.name for case in sheets.made()]
        self.assertEqual(len(names), len(set(names)))

    def test_archives_come_out_again(self):
        """The archives of cases.py are made by parts; each good one is what sealing makes of its own jobs."""
        seen = {1: 0, 2: 0}
        for case, file in sheets.rebuilt(cases.made()):
            self.assertEqual(archive.seal(*case.lent()), file, case.name)
            seen[file[0]] += 1
        self.assertGreater(min(seen.values()), 100)

    def test_what_is_sealed_opens(self):
        for case in sheets.made():
            if case.refusal == 0:
                key_file, tag_key, sheet, plain = case.lent()
                key = key_file[: sheets.KEY_LENGTHS[sheet[0]]]
                file = archive.seal(*case.lent())
                self.assertEqual(archive.check(key, tag_key, file), len(archive.lines_of(sheet)), case.name)
                self.assertEqual(archive.sheet_of(file)[1:], sheet[1:], case.name)
                self.assertEqual(archive.plain_of(key, tag_key, file), plain, case.name)

    def test_buffers(self):
        for room in range(100):
            wanted = (20, bytes(room)) if room < 57 else (0, self.FILE + bytes(room - 57))
            self.assertEqual(archive.sealed_into(self.KEY, b"", self.SHEET, b"dried", bytes(room)), wanted)
            self.assertEqual(archive.sealed_into(self.KEY, b"", self.SHEET, b"dried.", bytes(room)), (17, bytes(room)))


class Dropping(unittest.TestCase):
    """Document 02, g."""

    KEY, TAG_KEY = Tagged.KEY, Tagged.TAG_KEY
    FILE = Sealing.FILE
    # worked by hand: what each list leaves of the archive of layout 1, from the plate's count of jobs on
    LEFT = {
        b"24000017": "0001 00000007685c678e545d7b37 00000024  3234303030303138 00000024 00000000",
        b"24000018": "0001 00000007685c678e545d7b37 00000029  3234303030303137 00000024 00000005  71a8932aa6",
        b"2400001724000018": "0000 00000007685c678e545d7b37 00000014",
    }

    def test_a_small_archive(self):
        for listed, left in self.LEFT.items():
            plain = b"\1\x10" + bytes.fromhex(left)
            self.assertEqual(archive.drop(self.KEY, b"", self.FILE, listed), plain)
            front = b"\2" + plain[1:19] + bytes([plain[19] + 16]) + plain[20:]
            tagged = front + libcrypto.cmac(self.TAG_KEY, front)
            self.assertEqual(archive.drop(self.KEY, self.TAG_KEY, Tagged.FILE, listed), tagged)
            self.assertEqual(archive.drop_output(self.KEY, self.TAG_KEY, Tagged.FILE, listed[:8], listed[-8:]), (tagged, b""))
        self.assertEqual(archive.drop(self.KEY, b"", self.FILE, b"24000018" + b"24000017" * 2), plain)

    def test_nothing_dropped_is_the_same_archive(self):
        seen = {1: 0, 2: 0}
        for case, _ in accepted():
            self.assertEqual(archive.drop(*case.lent(), b""), case.file, case.name)
            seen[case.file[0]] += 1
        self.assertGreater(min(seen.values()), 100)

    def test_it_is_the_sheet_without_them_sealed(self):
        """Byte for byte, in whatever order and however often they are listed."""
        for turn, (case, there) in enumerate(accepted()):
            key, tag_key, file = case.lent()
            sheet, good = archive.sheet_of(file), list(lists.good(there))
            lines = [sheet[at : at + archive.LINE] for at in range(archive.SHEET, len(sheet), archive.LINE)]
            for made in good[turn % 4 :: 4] if len(file) < 10000 else good[turn % len(good) :][:1]:
                left = [line for line in lines if line[:8] not in lists.numbers_in(made.listed)]
                plain = b"".join(archive.plain_bytes(key, tag_key, file, line[:8]) for line in left)
                sealed = archive.seal(key, tag_key, sheet[: archive.SHEET] + b"".join(left), plain)
                self.assertEqual(archive.drop(key, tag_key, file, made.listed), sealed, (case.name, made.name))

    def test_each_list_has_the_answer_it_was_made_for(self):
        met = set()
        for tag_key in (None, cases.TAG_KEY):
            for case in lists.archives(tag_key):
                there = lists.there_in(case.file)
                for made in lists.made(there):
                    self.assertEqual(refusal(archive.drop, *case.lent(), made.listed), made.refusal, (case.name, made.name))
                    met.add(made.refusal)
                names = [made.name for made in lists.made(there)]
                self.assertEqual(len(names), len(set(names)))
        self.assertEqual(met, {0, 18, 19, 27})

    def test_the_archive_s_own_refusal_comes_first(self):
        met = set()
        for case in cases.made():
            for made in lists.KINDS if case.refusal else ():
                self.assertEqual(refusal(archive.drop, *case.lent(), made.listed, 0), case.refusal, (case.name, made.name))
                met.add(case.refusal)
        self.assertEqual(met, {1, 24, 25} | set(range(5, 18)))

    def test_each_refusal_before_those_behind_it(self):
        """From good things, one fault more at a time, the last of the order first."""
        right = [self.KEY, self.TAG_KEY, Tagged.FILE, b"24000018", 57]
        self.assertEqual(refusal(archive.drop, *right), 0)
        for wanted, at, value in (
            (20, 4, 56),
            (19, 3, b"24000018" + b"24000019"),
            (19, 3, b"24000018" + b"24000019" + b"2400001/"),
            (18, 3, b"24000018" + b"2400001/" + b"24000019"),
            (18, 3, bytes(8) + b"24000019" + b"2400001/"),
            (27, 3, bytes(8) + b"24000019" + b"2400001/" + b"2"),
            (27, 3, b"24000019" + b"2400001"),
            (25, 2, Tagged.FRONT + bytes(16)),
            (24, 1, b""),
            (1, 0, self.KEY[:15]),
        ):
            right[at] = value
            self.assertEqual(refusal(archive.drop, *right), wanted, (wanted, value))

    def test_dropping_again(self):
        """What is gone is not there; and jobs that were listed one after the other are gone as if by one list."""
        for case, there in accepted():
            if 0 < len(there) < 10 and len(case.file) < 10000:
                key, tag_key, file = case.lent()
                without = archive.drop(key, tag_key, file, there[0])
                self.assertEqual(refusal(archive.drop, key, tag_key, without, there[0]), 19, case.name)
                self.assertEqual(refusal(archive.drop, key, tag_key, without, there[-1] + there[0]), 19, case.name)
                if len(there) > 1:
                    both = archive.drop(key, tag_key, file, there[-1] + there[0])
                    self.assertEqual(archive.drop(key, tag_key, without, there[-1]), both, case.name)

    def test_words(self):
        """A word of eight bytes is a number or none; of any other length it is none, and never two numbers."""
        words = [b"24000017", b"2400001", b"abcdefgh", b"240000170", b""]
        self.assertEqual(archive.list_of(words), b"24000017" + bytes(8) + b"abcdefgh" + bytes(16))
        for number, words in (
            (18, [b"2400001724000018"]),
            (18, [b"2400001", b"724000018"]),
            (18, [b"24000017", b""]),
            (19, [b"24000019", b""]),
            (18, [b"2" * 5000, b"24000019"]),
        ):
            self.assertEqual(archive.drop_output(self.KEY, b"", self.FILE, *words), (b"", b"refused %d\n" % number))
            self.assertEqual(archive.drop_output(self.KEY, b"", b"", *words), (b"", b"refused 5\n"))

    def test_buffers(self):
        """The new archive is measured, not the old one."""
        for listed, length in ((b"", 57), (b"24000017", 36), (b"24000018", 41), (b"2400001724000018", 20)):
            for room in range(100):
                file = archive.drop(self.KEY, b"", self.FILE, listed)
                wanted = (20, bytes(room)) if room < length else (0, file + bytes(room - length))
                self.assertEqual(archive.dropped_into(self.KEY, b"", self.FILE, listed, bytes(room)), wanted)
                self.assertEqual(archive.dropped_into(self.KEY, b"", self.FILE, listed + b"2", bytes(room)), (27, bytes(room)))


class Previewing(unittest.TestCase):
    """Document 02, h."""

    KEY, TAG_KEY, FILE = Dropping.KEY, Dropping.TAG_KEY, Dropping.FILE

    def test_a_small_archive(self):
        """By what was worked by hand of dropping: count, archive number and key check, whole length, contents."""
        for listed, left in Dropping.LEFT.items():
            left = bytes.fromhex(left)
            count, length = left[1], left[17]
            contents = left[18 : 18 + 16 * count]
            self.assertEqual(archive.preview(self.KEY, b"", self.FILE, listed), (count, length, contents))
            self.assertEqual(archive.preview(self.KEY, self.TAG_KEY, Tagged.FILE, listed), (count, length + 16, contents))
        self.assertEqual(archive.preview(self.KEY, b"", self.FILE, b""), (2, 57, self.FILE[20:52]))

    def test_it_is_dropping_and_reading(self):
        """The count and the whole length are the new plate's, and the contents the new archive's."""
        seen = 0
        for turn, (case, there) in enumerate(accepted()):
            for made in list(lists.good(there))[turn % 4 :: 4]:
                file = archive.drop(*case.lent(), made.listed)
                count = archive.check(*case.lent()[:2], file)
                wanted = (count, len(file), file[archive.PLATE :][: archive.ENTRY * count])
                self.assertEqual(archive.preview(*case.lent(), made.listed), wanted, (case.name, made.name))
                seen += 1
        self.assertGreater(seen, 1000)

    def test_every_refusal_of_dropping(self):
        """Into a buffer of no bytes, too: 20 comes last, and not where no job is left."""
        met = set()
        refused = [(case, lists.KINDS) for case in cases.made() if case.refusal]
        good = [(case, lists.made(lists.there_in(case.file))) for tag_key in (None, cases.TAG_KEY) for case in lists.archives(tag_key)]
        for case, chosen in refused + good:
            for made in chosen:
                wanted = refusal(archive.drop, *case.lent(), made.listed)
                if wanted == 0 and archive.preview(*case.lent(), made.listed)[0] > 0:
                    wanted = 20
                self.assertEqual(refusal(archive.preview, *case.lent(), made.listed, 0), wanted, (case.name, made.name))
                met.add(wanted)
        self.assertEqual(met, {0, 1} | set(range(5, 21)) | {24, 25, 27})

    def test_buffers(self):
        """The contents are measured, not the archive."""
        for listed, count, length in ((b"", 2, 57), (b"24000017", 1, 36), (b"24000018", 1, 41), (b"2400001724000018", 0, 20)):
            contents = archive.drop(self.KEY, b"", self.FILE, listed)[20 : 20 + 16 * count]
            for room in range(100):
                wanted = ((20, 0, 0), bytes(room))
                if room >= 16 * count:
                    wanted = ((0, count, length), contents + bytes(room - 16 * count))
                self.assertEqual(archive.previewed_into(self.KEY, b"", self.FILE, listed, bytes(room)), wanted)
                bad = archive.previewed_into(self.KEY, b"", self.FILE, listed + b"2", bytes(room))
                self.assertEqual(bad, ((27, 0, 0), bytes(room)))

    def test_words(self):
        """`--preview` is the first word or no number."""
        for numbers, text in (
            ([b"24000017"], b"jobs 1\n24000018 36 0\n"),
            ([b"24000018"], b"jobs 1\n24000017 36 5\n"),
            ([b"24000018", b"24000017", b"24000018"], b"jobs 0\n"),
        ):
            for lent in ((self.KEY, b"", self.FILE), (self.KEY, self.TAG_KEY, Tagged.FILE)):
                self.assertEqual(archive.drop_output(*lent, b"--preview", *numbers), (text, b""))
        for number, words in (
            (18, [b"24000017", b"--preview"]),
            (18, [b"--preview", b"--preview", b"24000017"]),
            (18, [b"--previews", b"24000017"]),
            (19, [b"--preview", b"24000019", b"--preview"]),
        ):
            self.assertEqual(archive.drop_output(self.KEY, b"", self.FILE, *words), (b"", b"refused %d\n" % number))
            self.assertEqual(archive.drop_output(self.KEY, b"", b"", *words), (b"", b"refused 5\n"))


class Searching(unittest.TestCase):
    def test_archives_are_searched_as_in_full(self):
        seen = 0
        for case in cases.made():
            # contents are the same in both layouts
            if case.refusal or case.tag_key:
                continue
            count = archive.check(*case.lent())
            contents = case.file[archive.PLATE :][: archive.ENTRY * count]
            there = [archive.entry_at(case.file, index).digits for index in range(count)]
            beside = [b"%08d" % ((int(digits) + step) % 10**8) for digits in there for step in (-1, 1)]
            for number in [b"00000000", b"99999999"] + there + beside:
                in_full = outcome(archive.find, *case.lent(), number)
                self.assertEqual(outcome(archive.search, contents, number), in_full, case.name)
                seen += 1
        self.assertGreater(seen, 100)

    def test_what_stands_after_an_entry_above_does_not_matter(self):
        chosen = random.Random(0)
        for _ in range(1000):
            numbers = chosen.choices(cases.IN_ORDER, k=8)
            entries = [number + chosen.randbytes(8) for number in numbers]
            asked = chosen.choice(cases.IN_ORDER)
            place = cases.IN_ORDER.index
            above = next((i for i, number in enumerate(numbers) if place(number) > place(asked)), None)
            if above is None:
                continue
            front = b"".join(entries[: above + 1])
            for after in (b"", chosen.randbytes(7), b"".join(entries[above + 1 :]), chosen.randbytes(64)):
                self.assertEqual(
                    outcome(archive.search, front + after, asked),
                    outcome(archive.search, front, asked),
                )


# SP 800-38B, appendix D.1 to D.3: AES keys, and the tags of the first 0, 16, 40 and 64 bytes of one message.
MESSAGE = bytes.fromhex(
    "6bc1bee22e409f96e93d7e117393172aae2d8a571e03ac9c9eb76fac45af8e51"
    "30c81c46a35ce411e5fbc1191a0a52eff69f2445df4f9b17ad2b417be66c3710"
)
PUBLISHED = {
    "2b7e151628aed2a6abf7158809cf4f3c": {
        0: "bb1d6929e95937287fa37d129b756746",
        16: "070a16b46b4d4144f79bdd9dd04a287c",
        40: "dfa66747de9ae63030ca32611497c827",
        64: "51f0bebf7e3b9d92fc49741779363cfe",
    },
    "8e73b0f7da0e6452c810f32b809079e562f8ead2522c6b7b": {
        0: "d17ddf46adaacde531cac483de7a9367",
        16: "9e99a7bf31e710900662f65e617c5184",
        40: "8a1de5be2eb31aad089a82e6ee908b0e",
        64: "a1d5df0eed790f794d77589659f39a11",
    },
    "603deb1015ca71be2b73aef0857d77811f352c073b6108d72d9810a30914dff4": {
        0: "028962f61b7bf89efc6b551f4667d983",
        16: "28a7023f452e8f82bd4bf28d8c37c35c",
        40: "aaf3d8f1de5640c232f5b169b9c911e6",
        64: "e1992190549f6ed5696a2c056c315410",
    },
}


class Cmac(unittest.TestCase):
    def test_published_tags(self):
        for key, tags in PUBLISHED.items():
            for length, tag in tags.items():
                made = cmac.mac(lambda block: libcrypto.aes(bytes.fromhex(key), block), MESSAGE[:length])
                self.assertEqual(made.hex(), tag, (key, length))

    def test_tags_are_libcrypto_s(self):
        for size in (16, 24, 32):
            key = bytes(range(size))
            for length in [*range(101), 4095, 4096, 4097, 65536]:
                message = bytes(i * 7 % 256 for i in range(length))
                self.assertEqual(cmac.tag(key, message), libcrypto.cmac(key, message), (size, length))

    def test_verdicts(self):
        key, message = bytes(range(16)), b"a drying record"
        tag = cmac.tag(key, message)
        self.assertEqual(cmac.verdict(key, message, tag), 0)
        self.assertEqual(cmac.verdict(key, message, tag[:15] + bytes([tag[15] ^ 1])), 25)
        self.assertEqual(cmac.verdict(key, message, tag[:15]), 23)
        self.assertEqual(cmac.verdict(key[:15], message, tag[:15]), 1)


class Stored(unittest.TestCase):
    def test_stored_files(self):
        for path, data in stored.stored().items():
            self.assertEqual(read(path), data, path)

    def test_no_other_stored_case(self):
        kept = set(os.path.dirname(path) for path in stored.stored() if path.startswith("tests/jobs/"))
        folder = os.path.join(stored.TOP, "tests/jobs")
        found = {e.name for e in os.scandir(folder) if e.is_dir() and e.name != "__pycache__"}
        self.assertEqual({"tests/jobs/" + name for name in found}, kept)


if __name__ == "__main__":
    unittest.main()
