"""Holds the programs `jobs`, `open`, `seal` and `drop` to what they say when reading or writing fails, at a terminal, and of their words.

    python3 tests/programs/run.py --jobs target/bin/jobs --open target/bin/open --seal target/bin/seal --drop target/bin/drop

Each case runs a program on a sample archive, of layout 1 unless its name says otherwise, or `seal` on the sheet and the plain bytes that
the sample is made of, in a folder of its own and compares standard output, standard error and the way it ended. Faults that a file cannot
be made to have come from faults.c, which stands before the C library's open, read and write. The last line is a count, or says how many
differ, and then the exit status is 1.
"""

import argparse
import contextlib
import errno
import os
import pty
import select
import shutil
import subprocess
import sys
import tempfile
from collections import namedtuple

HERE = os.path.dirname(os.path.abspath(__file__))
SAMPLE = os.path.join(HERE, "..", "..", "examples", "sample")
TAGGED = os.path.join(HERE, "..", "..", "examples", "tagged")
sys.path.insert(0, os.path.join(HERE, "..", "model"))

import archive  # noqa: E402
from program import Written, finished  # noqa: E402


def content(folder, name):
    with open(os.path.join(folder, name), "rb") as file:
        return file.read()


def dropped(folder, *words):
    """What `drop` writes of a sample and of words that are not refused, by the model."""
    tag_key = content(folder, "tag.bin") if folder == TAGGED else b""
    words = [word.encode() for word in words]
    return archive.drop_output(content(folder, "key.bin"), tag_key, content(folder, "archive.bin"), *words)[0]


# What a program reads from standard input: a file of the sample, places in it, how many bytes a good one may have, and the refusals of
# one of no bytes and of one that is too long.
Input = namedtuple("Input", "name places longest empty too_long")
# What a program says, by its name, and what it writes of the sample when nothing goes wrong.
Says = namedtuple("Says", "name words output could_not_read could_not_write usage input")

ARCHIVE = Input("archive.bin", (0, 19, 20, 52, 57), 65536, 5, 6)
PLAIN = Input("plain.bin", (0, 1, 2, 4, 5), 65500, 16, 17)

JOBS = Says(
    "jobs",
    (),
    b"jobs 2\n24000017 52 5\n24000018 57 0\n",
    b"jobs: could not read\n",
    b"jobs: could not write\n",
    b"usage: jobs < ARCHIVE\n"
    b"lists the archive's jobs, under the key in key.bin of this folder and the tag key in tag.bin, if there is one\n",
    ARCHIVE,
)
OPEN = Says(
    "open",
    ("24000017",),
    b"dried",
    b"open: could not read\n",
    b"open: could not write\n",
    b"usage: open NUMBER [FIRST COUNT] < ARCHIVE > PLAIN\n"
    b"opens that job, eight digits, or COUNT bytes of it from byte FIRST on, counted from 0, "
    b"under key.bin and, if there, tag.bin\n",
    ARCHIVE,
)
# The same program, asked for a range.
OPEN_RANGE = OPEN._replace(words=("24000017", "1", "3"), output=b"rie")
SEAL = Says(
    "seal",
    (),
    content(SAMPLE, "archive.bin"),
    b"seal: could not read\n",
    b"seal: could not write\n",
    b"usage: seal < PLAIN > ARCHIVE\n"
    b"seals the jobs of sheet.bin, their plain bytes end to end on standard input, "
    b"under key.bin of this folder and, if there, tag.bin\n",
    PLAIN,
)
DROP = Says(
    "drop",
    ("24000017",),
    dropped(SAMPLE, "24000017"),
    b"drop: could not read\n",
    b"drop: could not write\n",
    b"usage: drop NUMBER.. < ARCHIVE > SMALLER\n"
    b"drops these jobs, 1 to 64 numbers of eight digits, and writes the archive without them, "
    b"under key.bin and, if there, tag.bin\n",
    ARCHIVE,
)
# The same program, asked to drop all jobs, and one of them twice.
DROP_ALL = DROP._replace(words=("24000018", "24000017", "24000018"), output=dropped(SAMPLE, "24000017", "24000018"))
# And asked for what dropping would leave, as `jobs` lists it.
PREVIEW = DROP._replace(words=("--preview", *DROP.words), output=b"jobs 1\n24000018 36 0\n")
PREVIEW_ALL = DROP._replace(words=("--preview", *DROP_ALL.words), output=b"jobs 0\n")
PROGRAMS = [JOBS, OPEN, OPEN_RANGE, SEAL, DROP, DROP_ALL, PREVIEW, PREVIEW_ALL]
# A sheet that asks for as many plain bytes as an archive holds.
LONGEST_SHEET = b"\x10" + bytes(4) + b"24000017" + PLAIN.longest.to_bytes(4, "big")

# How often a read that signals break off is tried.
TRIES = 1000
# How many seconds a terminal is waited for.
PATIENCE = 10
# Why a file that is there may not be opened.
NOT_OPENED = (errno.EACCES, errno.EIO, errno.EMFILE, errno.ENFILE, errno.ENOTDIR, errno.EPERM)


# Programs that keep standard output for what was asked of them, and write a refusal's line to standard error.
REFUSE_ON_STDERR = ("open", "drop")


def refused(says, number):
    """A refusal's line, where the program writes it."""
    line = b"refused %d\n" % number
    return Written(b"", line, 0) if says.name in REFUSE_ON_STDERR else Written(line, b"", 0)


class Folder:
    """A folder with the files of the sample, in which a program is run; `input` is the one for standard input."""

    def __init__(self, program, input, faults):
        self.program = os.path.abspath(program)
        self.input = input
        self.path = tempfile.mkdtemp(prefix="programs-")
        for file in (*(os.path.join(SAMPLE, name) for name in os.listdir(SAMPLE)), faults):
            shutil.copy(file, self.path)

    def __enter__(self):
        return self

    def __exit__(self, *_):
        shutil.rmtree(self.path)

    def file(self, name):
        return os.path.join(self.path, name)

    def put(self, name, made):
        """A file of these bytes, or as a function makes it of its path, or none, in place of the one that is there."""
        with contextlib.suppress(FileNotFoundError):
            os.remove(self.file(name))
        if callable(made):
            made(self.file(name))
        elif made is not None:
            with open(self.file(name), "wb") as file:
                file.write(made)

    def run(self, words, stdin=None, stdout=subprocess.PIPE, fault=None, shell=None):
        """With its input on standard input unless told otherwise; `shell` has redirections that only a shell can make."""
        command = [self.program, *words]
        if shell:
            command = ["sh", "-c", 'exec "$0" "$@" ' + shell, *command]
        environment = dict(os.environ, LC_ALL="C")
        if fault:
            # by a name without a folder's, which may have spaces
            environment.update(LD_PRELOAD="./faults.so", FAULT="%s %s %d %d %d" % fault)
        with contextlib.ExitStack() as stack:
            if stdin is None:
                stdin = stack.enter_context(open(self.file(self.input), "rb"))
            process = subprocess.Popen(
                command, cwd=self.path, env=environment, stdin=stdin, stdout=stdout, stderr=subprocess.PIPE
            )
            return finished(process)


def circular(path):
    os.symlink(os.path.basename(path), path)


def leads_nowhere(path):
    os.symlink("no such file", path)


def without_end(path):
    os.symlink("/dev/zero", path)


def with_file(name, made, says, fault=None, **input):
    """A run with another file of that name, as `put` makes it."""

    def run(f):
        f.put(name, made)
        return f.run(says.words, fault=fault, **input)

    return run


def at_terminal(f, words, typed):
    """With a terminal for standard input, on which this is typed."""
    here, there = pty.openpty()
    try:
        os.write(here, typed)
        return f.run(words, stdin=there)
    finally:
        os.close(here)
        os.close(there)


def unread(f, words):
    """A program that opens the key or the tag key, or reads the input, waits for what never comes."""
    os.remove(f.file("key.bin"))
    for name in ("key.bin", "tag.bin"):
        os.mkfifo(f.file(name))
    reader, writer = os.pipe()
    try:
        return f.run(words, stdin=reader)
    finally:
        os.close(reader)
        os.close(writer)


def whole(says):
    yield "nothing wrong", Written(says.output, b"", 0), lambda f: f.run(says.words)


def writing(says):
    """A write that fails is said, whatever of the output went out before it."""
    failed = Written(b"", says.could_not_write, 0)

    def to_full(f):
        with open("/dev/full", "wb") as full:
            return f.run(says.words, stdout=full)

    def refusal_to_full(f):
        f.put("key.bin", None)
        return to_full(f)

    yield "output to /dev/full", failed, to_full
    if says.name not in REFUSE_ON_STDERR:
        yield "a refusal to /dev/full", failed, refusal_to_full
    yield "standard output closed", failed, lambda f: f.run(says.words, stdout=None, shell=">&-")
    yield "standard output open for reading only", failed, lambda f: f.run(says.words, stdout=None, shell="1<archive.bin")
    for after in (0, 1, len(says.output) - 1):
        yield "disk full after %d bytes" % after, Written(says.output[:after], says.could_not_write, 0), (
            lambda f, after=after: f.run(says.words, fault=("write", 1, after, errno.ENOSPC, 1))
        )

    for after in (1, len(says.output) - 1):
        yield "a write cut short after %d bytes" % after, Written(says.output, b"", 0), (
            lambda f, after=after: f.run(says.words, fault=("write", 1, after, 0, 1))
        )

    def to_terminal(f):
        """Output to a terminal, which writes a newline as two bytes, calls for no hint."""
        here, there = pty.openpty()
        try:
            written = f.run(says.words, stdout=there)
            return written._replace(stdout=os.read(here, 4096) if select.select([here], [], [], PATIENCE)[0] else b"")
        finally:
            os.close(here)
            os.close(there)

    yield "output to a terminal", Written(says.output.replace(b"\n", b"\r\n"), b"", 0), to_terminal

    def to_nobody(f):
        reader, writer = os.pipe()
        os.close(reader)
        try:
            return f.run(says.words, stdout=writer)
        finally:
            os.close(writer)

    # the toolchain's programs ignore SIGPIPE
    yield "output to a broken pipe", failed, to_nobody


def reading(says):
    """A read error is no end of input; only a standard input that is closed, or not open for reading, counts as empty."""
    failed = Written(b"", says.could_not_read, 0)

    def from_folder(f):
        folder = os.open(f.path, os.O_RDONLY)
        try:
            return f.run(says.words, stdin=folder)
        finally:
            os.close(folder)

    yield "standard input is a folder", failed, from_folder
    first, _, middle, _, last = says.input.places
    for after in says.input.places:
        yield "input error after %d bytes" % after, failed, (
            lambda f, after=after: f.run(says.words, fault=("read", 0, after, errno.EIO, 1))
        )
    for number in (errno.EAGAIN, errno.ENOMEM, errno.ENXIO):
        yield "input error %s" % errno.errorcode[number], failed, (
            lambda f, number=number: f.run(says.words, fault=("read", 0, middle, number, 1))
        )

    def long_input(f, length, after):
        """Zero bytes: only how many there are is looked at, and whether a read of them failed."""
        f.put(says.input.name, bytes(length))
        f.put("sheet.bin", LONGEST_SHEET)
        return f.run(says.words, fault=("read", 0, after, errno.EIO, 1))

    longest = says.input.longest
    for after in (4095, 4096, 4097, longest - 1, longest):
        yield "long input, error after %d bytes" % after, failed, lambda f, after=after: long_input(f, longest, after)
    # how far `seal` reads an input that is too long is its own choice
    if says is not SEAL:
        yield "input too long, then an error", refused(says, says.input.too_long), lambda f: long_input(f, longest + 1, longest + 1)

    def endless(f):
        with open("/dev/zero", "rb") as zeros:
            return f.run(says.words, stdin=zeros)

    yield "input without end", refused(says, says.input.too_long), endless
    yield "standard input gone after %d bytes" % middle, failed, lambda f: f.run(says.words, fault=("read", 0, middle, errno.EBADF, 1))
    yield "standard input closed", refused(says, says.input.empty), lambda f: f.run(says.words, shell="<&-")
    yield "standard input open for writing only", refused(says, says.input.empty), lambda f: f.run(says.words, shell="0>other.bin")
    for after in (first, middle, last):
        for times in (1, TRIES - 1):
            yield "input broken off %d times after %d bytes" % (times, after), Written(says.output, b"", 0), (
                lambda f, after=after, times=times: f.run(says.words, fault=("read", 0, after, errno.EINTR, times))
            )
        yield "input broken off without end after %d bytes" % after, failed, (
            lambda f, after=after: f.run(says.words, fault=("read", 0, after, errno.EINTR, TRIES))
        )


def key_files(says):
    """A key.bin that is missing is empty; one that cannot be read, or not to its end, is no key, even if what was read is one."""
    for after in (0, 15, 16):
        yield "key.bin error after %d bytes" % after, refused(says, 1), (
            lambda f, after=after: f.run(says.words, fault=("read", "key.bin", after, errno.EIO, 1))
        )
        yield "key.bin broken off after %d bytes" % after, Written(says.output, b"", 0), (
            lambda f, after=after: f.run(says.words, fault=("read", "key.bin", after, errno.EINTR, 1))
        )

    for name, made in (
        ("no key.bin", None),
        ("key.bin that cannot be opened", circular),
        ("key.bin is a link that leads nowhere", leads_nowhere),
        ("key.bin is a folder", os.mkdir),
    ):
        yield name, refused(says, 1), with_file("key.bin", made, says)
    yield "key.bin that may not be read", refused(says, 1), lambda f: f.run(says.words, fault=("open", "key.bin", 0, errno.EACCES, 1))
    if says is not SEAL:
        yield "key.bin without end", refused(says, 1), with_file("key.bin", without_end, says)
        return
    # a longer one is good, but not where it fails on the way
    key, sheet, plain = (content(SAMPLE, name) for name in ("key.bin", "sheet.bin", "plain.bin"))
    for length in (17, 24, 32, 33, 4096, 10**6):
        yield "key.bin of %d bytes" % length, Written(says.output, b"", 0), with_file("key.bin", key.ljust(length, b"\xff"), says)
        yield "key.bin of %d bytes, error after 16" % length, refused(says, 1), (
            with_file("key.bin", key.ljust(length, b"\xff"), says, ("read", "key.bin", 16, errno.EIO, 1))
        )
    yield "key.bin without end", Written(archive.seal(bytes(16), b"", sheet, plain), b"", 0), with_file("key.bin", without_end, says)


def tag_files(says):
    """A tag.bin that is missing or empty is no tag key. One that is there and cannot be read, or not to its end, or is too long, is a
    bad one: so an archive of layout 1, which is read where there is no tag key, gets 1 as well."""
    right = content(TAGGED, "tag.bin")
    good, mismatch = Written(says.output, b"", 0), refused(says, 24)
    # what is written on the sample of each layout, without a tag key and under the right one; `seal` has the same of both, and `drop`
    # tags again what is left
    none, under = {1: good, 2: mismatch}, {1: mismatch, 2: good}
    if says.name == "drop":
        under = {1: mismatch, 2: Written(dropped(TAGGED, *says.words), b"", 0)}
    if says is SEAL:
        none, under = {1: good}, {1: Written(content(TAGGED, "archive.bin"), b"", 0)}

    def on(layout, tag_file, fault=None, **input):
        """On the sample of that layout."""

        def run(f):
            if layout == 2:
                for name in ("archive.bin", "key.bin"):
                    shutil.copy(os.path.join(TAGGED, name), f.path)
            return with_file("tag.bin", tag_file, says, fault, **input)(f)

        return run

    for name, tag_file, fault in (
        ("no tag.bin", None, None),
        ("empty tag.bin", b"", None),
        ("tag.bin gone when it is opened", right, ("open", "tag.bin", 0, errno.ENOENT, 1)),
    ):
        for layout, expected in none.items():
            yield "%s, layout %d" % (name, layout), expected, on(layout, tag_file, fault)
    for name, fault in (
        ("tag.bin", None),
        ("tag.bin in two pieces", ("read", "tag.bin", 16, 0, 1)),
        ("tag.bin broken off once", ("read", "tag.bin", 16, errno.EINTR, 1)),
        ("tag.bin broken off often", ("read", "tag.bin", 16, errno.EINTR, TRIES - 1)),
        # the toolchain's library tries an opening again
        ("the opening of tag.bin broken off once", ("open", "tag.bin", 0, errno.EINTR, 1)),
        ("the opening of tag.bin broken off often", ("open", "tag.bin", 0, errno.EINTR, 2 * TRIES)),
    ):
        for layout, expected in under.items():
            yield "%s, layout %d" % (name, layout), expected, on(layout, right, fault)

    bad = [
        ("tag.bin is a folder", os.mkdir, None),
        ("tag.bin that cannot be opened", circular, None),
        ("tag.bin is a link that leads nowhere", leads_nowhere, None),
        ("tag.bin without end", without_end, None),
        ("empty tag.bin, error at once", b"", ("read", "tag.bin", 0, errno.EIO, 1)),
        ("tag.bin broken off without end", right, ("read", "tag.bin", 16, errno.EINTR, TRIES)),
    ]
    # the first 32 bytes are the right tag key
    for length in (33, 34, 48, 64, 4096, 65536, 10**6):
        bad.append(("tag.bin of %d bytes" % length, right.ljust(length, b"\0"), None))
    # what was read until then is nothing, or has a tag key's length, or is the right tag key
    for after in (0, 1, 16, 24, 31, 32):
        bad.append(("tag.bin error after %d bytes" % after, right, ("read", "tag.bin", after, errno.EIO, 1)))
    for number in NOT_OPENED:
        bad.append(("tag.bin not opened for %s" % errno.errorcode[number], right, ("open", "tag.bin", 0, number, 1)))
    for name, tag_file, fault in bad:
        for layout in none:
            yield "%s, layout %d" % (name, layout), refused(says, 1), on(layout, tag_file, fault)
    yield "tag.bin is a folder, and no input", refused(says, 1), on(1, os.mkdir, stdin=subprocess.DEVNULL)
    yield "tag.bin is a folder, and standard input fails", Written(b"", says.could_not_read, 0), (
        on(1, os.mkdir, ("read", 0, says.input.places[2], errno.EIO, 1))
    )


def sheet_files(says):
    """A sheet.bin that is missing is empty. One that is there and cannot be read, or not to its end, is no sheet of fewer jobs, and is
    said whatever else is wrong."""
    failed = Written(b"", b"seal: could not read sheet.bin\n", 0)
    good = Written(says.output, b"", 0)
    sheet = content(SAMPLE, "sheet.bin")
    for name, made, fault in (
        ("no sheet.bin", None, None),
        ("empty sheet.bin", b"", None),
        ("sheet.bin gone when it is opened", sheet, ("open", "sheet.bin", 0, errno.ENOENT, 1)),
    ):
        yield name, refused(says, 21), with_file("sheet.bin", made, says, fault)
    for name, made in (
        ("sheet.bin is a folder", os.mkdir),
        ("sheet.bin that cannot be opened", circular),
        ("sheet.bin is a link that leads nowhere", leads_nowhere),
    ):
        yield name, failed, with_file("sheet.bin", made, says)
    for number in NOT_OPENED:
        yield "sheet.bin not opened for %s" % errno.errorcode[number], failed, (
            lambda f, number=number: f.run(says.words, fault=("open", "sheet.bin", 0, number, 1))
        )

    def broken(after, number, times=1, made=sheet):
        return with_file("sheet.bin", made, says, ("read", "sheet.bin", after, number, times))

    def unreadable_keys(f):
        for name in ("key.bin", "tag.bin"):
            f.put(name, os.mkdir)
        f.put("sheet.bin", None)
        return f.run(says.words)

    for times in (1, 2 * TRIES):
        yield "the opening of sheet.bin broken off, %d times" % times, good, (
            lambda f, times=times: f.run(says.words, fault=("open", "sheet.bin", 0, errno.EINTR, times))
        )
    # at every byte, the ends of its front and of its lines among them
    for after in range(len(sheet) + 1):
        yield "sheet.bin error after %d bytes" % after, failed, broken(after, errno.EIO)
        yield "sheet.bin in two pieces, the first of %d bytes" % after, good, broken(after, 0)
        yield "sheet.bin broken off after %d bytes" % after, good, broken(after, errno.EINTR)
    for after in (0, 5, 17, 29):
        yield "sheet.bin broken off often after %d bytes" % after, good, broken(after, errno.EINTR, TRIES - 1)
        yield "sheet.bin broken off without end after %d bytes" % after, failed, broken(after, errno.EINTR, TRIES)
    for number in (errno.EAGAIN, errno.EBADF, errno.ENOMEM, errno.ENXIO):
        yield "sheet.bin error %s" % errno.errorcode[number], failed, broken(17, number)
    yield "empty sheet.bin, error at once", failed, broken(0, errno.EIO, made=b"")
    # what was read until then is refused by itself, or would be with another byte
    for length in (773, 774, 785, 796, 797, 4888, 4889, 360005):
        for after in (17, 773, 785, 796, 4096, 4888, 65536, 360005):
            if after <= length:
                made = sheet.ljust(length, b"\0")
                yield "sheet.bin of %d bytes, error after %d" % (length, after), failed, broken(after, errno.EIO, made=made)
    fault = ("read", "sheet.bin", 17, errno.EIO, 1)
    for name, made in (("key.bin", None), ("tag.bin", os.mkdir), ("plain.bin", b"")):
        yield "sheet.bin fails, and %s is bad" % name, failed, with_file(name, made, says, fault)
    yield "no sheet.bin, and key.bin and tag.bin are folders", refused(says, 21), unreadable_keys
    # an input of no bytes is all that these jobs need
    none = Written(archive.seal(content(SAMPLE, "key.bin"), b"", sheet[:5], b""), b"", 0)
    yield "no jobs, and an empty input", none, with_file("sheet.bin", sheet[:5], says, stdin=subprocess.DEVNULL)
    yield "no jobs, and standard input closed", none, with_file("sheet.bin", sheet[:5], says, shell="<&-")
    yield "no sheet.bin, and standard input fails", Written(b"", says.could_not_read, 0), (
        with_file("sheet.bin", None, says, ("read", 0, 2, errno.EIO, 1))
    )
    yield "sheet.bin fails, and words", failed._replace(stderr=says.usage + failed.stderr), lambda f: f.run(["--help"], fault=fault)


def terminals(says):
    """At a terminal a hint comes first, and changes nothing else: an end of input there is an empty one."""

    def input_typed(f):
        """An end-of-input key hands the line over first, and ends the input where the line is empty."""
        return at_terminal(f, says.words, content(f.path, says.input.name) + b"\x04\x04")

    def before_typing(f):
        """The hint is there while the program still waits."""
        here, there = pty.openpty()
        process = subprocess.Popen(
            [f.program, *says.words], cwd=f.path, stdin=there, stdout=subprocess.PIPE, stderr=subprocess.PIPE
        )
        hint = b""
        while len(hint) < len(says.usage) and select.select([process.stderr], [], [], PATIENCE)[0]:
            hint += os.read(process.stderr.fileno(), len(says.usage)) or b" and no more"
        if len(hint) < len(says.usage):
            hint += b" and no more while it waits"
        os.write(here, b"\x04")
        written = finished(process)
        os.close(here)
        os.close(there)
        return written._replace(stderr=hint + written.stderr)

    empty = refused(says, says.input.empty)
    yield "at a terminal", empty._replace(stderr=says.usage + empty.stderr), lambda f: at_terminal(f, says.words, b"\x04")
    yield "at a terminal, before a word is typed", empty._replace(stderr=says.usage + empty.stderr), before_typing
    yield "input typed at a terminal", Written(says.output, says.usage, 0), input_typed


def words_not_taken(says):
    for words in (["24000017"], ["--help"], ["a", "b"], [""]):
        yield "words %s" % words, Written(says.output, says.usage, 0), lambda f, words=words: f.run(words)
    empty = refused(says, says.input.empty)._replace(stderr=says.usage)
    yield "a word, at a terminal", empty, lambda f: at_terminal(f, ["--help"], b"\x04")


def words_of_open(says):
    usage = Written(b"", says.usage, 0)
    # no word, a first byte without a count, and more words than are taken
    for words in ([], ["24000017", "24000018"], ["24000017", "0"], ["24000017", ""], ["24000017", "0", "5", "0"], ["24000017"] * 5):
        yield "words %s" % words, usage, lambda f, words=words: f.run(words)
        yield "words %s, nothing read" % words, usage, lambda f, words=words: unread(f, words)
        yield "words %s, at a terminal" % words, usage, lambda f, words=words: at_terminal(f, words, b"\x04")
    for words in ([""], ["--help"], ["2400001"], ["240000170"], ["2" * 5000]):
        yield "word %.20s" % words, refused(says, 18), lambda f, words=words: f.run(words)
    yield "a job of no bytes", Written(b"", b"", 0), lambda f: f.run(["24000018"])


# Words that are no number from 0 to 2^64 - 1 in decimal, or longer than 20 bytes. Of those past 2^64 some are lower modulo 2^64 than
# without their last digit, and some are not.
NO_NUMBERS = ["", " ", "-", "+", "-1", "+1", " 1", "1 ", "1\n", "1.0", "1e1", "0x1", "1,000", "a", "1a", "a1", "/", ":", "0/", "0:"]
NO_NUMBERS += [b"\xd9\xa1", b"\xff", b"1\xb1"]
NO_NUMBERS += [str(2**64 + past) for past in (0, 1, 9, 10)] + [str(digit) + "0" * 19 for digit in range(2, 10)] + [str(10**20 - 1)]
NO_NUMBERS += ["0" * 21, "0" * 20 + "1", "1" + "0" * 20, "1" * 21, "1" * 22, "0" * 5000]


def words_of_ranges(says):
    """Two further words are numbers, or the usage is all that is written: whatever the job number, the archive and the key."""
    usage = Written(b"", says.usage, 0)
    for word in NO_NUMBERS:
        for words in (["24000017", word, "1"], ["24000017", "1", word], ["24000017", word, word]):
            yield "words %.60s" % words, usage, lambda f, words=words: f.run(words)
    for words in (["24000017", "x", "1"], ["24000017", "1", "-1"], ["2400001", "x", "1"]):
        yield "words %s, nothing read" % words, usage, lambda f, words=words: unread(f, words)
        yield "words %s, at a terminal" % words, usage, lambda f, words=words: at_terminal(f, words, b"\x04")
    zeros = ("0" * 19 + "1", "0" * 19 + "3")
    good = [("0", "5", b"dried"), ("00", "05", b"dried"), (*zeros, b"rie"), ("0", "0", b""), ("5", "0", b""), ("4", "1", b"d")]
    for first, count, wanted in good:
        yield "range %s %s" % (first, count), Written(wanted, b"", 0), (
            lambda f, first=first, count=count: f.run(["24000017", first, count])
        )
    most = str(2**64 - 1)
    past = [("0", "6"), ("1", "5"), ("5", "1"), ("6", "0"), ("0", most), ("1", most), (most, "0"), (most, "1"), (most, most)]
    for first, count in past:
        yield "range %s %s" % (first, count), refused(says, 26), (
            lambda f, first=first, count=count: f.run(["24000017", first, count])
        )
    yield "a range of no bytes of a job of no bytes", Written(b"", b"", 0), lambda f: f.run(["24000018", "0", "0"])
    yield "a range of a job of no bytes", refused(says, 26), lambda f: f.run(["24000018", "0", "1"])
    yield "a range of a job that is not there", refused(says, 19), lambda f: f.run(["24000019", "9", "9"])
    yield "a range of a number that is none", refused(says, 18), lambda f: f.run(["2400001", "9", "9"])


def front_of(says):
    """The word before the job numbers, if there is one."""
    return [word for word in says.words if word == "--preview"]


def words_of_drop(says):
    """From 1 to 64 words, behind `--preview` too; each that has not eight bytes is no number, whatever stands beside it."""
    front, usage = front_of(says), Written(b"", says.usage, 0)
    first, second, other = "24000017", "24000018", "24000019"
    for name, words in (
        ("no word", []),
        ("65 words", [first] * 65),
        ("65 words of no bytes", [""] * 65),
        ("65 words, the last no number", [first] * 64 + ["--help"]),
        ("66 words", [first, second] * 33),
        ("128 words", [first] * 128),
        ("257 words", [first] * 257),
        ("1000 words", [second] * 1000),
    ):
        yield name, usage, lambda f, words=words: f.run(front + words)
        yield "%s, nothing read" % name, usage, lambda f, words=words: unread(f, front + words)
        yield "%s, at a terminal" % name, usage, lambda f, words=words: at_terminal(f, front + words, b"\x04")
    for name, words, numbers in (
        ("63 words", [second] * 63, [second]),
        ("64 words", [first] * 64, [first]),
        ("64 words, the last another", [first] * 63 + [second], [first, second]),
        ("a job of no bytes", [second], [second]),
        ("both jobs", [first, second], [first, second]),
    ):
        yield name, Written(dropped(SAMPLE, *front, *numbers), b"", 0), lambda f, words=words: f.run(front + words)
    wrong = ["", " ", "-", "--help", "2400001", "2400001 ", "240000170", "2400001/", first + second, second * 2, "2" * 5000, b"\xff" * 8]
    for word in wrong:
        for name, words, number in (
            ("", [word], 18),
            (" behind a number", [first, word], 18),
            (" before a number", [word, first], 18),
            (" before a number that is not there", [word, other], 18),
            (" behind a number that is not there", [other, word], 19),
        ):
            yield "word %.20r%s" % (word, name), refused(says, number), lambda f, words=words: f.run(front + words)
    for name, words, number in (
        ("a number that is not there", [other], 19),
        ("a number behind the jobs that is not there", [first, second, other], 19),
        ("two words, a number end to end", [first[:4], first[4:]], 18),
        ("two words, two numbers end to end", [first[:7], first[7:] + second], 18),
        ("64 words, the last not there", [first] * 63 + [other], 19),
        ("64 words, the last no number", [first] * 63 + [first[:7]], 18),
        ("64 words of no bytes", [""] * 64, 18),
    ):
        yield name, refused(says, number), lambda f, words=words: f.run(front + words)


# Words that are not `--preview`: they have a byte less or more, or another.
NO_PREVIEWS = ["--previe", "--previews", "--preview=", "--preview ", "--preview\n", " --preview", "-preview", "--Preview", "--previex"]
NO_PREVIEWS += ["+-preview", "preview", "--preview=24000017", "--preview24000017", "--preview" * 2, "--preview" + "s" * 5000]


def words_of_preview(says):
    """Only a first word that is `--preview` asks for one. Elsewhere it is no number, and so is any other such word."""
    usage = Written(b"", says.usage, 0)
    first, other = "24000017", "24000019"
    for words in ([first] * 64 + ["--preview"], [first, "--preview"] + [first] * 63, ["--previe"] + [first] * 64):
        yield "65 words, from %s and %s on" % (words[0], words[1]), usage, lambda f, words=words: f.run(words)
    for word in ["--preview", *NO_PREVIEWS]:
        for words, number in (
            ([first, word], 18),
            ([other, word], 19),
            (["--preview", word], 18),
            (["--preview", word, first], 18),
            (["--preview", other, word], 19),
            ([first] * 63 + [word], 18),
            (["--preview"] + [first] * 63 + [word], 18),
        ):
            what = "%d words, first %s, with %.20r" % (len(words), words[0], word)
            yield what, refused(says, number), lambda f, words=words: f.run(words)
    for word in NO_PREVIEWS:
        for words in ([word], [word, first], [word, other]):
            yield "word %.20r, in place of --preview" % word, refused(says, 18), lambda f, words=words: f.run(words)


def several_words(says):
    """The archive's refusals come before all that is wrong with the words, and no word changes what is read."""
    for numbers in (["24000019"], ["2400001"], ["", "24000019"], ["24000017" * 2], ["24000019"] * 64):
        words = front_of(says) + numbers
        yield "an empty archive, words %.60s" % words, refused(says, 5), lambda f, words=words: f.run(words, stdin=subprocess.DEVNULL)
        for name, made, number in (("key.bin", None, 1), ("tag.bin", bytes(15), 1), ("tag.bin", bytes(16), 24)):
            what = "%s of %d bytes" % (name, len(made)) if made else "no %s" % name
            yield "%s, words %.60s" % (what, words), refused(says, number), with_file(name, made, says._replace(words=words))
        yield "input error, words %.60s" % words, Written(b"", says.could_not_read, 0), (
            lambda f, words=words: f.run(words, fault=("read", 0, 20, errno.EIO, 1))
        )


def cases(says):
    """Each case of a program: its name, what is to be written, and how it is run in a folder."""
    own = {
        JOBS: [words_not_taken],
        OPEN: [words_of_open],
        OPEN_RANGE: [words_of_ranges],
        SEAL: [words_not_taken, sheet_files],
        DROP: [words_of_drop],
        DROP_ALL: [several_words],
        PREVIEW: [words_of_drop, words_of_preview],
        PREVIEW_ALL: [several_words],
    }[says]
    for group in (whole, writing, reading, key_files, tag_files, terminals, *own):
        yield from group(says)


def main():
    parser = argparse.ArgumentParser(description=__doc__.splitlines()[0])
    parser.add_argument("--jobs", required=True)
    parser.add_argument("--open", required=True)
    parser.add_argument("--seal", required=True)
    parser.add_argument("--drop", required=True)
    options = parser.parse_args()
    agreed = differed = 0
    with tempfile.TemporaryDirectory(prefix="programs-") as built:
        faults = os.path.join(built, "faults.so")
        subprocess.run(
            ["cc", "-std=c99", "-Wall", "-Wextra", "-Werror", "-shared", "-fPIC", os.path.join(HERE, "faults.c"), "-o", faults, "-ldl"],
            check=True,
        )
        for says in PROGRAMS:
            for name, expected, run in cases(says):
                with Folder(getattr(options, says.name), says.input.name, faults) as folder:
                    written = run(folder)
                agreed += written == expected
                differed += written != expected
                if written != expected:
                    print("DIFFERS %s: %s\n  expected %s\n  written  %s" % (" ".join([says.name, *says.words]), name, expected, written))
    sys.stdout.flush()
    if differed:
        sys.exit("programs: %d of %d cases differ" % (differed, agreed + differed))
    print("programs: %d cases agree" % agreed)


if __name__ == "__main__":
    main()
