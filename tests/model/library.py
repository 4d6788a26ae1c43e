"""Calls what the static library `benchlib` exports, in this process, through a shared library made of it. For ranges.py, sealing.py,
dropping.py, previewing.py.

Buffers begin at every place in memory modulo 16, and bytes before and behind them, which nobody lent, are watched.
"""

import contextlib
import ctypes
import faulthandler
import os
import subprocess
import sys
import tempfile

TOP = os.path.join(os.path.dirname(os.path.abspath(__file__)), "..", "..")
LIBRARY = os.path.join(TOP, "target", "staticlib", "libbenchlib.a")
# Seconds until all of it is taken to hang.
PATIENCE = 600
# What a buffer holds before a call, and how many bytes on either side of it are watched.
FILL = b"\xa5"
BESIDE = 32


class Library:
    """The exported calls. A slice is a pointer and a length."""

    def __init__(self, path, folder):
        shared = os.path.join(folder, "benchlib.so")
        flags = ["-shared", "-Wl,-z,defs,-z,text", "-Wl,--whole-archive", path, "-Wl,--no-whole-archive"]
        subprocess.run(["cc", *flags, "-o", shared], check=True)
        library = ctypes.CDLL(shared)
        part, size = [ctypes.c_char_p, ctypes.c_size_t], ctypes.c_size_t
        lent = [ctypes.c_void_p, ctypes.c_size_t]
        arguments = {
            "bench_check": 3 * part,
            "bench_open": 4 * part + lent,
            "bench_open_range": 4 * part + [size, size] + lent,
            "bench_seal": 4 * part + lent,
            "bench_drop": 4 * part + lent,
            "bench_preview": 4 * part + lent,
            "bench_ctr": 2 * part + [size] + lent,
        }
        for name, types in arguments.items():
            getattr(library, name).argtypes = types
            getattr(library, name).restype = ctypes.c_uint32
        # three numbers in one
        library.bench_preview.restype = size
        self.library = library
        self.calls = 0

    def lend(self, name, arguments, held):
        """The number that a call answers on a buffer that held these bytes, and what it then holds."""
        self.calls += 1
        place = BESIDE + self.calls % 16
        memory = ctypes.create_string_buffer(FILL * place + held + FILL * BESIDE, place + len(held) + BESIDE)
        number = getattr(self.library, name)(*arguments, ctypes.addressof(memory) + place, len(held))
        if memory.raw[:place] != FILL * place or memory.raw[place + len(held) :] != FILL * BESIDE:
            return number, b"bytes written beside the buffer"
        return number, memory.raw[place : place + len(held)]

    def opened(self, case, number, bounds, room):
        name = "bench_open_range" if bounds else "bench_open"
        return self.lend(name, (*sized(*case.lent(), number), *bounds), FILL * room)

    def checked(self, case):
        self.calls += 1
        return self.library.bench_check(*sized(*case.lent()))

    def sealed(self, case, room):
        return self.lend("bench_seal", sized(*case.lent()), FILL * room)

    def dropped(self, case, listed, room):
        return self.lend("bench_drop", sized(*case.lent(), listed), FILL * room)

    def previewed(self, case, listed, room):
        """The refusal or 0, the count and the whole length; and the buffer."""
        answer, buffer = self.lend("bench_preview", sized(*case.lent(), listed), FILL * room)
        return (answer % 256, answer // 256 % 256, answer // 65536), buffer

    def streamed(self, key, prefix, first, run):
        return self.lend("bench_ctr", (*sized(key, prefix), first), run)


def sized(*slices):
    return [argument for each in slices for argument in (each, len(each))]


@contextlib.contextmanager
def loaded():
    """The library that the command line names, or that of target/. A call that never returns, or writes where nothing is, ends the
    process with the place in the test's file."""
    path = os.path.abspath(sys.argv[1] if len(sys.argv) > 1 else LIBRARY)
    if not os.path.isfile(path):
        sys.exit("%s is missing: tools/build.sh benchlib" % path)
    faulthandler.enable()
    faulthandler.dump_traceback_later(PATIENCE, exit=True)
    with tempfile.TemporaryDirectory(prefix="benchlib-") as folder:
        yield Library(path, folder)
    faulthandler.cancel_dump_traceback_later()


def compare(what, given, wanted):
    """Ends the test where a call's number, or its numbers, or a byte of its buffer is another than is wanted."""
    if given[0] != wanted[0]:
        sys.exit("%s: %s in place of %s" % (what, given[0], wanted[0]))
    if given[1] != wanted[1]:
        at = next((i for i, (a, b) in enumerate(zip(given[1], wanted[1])) if a != b), min(len(given[1]), len(wanted[1])))
        sys.exit("%s: byte %d of the buffer differs, or one beside it" % (what, at))
