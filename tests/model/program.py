"""Runs a program on files of its folder and on standard input, and gives what it wrote."""

import os
import shutil
import subprocess
import tempfile
import threading
import time
from collections import namedtuple

Written = namedtuple("Written", "stdout stderr status")

SECONDS = 60


def finished(process):
    """What a process wrote, once it has ended."""
    try:
        stdout, stderr = process.communicate(timeout=SECONDS)
    except subprocess.TimeoutExpired:
        process.kill()
        process.communicate()
        return Written(b"", b"still running after %d seconds" % SECONDS, None)
    return Written(stdout or b"", stderr, process.returncode)


class Program:
    """A program and the folder it works in. Leaves no file behind after `close`."""

    def __init__(self, path):
        self.path = os.path.abspath(path)
        if not os.access(self.path, os.X_OK):
            raise SystemExit("%s is no program: build it first" % path)
        self.folder = tempfile.mkdtemp(prefix="archive-model-")

    def close(self):
        shutil.rmtree(self.folder)

    def __enter__(self):
        return self

    def __exit__(self, *_):
        self.close()

    def _place(self, name, data):
        """Puts a file there: these bytes, or no file where they are None."""
        place = os.path.join(self.folder, name)
        if os.path.exists(place):
            os.remove(place)
        if data is not None:
            with open(place, "wb") as file:
                file.write(data)

    def _start(self, files, command, stdin):
        for name, data in files.items():
            self._place(name, data)
        return subprocess.Popen(
            command,
            cwd=self.folder,
            stdin=stdin,
            stdout=subprocess.PIPE,
            stderr=subprocess.PIPE,
        )

    def from_file(self, files, data, arguments=()):
        """With these files, by their names, and with the data as a file on standard input."""
        with tempfile.TemporaryFile(dir=self.folder) as file:
            file.write(data)
            file.seek(0)
            return finished(self._start(files, [self.path, *arguments], file))

    def from_pipe(self, files, data, piece, arguments=(), pause=0.001):
        """With the data through a pipe, in pieces of so many bytes and a pause between them."""
        process = self._start(files, [self.path, *arguments], subprocess.PIPE)
        # a program that neither reads on nor ends would leave the pipe full
        limit = threading.Timer(SECONDS, process.kill)
        limit.start()
        try:
            for at in range(0, len(data), piece):
                process.stdin.write(data[at : at + piece])
                process.stdin.flush()
                time.sleep(pause)
        except BrokenPipeError:
            pass  # a program may stop reading once the input is too long
        finally:
            limit.cancel()
        return finished(process)
