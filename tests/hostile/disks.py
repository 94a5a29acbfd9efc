"""Disks that are full: each write fails, or those behind a number of bytes do.

Where the output can't be written the status is 3, with one line; what was written is a front of the output, and lacks no
more than what was kept for one write.
"""
import contextlib
import os
import shutil
import subprocess
import tempfile
from unittest import SkipTest

import program
from answers import WRITE_FAULT, difference, shown

# As much as is kept for one write (docs/DECISIONS.md 44).
BLOCK = 32768

NUMBERS = b"".join(b"%d\n" % it for it in range(24000))
FAILED = b"sf: record 24001: matching failure at 1, used %d, assigned 0\n"
MISSED = b"sf: line 24001: matching failure at 1, used 0, assigned 0\n"

# Calls with much output and with little: the words, the input, and what ample room gives.
CALLS = [
    ("scan", ["scan", "%d"], NUMBERS, (0, NUMBERS, b"")),
    ("scan by line", ["scan", "--line-buffered", "%d"], NUMBERS[:9000], (0, NUMBERS[:9000], b"")),
    ("scan that fails", ["scan", "%d"], NUMBERS + b"x", (1, NUMBERS, FAILED % 1)),
    ("lines", ["scan", "--lines", "%d"], NUMBERS, (0, NUMBERS, b"")),
    ("lines, the last of them told", ["scan", "--lines", "--keep-going", "%d"], NUMBERS + b"x\n", (1, NUMBERS, MISSED)),
    ("copy", ["copy", "%d\\n", "%11d%*1[\\n]"], NUMBERS, (0, NUMBERS, b"")),
    ("copy that fails", ["copy", "%d\\n", "%11d%*1[\\n]"], NUMBERS + b"x", (1, NUMBERS, FAILED % 0)),
    ("show", ["show", "a" * 4000], b"", (0, b"".join(b'%d byte "a"\n' % it for it in range(1, 4001)) + b"destinations 0, width sum 0\n", b"")),
    ("print", ["print", "%60000d", "7"], b"", (0, b" " * 59999 + b"7", b"")),
    ("a short print", ["print", "%d", "7"], b"", (0, b"7", b"")),
    ("check", ["check", "%d;", "%11d;"], b"", (0, b"accepted\n", b"")),
    ("check that refuses", ["check", "%d", "%11d"], b"", (1, b"refused: Q7 OpenEnd at 1\n", b"")),
    ("a bad format", ["show", "%q"], b"", (2, b"", b"sf: scan format: F4 UnknownLetter at 1\n")),
    ("no output", ["print", ""], b"", (0, b"", b"")),
]


def ample(words, text, want):
    return lambda: difference(program.run(*words, stdin=text), want)


def end_is_due(got, want, room):
    """Whether the status and the error text are those of a disk with room for so many bytes."""
    status, out, err = want
    if room >= len(out):
        return got == (status, err)
    # the loop may not have come to its own failure, or it was told first and the flush failed then
    return got == (3, WRITE_FAULT) or err and got == (3, err + WRITE_FAULT)


def full(words, text, want):
    """Standard output on a device where each write fails."""
    def check():
        with program.full() as disk:
            status, _, err = program.run(*words, stdin=text, stdout=disk)
        return "" if end_is_due((status, err), want, 0) else f"{status}, {shown(err)}"
    return check


def told_as_fault(words):
    """What was asked for and can't be written is a fault, too."""
    def check():
        with program.full() as disk:
            return difference(program.run(*words, stdout=disk), (3, None, WRITE_FAULT))
    return check


def full_errors(words, text, want):
    """Standard error there: the status and the output are the same."""
    def check():
        with program.full() as disk:
            got = program.run(*words, stdin=text, stderr=disk)
        return difference(got, (*want[:2], None))
    return check


def both_full(words, text, want):
    def check():
        with program.full() as disk:
            got = program.run(*words, stdin=text, stdout=disk, stderr=disk)
        return difference(got, (3 if want[1] else want[0], None, None))
    return check


def front_fault(written, want, room):
    """What is wrong with what stands in a file that had room for so many bytes."""
    due = want[1][:room]
    if not want[1].startswith(written) or len(written) > room:
        return f"no front: {shown(written)}"
    return f"{len(written)} bytes of {len(due)}" if len(written) <= len(due) - BLOCK else ""


def limited(words, text, want, room):
    """A file that may have so many bytes, and no more (the signal that comes with it is passed over, as nohup does)."""
    def check():
        with tempfile.TemporaryFile() as file:
            # python passes over SIGXFSZ, and so does what it starts
            command = ["prlimit", f"--fsize={room}", program.path, *words]
            status, _, err = program.run_command(command, text, stdout=file, restore_signals=False)
            file.seek(0)
            written = file.read()
        if not end_is_due((status, err), want, room):
            return f"{status}, {shown(err)}"
        return front_fault(written, want, room)
    return check


@contextlib.contextmanager
def small_disk(kilobytes):
    """A disk of its own, or None where none may be mounted."""
    folder = tempfile.mkdtemp(prefix="sf disk ")
    mounted = subprocess.run(["mount", "-t", "tmpfs", "-o", f"size={kilobytes}k", "sf", folder], stderr=subprocess.DEVNULL).returncode == 0
    try:
        yield folder if mounted else None
    finally:
        if mounted:
            subprocess.run(["umount", folder], check=True)
        shutil.rmtree(folder)


def on_small_disk():
    """The output on a disk that takes some 16 KiB: what is there is a front, and if it isn't all, the status tells it."""
    with small_disk(16) as folder:
        if folder is None:
            raise SkipTest("no disk may be mounted here")
        for name, words, text, want in CALLS:
            path = os.path.join(folder, "output")
            with open(path, "wb") as file:
                status, _, err = program.run(*words, stdin=text, stdout=file)
            with open(path, "rb") as file:
                written = file.read()
            os.remove(path)
            if not want[1].startswith(written) or not end_is_due((status, err), want, len(written)):
                return f"{name}: {status}, {shown(err)}, {len(written)} bytes of {len(want[1])}"
    return ""


def checks():
    for name, words, text, want in CALLS:
        yield f"{name}, with ample room", ample(words, text, want)
        yield f"{name}, output full", full(words, text, want)
        yield f"{name}, errors full", full_errors(words, text, want)
        yield f"{name}, both full", both_full(words, text, want)
        for room in (0, 1, 7, 100, 4096, 8192, 20000, BLOCK - 1, BLOCK, BLOCK + 1, 3 * BLOCK, len(want[1]) - 1):
            if 0 <= room < len(want[1]):
                yield f"{name}, room for {room} bytes", limited(words, text, want, room)
    for words in (["--help"], ["help", "copy"], ["scan", "-h"], ["--version"]):
        yield f"{' '.join(words)}, output full", told_as_fault(words)
    yield "a small disk", on_small_disk
