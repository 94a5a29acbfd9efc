"""Each refusal in turn: the Nth allocation, the Nth read and the Nth write fails; reads and writes move a byte at a time.

refusals.c stands between the program and the C library of the system. A program that is linked statically has none: then
what rt made of the same object is called, which lies beside it as NAME.dynamic. A refused allocation ends the call with status 4 and a front of
its output, or changes nothing; a failing read or write ends it with status 3, at that byte.
"""
import errno
import itertools
import os
import shutil
import struct
import subprocess
import tempfile
from unittest import SkipTest

import program
from answers import WRITE_FAULT, difference, shown
from memory import end_fault

HERE = os.path.dirname(os.path.abspath(__file__))

CALLS = [
    ("show", ["show", "%2$3d,%1$s%*[a-z]"], b""),
    ("scan", ["scan", "%d %s"], b"1 a\n22 bb\n333 " + b"c" * 5000 + b"\n4 d"),
    ("scan, widths", ["scan", "%3s%*[a-c]%5c"], b"abcabcabcdefghi\nxyz,,"),
    ("scan, a failure", ["scan", "%d,%d"], b"1,2\n3;4\n"),
    ("scan by line", ["scan", "--line-buffered", "%s"], b"a\nbb\n" + b"c" * 300),
    ("lines", ["scan", "--lines", "-e", "%d,%d", "-e", "%*d,%s"], b"1,2\n22,bb\n333," + b"c" * 5000 + b"\n4,d"),
    ("lines, a miss", ["scan", "--lines", "--whole", "%d"], b"1\n2\n3x\n4\n"),
    ("lines, misses told", ["scan", "--lines", "--keep-going", "%d"], b"x\n1\ny\n2\n" * 20),
    ("print", ["print", "%d %s|%5c|%x\\n", "1", "abc\\x00", "z", "255"], b""),
    ("print, 20,000 bytes", ["print", "%10000d%-10000d", "1", "2"], b""),
    ("check", ["check", "%d,%s\\n", "%11d,%20s%*1[\\n]"], b""),
    ("check, a refusal", ["check", "%d", "%3d"], b""),
    ("copy", ["copy", "%d,%s\\n", "%11d,%20s%*1[\\n]"], b"1,a\n +2,b\n3,cc\n"),
    ("copy, what doesn't fit", ["copy", "%+d;", "%3d;"], b"12;123;"),
    ("help", ["help", "copy"], b""),
    ("bad words", ["scan", "--limit", "x", "%d"], b""),
    ("bad format", ["scan", "%[z-a]"], b""),
    ("bad escape", ["print", "%s", "\\q"], b""),
    ("no pair", ["copy", "%d", "%3d"], b""),
]

# The kind of a program's part that names a loader.
LOADER = 3

# Where a call has more allocations than this, some of those amid them are left out.
MOST = 60


def is_dynamic(path):
    """Whether one of the parts of a program names a loader, which brings the C library."""
    with open(path, "rb") as file:
        data = file.read(4096)
    start, (size, count) = struct.unpack_from("<Q", data, 32)[0], struct.unpack_from("<HH", data, 54)
    return LOADER in [struct.unpack_from("<I", data, start + at * size)[0] for at in range(count)]


def with_library():
    """The program over the C library of the system, or None."""
    return next((it for it in (program.path, program.path + ".dynamic") if os.access(it, os.X_OK) and is_dynamic(it)), None)


class Refusals:
    """The library that refuses, built once where there is a C compiler, and the program that it stands before."""

    def __init__(self):
        compiler = os.environ.get("CC") or shutil.which("cc")
        self.folder = tempfile.TemporaryDirectory(prefix="sf_refusals_")
        self.library = os.path.join(self.folder.name, "refusals.so")
        self.is_built = compiler is not None
        self.path = with_library()
        if self.is_built:
            subprocess.run([compiler, "-O1", "-shared", "-fPIC", "-o", self.library, os.path.join(HERE, "refusals.c")], check=True)

    def run(self, words, text, **what):
        environment = {"LD_PRELOAD": self.library, "PATH": os.environ["PATH"], **{name: str(it) for name, it in what.items()}}
        return program.run_command([self.path, *words], text, env=environment)

    def counts(self, words, text):
        """How many allocations, reads and writes the call makes."""
        handle, path = tempfile.mkstemp(dir=self.folder.name)
        os.close(handle)
        self.run(words, text, COUNTS=path)
        with open(path) as file:
            return [int(it) for it in file.read().split()]


def places(count):
    """From 1 to the count; of many, the first, the last and some between."""
    if count <= MOST:
        return range(1, count + 1)
    return [*range(1, MOST // 2), *range(MOST // 2, count, max(1, count // (MOST // 2))), *range(count - 5, count + 1)]


def allocations(refusals, words, text):
    def check():
        ample = program.run(*words, stdin=text)
        count, _, _ = refusals.counts(words, text)
        if not count:
            return "no allocation was seen"
        for number in places(count):
            for how in (f"{number}", f"{number}+"):
                fault = end_fault(refusals.run(words, text, FAIL_ALLOC=how), ample, words)
                if fault:
                    return f"allocation {how} of {count}: {fault}"
        return ""
    return check


def short(refusals, words, text):
    """Reads and writes of a few bytes change nothing."""
    def check():
        ample = program.run(*words, stdin=text)
        for most in (1, 2, 3, 7):
            fault = difference(refusals.run(words, text, SHORT=most), ample)
            if fault:
                return f"{most} bytes at once: {fault}"
        return ""
    return check


def writes(refusals, words, text):
    """Each write of one byte fails in turn: a front of the output was written, the bytes before that write at least."""
    def check():
        ample = program.run(*words, stdin=text)
        for number in places(len(ample[1])):
            status, out, err = refusals.run(words, text, SHORT=1, FAIL_WRITE=number, FAIL_ERRNO=errno.EIO)
            is_front = ample[1].startswith(out) and len(out) >= number - 1
            if status != 3 or not is_front or err not in (WRITE_FAULT, ample[2] + WRITE_FAULT):
                return f"write {number}: {status}, {shown(out)}, {shown(err)}"
        return ""
    return check


def interrupted_writes(refusals, words, text):
    """Each write of one byte is interrupted in turn: it is tried again, or it is one that failed."""
    def check():
        ample = program.run(*words, stdin=text)
        for number in places(len(ample[1])):
            status, out, err = refusals.run(words, text, SHORT=1, FAIL_WRITE=number, FAIL_ERRNO=errno.EINTR)
            if (status, out, err) not in (ample, (3, ample[1][: number - 1], WRITE_FAULT)):
                return f"write {number}: {status}, {shown(out)}, {shown(err)}"
        return ""
    return check


def often_interrupted_writes(refusals, words, text):
    """A write that is interrupted some times is tried again until it goes."""
    def check():
        ample = program.run(*words, stdin=text)
        for times in (1, 2, 3, 10, 1000):
            fault = difference(refusals.run(words, text, FAIL_WRITE=1, FAIL_TIMES=times, FAIL_ERRNO=errno.EINTR), ample)
            if fault:
                return f"{times} times: {fault}"
        return ""
    return check


def reads(refusals, words, text, lines, name=b"record"):
    """Each read of one byte fails in turn, or is interrupted: exactly the records that were whole by then are written."""
    def check():
        for number, why in itertools.product(range(1, len(text) + 2), (errno.EIO, errno.EINTR)):
            records = text[: number - 1].count(b"\n")
            due = (3, b"".join(lines[:records]), b"sf: %s %d: read fault\n" % (name, records + 1))
            fault = difference(refusals.run(words, text, SHORT=1, FAIL_READ=number, FAIL_ERRNO=why), due)
            if fault:
                return f"read {number}: {fault}"
        return ""
    return check


def left_out(why):
    def check():
        raise SkipTest(why)
    return check


def checks():
    refusals = Refusals()
    why = "there is no cc" if not refusals.is_built else "" if refusals.path else "what rt made of the program isn't here"
    for name, call in checks_by(refusals):
        yield name, left_out(why) if why else call


def checks_by(refusals):
    for name, words, text in CALLS:
        yield f"{name}: allocations", allocations(refusals, words, text)
        yield f"{name}: short reads and writes", short(refusals, words, text)
        yield f"{name}: writes", writes(refusals, words, text)
        yield f"{name}: interrupted writes", interrupted_writes(refusals, words, text)
        yield f"{name}: a write that is often interrupted", often_interrupted_writes(refusals, words, text)
    text = b" +7,ab\n08,c\n-12,zz\n"
    yield "scan: reads", reads(refusals, ["scan", "%d,%s%*1[\\n]"], text, [b'7 "ab"\n', b'8 "c"\n', b'-12 "zz"\n'])
    yield "scan by line: reads", reads(refusals, ["scan", "--line-buffered", "%d,%s%*1[\\n]"], text, [b'7 "ab"\n', b'8 "c"\n', b'-12 "zz"\n'])
    yield "lines: reads", reads(refusals, ["scan", "--lines", "%d,%s"], text, [b'7 "ab"\n', b'8 "c"\n', b'-12 "zz"\n'], b"line")
    yield "copy: reads", reads(refusals, ["copy", "%d,%s\\n", "%11d,%20s%*1[\\n]"], text, [b"7,ab\n", b"8,c\n", b"-12,zz\n"])
