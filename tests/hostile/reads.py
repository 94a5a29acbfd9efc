"""Reads that fail, at the first one or amid a record, and readers that are stopped, woken and hung up on.

A failing read ends the input of its record: a record that was complete by then is written, the status is 3, and the line
says which record it was (docs/FORMATS.md). The end of an input is told once.
"""
import contextlib
import os
import pty
import select
import signal
import socket
import termios
import time
import tty

import program
from answers import difference

READS = (["scan", "%d"], ["scan", "%s"], ["scan", "%c"], ["scan", " "], ["scan", "%*[^,]%*c"], ["copy", "%d;", "%11d;"], ["scan", "--limit", "1", "%d"],
         ["scan", "--lines", "%d"])


def fault(number, words=()):
    """The line on standard error, where the read fails in the record or the line of this number."""
    return f"sf: {'line' if '--lines' in words else 'record'} {number}: read fault\n".encode()


@contextlib.contextmanager
def pending(text):
    """A pipe that holds these bytes, with its other end open, whose reader doesn't wait: behind them each read fails."""
    ours, theirs = os.pipe2(os.O_NONBLOCK)
    try:
        os.write(theirs, text)
        yield ours
    finally:
        os.close(ours)
        os.close(theirs)


@contextlib.contextmanager
def reset(text):
    """A socket that holds these bytes, and whose other end left without reading: behind them a read fails."""
    ours, theirs = socket.socketpair()
    with ours, theirs:
        ours.send(b"not read")
        theirs.send(text)
        theirs.close()
        yield ours.fileno()


@contextlib.contextmanager
def write_only():
    with open(os.devnull, "wb") as file:
        yield file.fileno()


SOURCES = [
    ("a folder", program.folder),
    ("/proc/self/mem", lambda: program.opened("/proc/self/mem", os.O_RDONLY)),
    ("a file opened for writing", write_only),
    ("an empty pipe that doesn't wait", lambda: pending(b"")),
    ("a socket that was reset", lambda: reset(b"")),
]


def fails_at_once(source, words):
    def check():
        with source() as unread:
            return difference(program.run(*words, stdin=unread), (3, b"", fault(1, words)))
    return check


def is_unread(source, words, want):
    """What needs no input doesn't meet the fault."""
    def check():
        with source() as unread:
            return difference(program.run(*words, stdin=unread), want)
    return check


# The words, the bytes before the failing read, the lines, and the record (with --lines: the line) that the fault is told of.
AMID = [
    (["scan", "%d"], b"12", b"12\n", 1),
    (["scan", "%d"], b"12\n", b"12\n", 2),
    (["scan", "%d"], b"12 34", b"12\n34\n", 2),
    (["scan", "%d,%d"], b"1,2\n3,", b"1 2\n", 2),
    (["scan", "%d,%d"], b"1,2\n3,4", b"1 2\n3 4\n", 2),
    (["scan", "%d%*1[\\n]"], b"1\n2\n", b"1\n2\n", 3),
    (["scan", "%d%*1[\\n]"], b"1\n2", b"1\n", 2),
    (["scan", "%2d"], b"123456", b"12\n34\n56\n", 4),
    (["scan", "%s"], b"ab cd", b'"ab"\n"cd"\n', 2),
    (["scan", "%3c"], b"abcde", b'"abc"\n', 2),
    (["scan", "%c"], b"xyz", b'"x"\n"y"\n"z"\n', 4),
    (["scan", "%d;"], b"1;2;", b"1\n2\n", 3),
    (["scan", "--lines", "%d"], b"12", b"", 1),
    (["scan", "--lines", "%d"], b"12\n", b"12\n", 2),
    (["scan", "--lines", "%d"], b"12\n34", b"12\n", 2),
    (["scan", "--lines", "--quiet", "--keep-going", "%d"], b"12\nx\n34\n", b"12\n34\n", 4),
    (["copy", "%d;", "%11d;"], b"1;2;3", b"1;2;", 3),
    (["copy", "%d,%s\\n", "%11d,%20s%*1[\\n]"], b"1,a\n2,b\n", b"1,a\n2,b\n", 3),
    (["copy", "%d,%s\\n", "%11d,%20s%*1[\\n]"], b"1,a\n2,b", b"1,a\n", 2),
]


def fails_amid(source, words, text, out, record):
    def check():
        with source(text) as unread:
            return difference(program.run(*words, stdin=unread), (3, out, fault(record, words)))
    return check


def read_all(handle, size):
    """What comes until so many bytes have come, or no more within the time that a call may take."""
    read = b""
    while len(read) < size and select.select([handle], [], [], program.SECONDS)[0]:
        more = os.read(handle, 65536)
        if not more:
            break
        read += more
    return read


def hung_up():
    """A terminal that hangs up amid the input: the lines before stand, and the end is one of the two that a reader may see."""
    ours, theirs = pty.openpty()
    tty.setraw(theirs)
    running = program.start("scan", "--line-buffered", "%d", stdin=theirs)
    os.close(theirs)
    try:
        os.write(ours, b"1\n2\n")
        lines = read_all(running.stdout.fileno(), 4)
        os.close(ours)
        rest, err = running.communicate(timeout=program.SECONDS)
    finally:
        program.end(running)
    is_end = (running.returncode, err) in ((3, fault(3)), (0, b""))
    return "" if is_end and lines + rest == b"1\n2\n" else f"{running.returncode}, {lines + rest}, {err}"


def output_hung_up():
    """A terminal for the output that hangs up: what is written next is a write fault."""
    ours, theirs = pty.openpty()
    running = program.start("scan", "%d", stdout=theirs)
    os.close(theirs)
    try:
        running.stdin.write(b"1\n2\n")
        running.stdin.flush()
        lines = read_all(ours, 6)
        os.close(ours)
        _, err = running.communicate(b"3\n4\n", timeout=program.SECONDS)
    finally:
        program.end(running)
    return difference((running.returncode, lines, err), (3, b"1\r\n2\r\n", b"sf: write fault\n"))


def told_once():
    """A terminal tells its end and would give more: it isn't read again."""
    ours, theirs = pty.openpty()
    mode = termios.tcgetattr(theirs)
    mode[3] &= ~termios.ECHO
    termios.tcsetattr(theirs, termios.TCSANOW, mode)
    running = program.start("scan", "%d", stdin=theirs)
    try:
        os.write(ours, b"1\n\x04")
        out, err = running.communicate(timeout=program.SECONDS)
    finally:
        program.end(running)
        os.close(theirs)
        os.close(ours)
    return difference((running.returncode, out, err), (0, b"1\n", b""))


def disturbed(words, pieces, out):
    """A check that a call that is stopped, woken and sent signals that are passed over by default loses nothing."""
    def check():
        running = program.start(*words)
        try:
            for piece in pieces:
                for sign in (signal.SIGSTOP, signal.SIGCONT, signal.SIGWINCH, signal.SIGURG, signal.SIGCHLD):
                    os.kill(running.pid, sign)
                running.stdin.write(piece)
                running.stdin.flush()
                time.sleep(0.005)
            read, err = running.communicate(timeout=program.SECONDS)
        finally:
            program.end(running)
        return difference((running.returncode, read, err), (0, out, b""))
    return check


def stopped(sign):
    """A check that an interrupt ends the call, and what was written is whole lines of the output."""
    def check():
        running = program.start("scan", "--line-buffered", "%d")
        try:
            running.stdin.write(b"1\n2\n3")
            running.stdin.flush()
            lines = read_all(running.stdout.fileno(), 4)
            os.kill(running.pid, sign)
            rest, err = running.communicate(timeout=program.SECONDS)
        finally:
            program.end(running)
        return difference((running.returncode, lines + rest, err), (-sign, b"1\n2\n", b""))
    return check


def checks():
    for name, source in SOURCES:
        for words in READS:
            yield f"{' '.join(words)} of {name}", fails_at_once(source, words)
        yield f"show beside {name}", is_unread(source, ["show", ""], (0, b"destinations 0, width sum 0\n", b""))
        yield f"print beside {name}", is_unread(source, ["print", "%d", "7"], (0, b"7", b""))
        yield f"a bad format beside {name}", is_unread(source, ["scan", "%q"], (2, b"", b"sf: scan format: F4 UnknownLetter at 1\n"))
        yield f"no pair beside {name}", is_unread(source, ["copy", "%d", "%3d"], (2, b"", b"sf: pair: Q7 OpenEnd at 1\n"))
    for source in (pending, reset):
        for words, text, out, record in AMID:
            yield f"{' '.join(words)} of {text} from a {source.__name__} one", fails_amid(source, words, text, out, record)
    yield "a terminal that hangs up", hung_up
    yield "a terminal for the output that hangs up", output_hung_up
    yield "a terminal that ends and goes on", told_once
    pieces = [b"1", b"2\n", b"-", b"3 4", b"\n", b"5"]
    yield "disturbed reads", disturbed(["scan", "%d"], pieces, b"12\n-3\n4\n5\n")
    yield "disturbed reads by line", disturbed(["scan", "--line-buffered", "%d"], pieces, b"12\n-3\n4\n5\n")
    for sign in (signal.SIGINT, signal.SIGTERM, signal.SIGHUP):
        yield f"ended by {sign.name}", stopped(sign)
