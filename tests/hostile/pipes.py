"""Pipes whose other end is closed, and standard streams that were closed before the program began."""
import itertools
import os

import program
from answers import WRITE_FAULT, difference, shown
from disks import BLOCK, CALLS

READ_FAULT = b"sf: %s 1: read fault\n"


def closed_at_once(words, text, want):
    """Nobody reads the output: a write fault, where there is one to be written."""
    def check():
        ours, theirs = os.pipe()
        os.close(ours)
        try:
            status, _, err = program.run(*words, stdin=text, stdout=theirs)
        finally:
            os.close(theirs)
        due = {(3, WRITE_FAULT), (3, want[2] + WRITE_FAULT)} if want[1] else {(want[0], want[2])}
        return "" if (status, err) in due else f"{status}, {shown(err)}"
    return check


def closed_errors(words, text, want):
    """Nobody reads standard error: the status and the output are the same."""
    def check():
        ours, theirs = os.pipe()
        os.close(ours)
        try:
            got = program.run(*words, stdin=text, stderr=theirs)
        finally:
            os.close(theirs)
        return difference(got, (*want[:2], None))
    return check


def closed_within(words, want, size):
    """The reader goes away once it has so many bytes; the input has no end, so that the program has to see it."""
    def check():
        feeder = program.start_command(["sh", "-c", "yes 1 | head -c 200000000"])
        try:
            running = program.start(*words, stdin=feeder.stdout)
            feeder.stdout.close()
            feeder.stdout = None
            try:
                read = running.stdout.read(size)
                running.stdout.close()
                running.stdout = None
                err = running.stderr.read()
                status = running.wait(program.SECONDS)
            finally:
                program.end(running)
        finally:
            program.end(feeder)
        return difference((status, read, err), (3, (want * size)[:size], WRITE_FAULT))
    return check


def closed_streams(words, text, want, closed):
    """The standard streams of these numbers were closed before the program began."""
    def check():
        signs = " ".join(f"{number}{'<' if number == 0 else '>'}&-" for number in closed)
        command = ["sh", "-c", f'exec "$0" "$@" {signs}', program.path, *words]
        got = program.run_command(command, text)
        status, out, err = want
        reads = words[0] in ("scan", "copy") and status != 2
        if 0 in closed and reads:
            status, out, err = 3, b"", READ_FAULT % (b"line" if "--lines" in words else b"record")
        elif 1 in closed and out:
            status, out, err = 3, b"", WRITE_FAULT if want[0] != 1 or not want[2] else None
        out, err = b"" if 1 in closed else out, b"" if 2 in closed else err
        if err is None:
            return "" if got[:2] == (status, out) and got[2] in (WRITE_FAULT, want[2] + WRITE_FAULT) else f"{got}"
        return difference(got, (status, out, err))
    return check


def gone_writer(words, text, want):
    """The writer of the input ends amid it, one piece behind the other: that is the end of the input, and no fault."""
    def check():
        running = program.start(*words)
        try:
            for at in range(0, len(text), max(1, len(text) // 3)):
                running.stdin.write(text[at : at + max(1, len(text) // 3)])
                running.stdin.flush()
            out, err = running.communicate(timeout=program.SECONDS)
        finally:
            program.end(running)
        return difference((running.returncode, out, err), want)
    return check


def checks():
    for name, words, text, want in CALLS:
        yield f"{name}, output closed", closed_at_once(words, text, want)
        yield f"{name}, errors closed", closed_errors(words, text, want)
        for count in range(1, 4):
            for closed in itertools.combinations(range(3), count):
                yield f"{name}, without {closed}", closed_streams(words, text, want, closed)
        if text:
            yield f"{name}, in pieces", gone_writer(words, text, want)
    for size in (0, 1, 2, 4096, BLOCK, 100001):
        yield f"scan, read for {size} bytes", closed_within(["scan", "%d"], b"1\n", size)
        yield f"scan by line, read for {size} bytes", closed_within(["scan", "--line-buffered", "%d"], b"1\n", size)
        yield f"lines, read for {size} bytes", closed_within(["scan", "--lines", "%d"], b"1\n", size)
        yield f"copy, read for {size} bytes", closed_within(["copy", "%d\\n", "%11d%*1[\\n]"], b"1\n", size)
