"""Memory that is short: each verb under `ulimit -v`, from the least that starts up to 16 MB in steps.

With less memory than a call wants it ends with status 4 and one line, and what it has written is a front of its output
(of records: whole ones); else it answers what it answers with ample memory. Nothing hangs, aborts or is lost between.
"""
import os
import resource
import shutil

import program
from answers import NO_MEMORY, shown

# In kB, as `ulimit -v` takes it.
MOST = 16384
STEP = 1024
FINE_STEP = 4
FINE_STEPS = 32

CALLS = [
    ("show", ["show", "%3d,%*s"], b""),
    ("show 4096 directives", ["show", "a" * 4096], b""),
    ("scan", ["scan", "%d"], b"1\n22\n333\n"),
    ("scan, a text of 1,000,000 bytes", ["scan", "%s"], b"a" * 1000000),
    ("scan, texts of any length", ["scan", "%s"], b" ".join(b"b" * (1 << size) for size in range(20))),
    ("scan, 32 texts of 65,535 bytes", ["scan", "%65535s" * 32], b"c d e f " * 8),
    ("scan, 32 columns of 65,535 bytes", ["scan", "--profile", "3", "--limit", "2147483647", "%=65535s" * 32], (b"c d" + b" " * 65532) * 32),
    ("scan, groups of texts", ["scan", "--profile", "3", "%?(a%s%) %?(b%65535s%) %?(%[c]%) "], b"a" * 70000 + b"\nb" + b"b" * 60000 + b" ccc\nba\n"),
    ("scan, 4096 directives", ["scan", "%*d" * 1365], b"1 " * 2730),
    ("lines", ["scan", "--lines", "%d"], b"1\n22\n333\n"),
    ("lines, texts of any length", ["scan", "--lines", "%s"], b"\n".join(b"b" * (1 << size) for size in range(20))),
    ("lines, a text of 1,000,000 bytes", ["scan", "--lines", "%s"], b"1\n" + b"a" * 1000000 + b"\n2\n"),
    ("lines, two formats", ["scan", "--lines", "--output", "json", "-e", "%d%3s", "-e", "%s"], b"1ab\n22\nc\n" * 3000),
    ("lines, some of them told", ["scan", "--lines", "--keep-going", "%d"], b"1\nx\n" * 30),
    ("lines, many of them told", ["scan", "--lines", "--keep-going", "%d"], b"1\nx\n" * 40000),
    ("lines, many passed over", ["scan", "--lines", "--keep-going", "--quiet", "%d"], b"1\nx\n" * 40000),
    ("print", ["print", "%d %s|", "1", "abc"], b""),
    ("print, 2 MB", ["print", "%65535d" * 32, *["7"] * 32], b""),
    ("check", ["check", "%d,%s\\n", "%11d,%20s%*1[\\n]"], b""),
    ("copy", ["copy", "%d,%s\\n", "%11d,%20s%*1[\\n]"], b"1,a\n +2,b\n"),
    ("copy, columns", ["copy", "--profile", "3", "%-20s%5d%65535lf", "%=20s%=5d%=65535lf"], (b"plum tart".ljust(20) + b"   -7" + b"1.5".rjust(65535)) * 3),
    ("copy, long texts", ["copy", "%s;" * 16, "%65535[^;];" * 16], (b"z" * 60000 + b";") * 16),
    ("help", ["--help"], b""),
    ("version", ["--version"], b""),
    ("bad words", ["scan", "--limit", "x", "%d"], b""),
    ("a word of 131,000 bytes", ["x" * 131000], b""),
    ("bytes that are no text", [b"\xff" * 100000], b""),
    # (the system keeps 128 kB of stack ready behind the list of words; with many more words than this the stack has to
    # grow later, and where the system refuses that, no program hears of it)
    ("many words", ["print", "%d", *["1"] * 10000], b""),
]


# It costs less than a fork of this process, which a limit of our own would need.
PRLIMIT = shutil.which("prlimit")


def within(kilobytes, words, text):
    """The status, output and error text of a call within so many kB of address space."""
    room = kilobytes << 10
    if PRLIMIT:
        return program.run_command([PRLIMIT, f"--as={room}", program.path, *words], text)
    return program.run(*words, stdin=text, preexec_fn=lambda: limit(room))


def limit(room):
    resource.setrlimit(resource.RLIMIT_AS, (room, room))


def is_loaded(kilobytes, words):
    """Whether the system has room for the program and these words, before its first instruction: the loader tells."""
    told = {**os.environ, "LD_TRACE_LOADED_OBJECTS": "1"}
    return program.run(*words, stdin=b"", env=told, preexec_fn=lambda: limit(kilobytes << 10))[0] == 0


def least_start(words):
    """The least memory, in kB, with which a call with these words starts."""
    low, high = 0, MOST
    while high - low > FINE_STEP:
        middle = (low + high) // 2 // FINE_STEP * FINE_STEP
        low, high = (low, middle) if is_loaded(middle, words) else (middle, high)
    return high


def limits(words):
    """Those near the least that starts closely, the others in greater steps."""
    fine = range(least := least_start(words), least + FINE_STEP * FINE_STEPS, FINE_STEP)
    return [*fine, *range(fine[-1] + STEP, MOST, STEP), MOST]


def is_front_of_lines(front, text):
    return text.startswith(front) and (not front or front.endswith(b"\n"))


def end_fault(got, ample, words):
    """What is wrong with the end of a call with these words, if anything is."""
    if got == ample:
        return ""
    status, out, err = got
    told = err[: -len(NO_MEMORY)] if err.endswith(NO_MEMORY) else None
    # what was told of lines by then may stand before
    if status != 4 or told is None or told and not ("--keep-going" in words and is_front_of_lines(told, ample[2])):
        return f"{status}, {shown(err)}"
    if not ample[1].startswith(out):
        return f"no front: {shown(out)}"
    return "" if words[0] != "scan" or is_front_of_lines(out, ample[1]) else f"cut within a record: {shown(out)}"


def under(words, text):
    """A check of one call under each limit, and that more memory is never worse."""
    def check():
        ample = program.run(*words, stdin=text)
        if ample[0] == 4:
            return f"with ample memory: {shown(ample[2])}"
        enough = None
        for kilobytes in limits(words):
            got = within(kilobytes, words, text)
            fault = end_fault(got, ample, words)
            # (where the stack begins differs by some bytes from call to call, so that a page more may be wanted)
            if fault and not all(is_loaded(kilobytes, words) for _ in range(20)):
                continue
            if fault:
                return f"{kilobytes} kB: {fault}"
            if enough is not None and got != ample and kilobytes > enough + 4 * FINE_STEP:
                return f"{kilobytes} kB is worse than {enough} kB"
            enough = kilobytes if enough is None and got == ample else enough
        return "" if enough is not None else f"not even {MOST} kB are enough"
    return check


def checks():
    for name, words, text in CALLS:
        yield name, under(words, text)
