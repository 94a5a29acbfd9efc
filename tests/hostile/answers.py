"""What a call answers, and which endings are documented."""
import re

import program

WRITE_FAULT = b"sf: write fault\n"
NO_MEMORY = b"sf: out of memory\n"

KIND = rb"(?:[iu](?:8|16|32|64)|one byte)"

# The lines on standard error, each with its exit status: the table of docs/FORMATS.md.
LINES = [
    (rb"(?:(?:scan|print) format|value \d+): bad escape at \d+", 2),
    (rb"(?:scan|print) format: F\d+ [A-Za-z]+ at \d+", 2),
    (rb"pair: Q\d+ [A-Za-z]+ at \d+", 2),
    (rb"expected \d+ values, got \d+", 2),
    (rb"value \d+: expected " + KIND, 2),
    (rb"text too long", 2),
    (rb"record \d+: (?:matching failure|input failure|out of range|too long) at \d+, used \d+, assigned \d+", 1),
    (rb"record \d+: (?:stalled|values do not fit)", 1),
    (rb"too many records", 1),
    (rb"line \d+: (?:matching failure|input failure|out of range) at \d+, used \d+, assigned \d+", 1),
    (rb"line \d+: (?:left over at \d+|too long)", 1),
    (rb"too many lines", 1),
    (rb"record \d+: read fault", 3),
    (rb"line \d+: read fault", 3),
    (rb"write fault", 3),
    (rb"out of memory", 4),
]


def status_of(line):
    """The exit status that the documents give for a line on standard error, or None."""
    for text, status in LINES:
        if re.fullmatch(rb"sf: " + text, line):
            return status
    return None


def is_documented(status, out, err):
    """Whether a call may end so: the words are good ones, and standard error can be read."""
    if not err:
        return status == 0 or status == 1 and out.startswith(b"refused: ")
    lines = err.split(b"\n")
    if lines.pop() or not lines or len(lines) > 2:
        return False
    # a write fault at the end comes behind another line, and its status stands
    if len(lines) == 2 and lines[1] != WRITE_FAULT[:-1]:
        return False
    return status == status_of(lines[-1]) and status_of(lines[0]) is not None


def shown(text):
    told = repr(text)
    return told if len(told) < 200 else f"{told[:90]}..{told[-90:]} ({len(text)} bytes)"


def difference(got, want):
    """How what a call answered differs from what it must answer, if it does."""
    parts = zip(("status", "standard output", "standard error"), got, want)
    return "; ".join(f"{name}: {shown(is_)}, must be {shown(due)}" for name, is_, due in parts if is_ != due)


def answers(*words, out=b"", err=b"", status=0, **how):
    """A check that a call answers this, and nothing else."""
    if isinstance(err, str):
        err = f"sf: {err}\n".encode()
    return lambda: difference(program.run(*words, **how), (status, out, err))


def escaped(text):
    """The bytes as a word of the command: each one that is no letter or digit by its number."""
    return "".join(chr(it) if chr(it).isalnum() and it < 128 else f"\\x{it:02x}" for it in text)


def quoted(text):
    """A text as `sf scan` shows it: between quotes, printable bytes as they are, others by their number."""
    one = {34: rb"\"", 92: rb"\\"}
    return b'"' + b"".join(one.get(it) or (bytes([it]) if 32 <= it < 127 else b"\\x%02x" % it) for it in text) + b'"'
