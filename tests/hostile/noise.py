"""Formats, inputs and values by chance, always the same ones: each call ends as is documented, and the verbs agree.

A format that `sf show` refuses, `sf scan` refuses by the same line; a pair that `sf check` refuses, `sf copy` refuses so. A
scan that ends with record R has written R - 1 lines. An input that comes in pieces gives what the whole one gives.
"""
import os
import random
import re

import program
from answers import LINES, difference, is_documented, shown

ROUNDS = 120

SCANS = ["%d", "%5d", "%i", "%hhx", "%3s", "%s", "%c", "%2c", "%[a-c]", "%3[^,]", "%*d", "%*[ ]", "%n", "%hhn", "%u", "%lo", " ", ",", ";", "a", "\\n", "%%",
         "%2$d", "%1$s", "%1$2c", "%lld"]
PRINTS = ["%d", "%5d", "%-5d", "%+i", "%05u", "%.3d", "%#x", "%#o", "%s", "%.2s", "%c", "%2$d", "%1$s", " ", ",", ";", "a", "\\n", "%%", "%lld"]
BROKEN = ["%", "%q", "%0d", "%[", "%[z-a]", "\\", "\\q", "\\x00", "%33$d", "%99999d", "%.999d", "%f", "%hhs", "%*n", "%'d", "%+s", "%4294967297d", "%[^]", "\\xff"]
PIECES = [b"0", b"7", b"12", b"-3", b"+", b"0x", b"ff", b"abc", b"a", b",", b";", b" ", b"\n", b"\t", b"\0", b"\xff", b"%", b"99999999999999999999", b"300"]


def format_of(chance, parts):
    broken = chance.random() < 0.25
    chosen = [chance.choice(parts) for _ in range(chance.randrange(0, 6))]
    if broken:
        chosen.insert(chance.randrange(len(chosen) + 1), chance.choice(BROKEN))
    return "".join(chosen)


def text_of(chance):
    return b"".join(chance.choice(PIECES) for _ in range(chance.randrange(0, 40)))


def documented(got, *call):
    return "" if is_documented(*got) else f"{call}: {got[0]}, {shown(got[1])}, {shown(got[2])}"


def pieces(words, text, whole):
    """What differs where the input comes in two pieces."""
    running = program.start(*words)
    try:
        try:
            running.stdin.write(text[: len(text) // 2])
            running.stdin.flush()
            got = running.communicate(text[len(text) // 2 :], timeout=program.SECONDS)
        except BrokenPipeError:
            got = running.communicate(timeout=program.SECONDS)
    finally:
        program.end(running)
    return difference((running.returncode, *got), whole)


def scanned(seed):
    def check():
        chance = random.Random(seed)
        format_, text = format_of(chance, SCANS), text_of(chance)
        shows = program.run("show", "--", format_)
        scan = program.run("scan", "--", format_, stdin=text)
        fault = documented(shows, "show", format_) or documented(scan, "scan", format_, text)
        if fault:
            return fault
        if shows[0] == 2 or scan[0] == 2:
            return difference(scan, (2, b"", shows[2]))
        record = re.match(rb"sf: record (\d+): ", scan[2])
        if record and scan[1].count(b"\n") != int(record[1]) - 1:
            return f"{format_!r} of {text!r}: {scan}"
        return pieces(["scan", "--", format_], text, scan)
    return check


def copied(seed):
    def check():
        chance = random.Random(seed)
        print_, scan, text = format_of(chance, PRINTS), format_of(chance, SCANS), text_of(chance)
        checks_, copy = program.run("check", "--", print_, scan), program.run("copy", "--", print_, scan, stdin=text)
        fault = documented(checks_, "check", print_, scan) or documented(copy, "copy", print_, scan, text)
        if fault or checks_[0] == 0:
            return fault
        return difference(copy, (2, b"", checks_[2] or checks_[1].replace(b"refused: ", b"sf: pair: ")))
    return check


def printed(seed):
    def check():
        chance = random.Random(seed)
        format_ = format_of(chance, PRINTS)
        values = [chance.choice(["0", "-1", "42", "x", "300", "-99999999999", "ab", "\\n", "\\", ""]) for _ in range(chance.randrange(0, 4))]
        return documented(program.run("print", "--", format_, *values), "print", format_, values)
    return check


def lines_are_documented():
    """What is told on standard error stands in docs/FORMATS.md."""
    with open(os.path.join(program.ROOT, "docs", "FORMATS.md"), encoding="utf-8") as file:
        page = file.read()
    heads = ["bad escape at", "scan format: F", "pair: Q", "expected E values, got G", "value V: expected", "text too long", "matching failure at", "stalled",
             "values do not fit", "too many records", "read fault", "write fault", "out of memory", "input failure", "out of range", "too long",
             "sf: line N: matching failure at", "left over at", "sf: line N: read fault", "too many lines"]
    missing = [it for it in heads if it not in page]
    return f"not in the page: {missing}" if missing or len(LINES) != 16 else ""


def checks():
    yield "the lines are documented", lines_are_documented
    for seed in range(ROUNDS):
        yield f"scan {seed}", scanned(seed)
        yield f"copy {seed}", copied(seed)
        yield f"print {seed}", printed(seed)
