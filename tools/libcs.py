#!/usr/bin/env python3
"""Where the fscanf of C libraries differs from C11: writes docs/LIBCS.md.

usage: tools/libcs.py [--also NAME=COMPILER].. > docs/LIBCS.md

It tries 1,000 formats and inputs, always the same ones, by tools/libcs.c, which each library's compiler builds: gcc for
glibc, musl-gcc for musl. What C11 asks for is what tools/fscanf.py answers. Each difference is of one of CAUSES, each with
what C11 says of it; the script fails at any other. With --also a library more has a column.
"""
import argparse
import glob
import os
import random
import re
import shutil
import struct
import subprocess
import sys
import tempfile
from collections import namedtuple

sys.dont_write_bytecode = True
HERE = os.path.dirname(os.path.abspath(__file__))
sys.path.insert(0, HERE)

import fscanf  # noqa: E402
import scan_formats  # noqa: E402

COUNT = 1000
COMPILERS = {"glibc": "gcc", "musl": "musl-gcc"}

# ---- the formats and inputs

CHOSEN = [
    *((b"%x%s", b"0xg"), (b"%2x", b"0x1"), (b"%i", b"0x"), (b"%3c", b"ab"), (b"%*d%d", b"1"), (b"%*d%d", b"1 "), (b"%f", b"1e+"), (b"%f", b"100ergs")),
    *((b"%f%20s of %20s", b"100ergs of energy"), (b"%f%20s of %20s", b"-12.8degrees Celsius"), (b"%lf", b"0xa10970699cp-1083"), (b"%lf", b"nan(1)")),
    *((b"%lf", b"inch"), (b"%d%%%d", b"1 %2"), (b"%5[^a]", b"a"), (b"%[]x]", b"]x]y"), (b"%hhx", b"-1"), (b"%n%d", b" 7"), (b"%i", b"089"), (b"%d", b"-")),
]
LETTERS = "ddduioxXXxscn[[fffeag"
SIZES = ("", "", "", "hh", "h", "l", "ll", "j", "z", "t")
SETS = ("a-c", "^,", "0-9", "]a", "^]", "a-", "^ ", "-+.")
LITERALS = (",", ";", "a", "%%", " ", "-")
NUMBERS = "0 7 12 -3 +5 007 089 0x1F 0X 0xg 0x 127 - + --1 0- 0x1 -0x 0b1".split()
FLOATS = """1.5 -.5 1e5 1e 1e+ 1.e-3 . 0x1p4 0x.8p-1 0x 0x1p inf -INFINITY infi nan nan(a_1) nan( 100ergs 1e-400 1.17549435e-38 4.9e-324 0.1
    2.2250738585072011e-308 16777217 9007199254740993 1.5.2 1e5e5 -0 1e-45 0x.p1 in na -. +e1 2.4703282292062328e-324 0x1p-1074 0x0.8p-1074
    0x1.8p-149 8.5e-46 0x1.000001p0 0x1.0000010000001p0""".split()
TEXTS = "abc a ab,c ] a-c _x9 ab".split()
NOISE = ",; ax0-%"
PARTS = {"Int": NUMBERS, "Float": FLOATS, "Text": TEXTS, "Set": TEXTS, "Chars": TEXTS, "Count": [""], "Percent": ["%"], "Space": [" "]}


def conversion_of(chance):
    letter = chance.choice(LETTERS)
    star = "*" * (letter != "n" and chance.random() < 0.15)
    width = str(chance.choice((1, 2, 2, 3, 3, 4, 5, 7))) * (letter != "n" and chance.random() < 0.35)
    size = chance.choice(("", "l")) if letter in "feag" else "" if letter in "sc[" else chance.choice(SIZES)
    return f"%{star}{width}{size}{letter}" + (chance.choice(SETS) + "]") * (letter == "[")


def format_of(chance):
    return "".join(conversion_of(chance) if chance.random() < 0.75 else chance.choice(LITERALS) for _ in range(chance.randint(1, 3))).encode()


def directives_of(text):
    """The directives of a format of C11, whose `%i` takes no `0b`. (C11 has the floats that are of profile 3 here.)"""
    return [it._replace(base="Auto") if getattr(it, "base", None) == "AutoBin" else it for it in scan_formats.directives_of(text, 3)]


def input_of(chance, directives):
    parts = []
    for it in directives:
        parts.append(chr(it.byte) if isinstance(it, scan_formats.Byte) else chance.choice(PARTS[getattr(it, "shape", type(it).__name__)]))
        parts.append(chance.choice(NOISE) * (chance.random() < 0.1) + " " * (chance.random() < 0.2))
    text = "".join(parts)
    return text[: chance.choice((None, None, None, chance.randint(0, len(text))))].encode()


def pairs_of(seed, chosen, count):
    """The chosen formats with their inputs, and others by chance, each once."""
    chance, found = random.Random(seed), dict.fromkeys(chosen)
    while len(found) < count:
        text = format_of(chance)
        found[text, input_of(chance, directives_of(text))] = None
    return list(found)


# ---- what a library answers, and what C11 asks for

# What fscanf returns, how many bytes it has consumed, and the values that it has stored, as texts.
Answer = namedtuple("Answer", "returned used values")
PACKED = {"i8": "<b", "i16": "<h", "i32": "<i", "i64": "<q", "u8": "<B", "u16": "<H", "u32": "<I", "u64": "<Q", "f32": "<f", "f64": "<d"}
UNTOUCHED = b"\xa5"


def built(compiler, room):
    """tools/libcs.c as a compiler builds it."""
    program = os.path.join(room, re.sub(r"\W", "_", compiler))
    subprocess.run([*compiler.split(), "-std=c11", "-O1", "-w", "-o", program, os.path.join(HERE, "libcs.c")], check=True)
    return program


def version_of(name, program):
    """The library's name, with its version where it says so: glibc in its headers, musl by its loader."""
    said = subprocess.run([program, "--version"], capture_output=True, text=True, check=False).stdout.strip()
    for loader in glob.glob("/lib/ld-musl-*.so.1") if name == "musl" else ():
        version = re.search(r"Version (\S+)", subprocess.run([loader], capture_output=True, text=True, check=False).stderr)
        said = f"musl {version[1]}" if version else said
    return said or name


def shown(value):
    return scan_formats.quoted(value) if isinstance(value, bytes) else str(value)


def value_at(directive, place):
    """What a destination holds; a text ends before its NUL, or where c has stored no more."""
    if directive.kind == "text":
        return place.split(UNTOUCHED)[0].split(b"\0" if directive.shape != "Chars" else UNTOUCHED)[0]
    return struct.unpack_from(PACKED[directive.kind], place)[0]


def answer_of(directives, returned, used, places):
    """A library's answer: the values of as many conversions as it returns, and those of each n that has stored one."""
    values, left = [], max(returned, 0)
    for it in scan_formats.destinations_of(directives):
        place = places[it.slot - 1]
        if it.shape == "Count" and place.startswith(UNTOUCHED) or it.shape != "Count" and left == 0:
            break
        left -= it.shape != "Count"
        values.append(shown(value_at(it, place)))
    return Answer(returned, used, values)


def answers(program, pairs):
    """What a library answers, pair by pair."""
    given = "".join(f"{text.hex()} {input_.hex()}\n" for text, input_ in pairs)
    said = subprocess.run([program], input=given, stdout=subprocess.PIPE, text=True, check=True).stdout
    for (text, _), line in zip(pairs, said.splitlines()):
        returned, used, *places = line.split(" ")
        yield answer_of(directives_of(text), int(returned), int(used), [bytes.fromhex(it) for it in places])


def due(text, input_):
    """What C11 asks for; None where it leaves that open, as a number that its type doesn't hold."""
    report = fscanf.run(directives_of(text), input_)
    return None if report.status == "OutOfRange" else Answer(fscanf.c_return(report), report.used, [shown(it) for _, it in report.values])


# ---- why they differ

# Each cause: its title, where C11 says what decides it, and that in our words.
CAUSES = {
    "prefix": ("`0x` without a digit", "7.21.6.2p9, p10", "The input item is the longest sequence within the width that matches or begins a match. "
               "`0x` begins `0x1`, so both bytes are the item. It is no integer, so the directive fails, and its bytes are read. Whether the width bounds "
               "what a prefix may begin, as in `%2x` of `0x1`, C11 leaves open; here it doesn't."),
    "numeral": ("A float that is cut short", "7.21.6.2p9, p10", "`1e+`, `100e`, `0x` and `0x1p` begin floats and are none: a matching failure, after which these "
                "bytes are read. `100ergs of energy` is among the examples of 7.21.6.2, where nothing is assigned."),
    "chars": ("Fewer bytes than `%3c` asks for", "7.21.6.2p12", "`c` matches as many bytes as its width says. Of fewer before the end of the input it is a matching "
              "failure, and nothing is counted."),
    "eof": ("EOF after a conversion that was suppressed", "7.21.6.2p16", "EOF is returned where the input ends before the first conversion has completed. `%*d` is a "
            "conversion too; after it the number of items assigned is returned, which is 0."),
    "word": ("The byte after a word that is cut short", "7.21.6.2p9", "`in`, `infi` and `na` begin `infinity` and `nan`, and are the item. The first byte after the item "
             "stays unread."),
    "nan": ("`nan` and parentheses", "7.21.6.2p12, 7.22.1.3p3", "A float has the form that `strtod` takes, and `nan(a_1)` is such a form. So it is the item, and of "
            "`nan(` a front is the item."),
    "value": ("A subnormal number in hexadecimal", "7.22.1.3p5", "The value of a hexadecimal float is rounded correctly, where the radix of the type is a power of 2."),
}


def is_word(item):
    """The item of a float that begins a word."""
    return fscanf.signed(item)[1][:1].lower() in (b"i", b"n")


def cause_of(directives, input_, ours, theirs):
    """Which of CAUSES makes an answer differ; None where none of them does."""
    at = 0
    for it in fscanf.steps(directives, input_):
        item = input_[at : at + it.bytes].lstrip()
        at += it.bytes
        shape, fails = getattr(it.directive, "shape", None), it.end == fscanf.MATCHING_FAILURE
        if shape == "Float" and b"(" in item:
            return "nan"
        if fails and item and shape in ("Int", "Chars"):
            return {"Int": "prefix", "Chars": "chars"}[shape] if shape == "Chars" or item[-1:].lower() == b"x" else None
        if fails and item and shape == "Float":
            return "word" if is_word(item) else "numeral"
    if ours._replace(returned=-1) == theirs and ours.returned == 0 and it.end == fscanf.INPUT_FAILURE:
        return "eof"
    is_hexadecimal = any(getattr(one, "shape", None) == "Float" for one in directives) and b"0x" in input_.lower()
    return "value" if ours[:2] == theirs[:2] and is_hexadecimal else None


def differences(pairs, theirs):
    """By cause, each pair on which some library differs, with all answers; and how many pairs C11 leaves open."""
    found, is_left_open = {it: [] for it in CAUSES}, 0
    for at, (text, input_) in enumerate(pairs):
        ours, others = due(text, input_), [it[at] for it in theirs]
        is_left_open += ours is None
        differing = [it for it in others if ours is not None and it != ours]
        causes = {cause_of(directives_of(text), input_, ours, it) for it in differing}
        if causes - {*CAUSES}:
            raise ValueError(f"no cause: {text} of {input_}: {ours}, {others}")
        for cause in causes:
            found[cause].append((text, input_, ours, others))
    return found, is_left_open


# ---- the page


def cell(answer):
    returned = "EOF" if answer.returned < 0 else str(answer.returned)
    return f"{returned}, used {answer.used}" + (": " + ", ".join(f"`{it}`" for it in answer.values)) * bool(answer.values)


def section(cause, rows, names):
    title, where, said = CAUSES[cause]
    yield from (f"## {title}", "", *wrapped(f"C11 {where}: {said}"), "")
    yield from ("| Format | Input | C11 | " + " | ".join(names) + " |", "|---" * (3 + len(names)) + "|")
    for text, input_, ours, others in rows:
        same = ["as C11" if it == ours else cell(it) for it in others]
        yield f"| `{scan_formats.quoted(text)}` | `{scan_formats.quoted(input_)}` | {cell(ours)} | " + " | ".join(same) + " |"
    yield ""


def wrapped(text):
    """The lines of a paragraph."""
    line = ""
    for word in text.split(" "):
        if line and len(line) + 1 + len(word) > 118:
            yield line
            line = word
        else:
            line = f"{line} {word}".strip()
    yield line


HEAD = """# Where C libraries differ from C11

```
fscanf(from, "%x%s", &number, text)    where 0xg stands next
    C11      returns 0: 0x is the input item, and no number
    glibc    returns 2: the number 0, and the text g
```

`tools/libcs.py` writes this page. It tries {count:,} formats and inputs, always the same ones, on the C libraries
below. What C11 asks for is what [tools/fscanf.py](../tools/fscanf.py) answers, the reference of
[fscanf on one page](FSCANF.md). Each difference is here, under what decides it. A row says what is returned, how many
bytes are read, and the values.
"""


def page(pairs, names, theirs):
    found, is_left_open = differences(pairs, theirs)
    yield from HEAD.format(count=len(pairs)).splitlines()
    compared = len(pairs) - is_left_open
    yield from ("", "| Library | Differs | Of |", "|---|---|---|")
    for turn, name in enumerate(names):
        wrong = sum(others[turn] != ours for rows in found.values() for _, _, ours, others in rows)
        yield f"| {name} | {wrong} | {compared} |"
    said = f"In the other {is_left_open} a number is out of the range of its type, which C11 leaves open (7.21.6.2p10)."
    yield from ("", *wrapped(said), "")
    for cause, rows in found.items():
        if rows:
            yield from section(cause, rows, names)


def page_of(compilers):
    """The text of the page, by these compilers, and the names of the libraries with their versions."""
    pairs = pairs_of(7216, CHOSEN, COUNT)
    with tempfile.TemporaryDirectory() as room:
        programs = {name: built(compiler, room) for name, compiler in compilers.items()}
        names = [version_of(name, program) for name, program in programs.items()]
        theirs = [list(answers(program, pairs)) for program in programs.values()]
    return "\n".join(page(pairs, names, theirs)).rstrip("\n") + "\n", names


def main():
    words = argparse.ArgumentParser(description=__doc__, formatter_class=argparse.RawDescriptionHelpFormatter)
    words.add_argument("--also", action="append", default=[], metavar="NAME=COMPILER", help="a library more")
    given = words.parse_args()
    compilers = {**COMPILERS, **dict(it.split("=", 1) for it in given.also)}
    lacking = [it for it in compilers.values() if not shutil.which(it.split()[0])]
    if lacking:
        sys.exit(f"there is no {' or no '.join(lacking)}")
    print(page_of(compilers)[0], end="")


if __name__ == "__main__":
    main()
