"""Random formats of profile 3, with values and groups that may be missing, columns and strict values, beside a reading of docs/FORMATS.md that shares nothing
with the program.

The reading takes the whole line at once, and finds each input item by halves, among the fronts that a pattern has; a column it cuts out, and a group it looks
at before it takes a byte of it. The program's JSON lines and its errors must be those of the reading. And random rows of the parts of formats, good ones and
bad ones: the reading lists all that is wrong with one, and takes what is met first.
"""
import json
import random
import re
import struct

import program
from answers import difference
from float_texts import MATCH as FLOAT, FRONT as FLOAT_FRONT, STRICT_MATCH as STRICT_FLOAT, STRICT_FRONT as STRICT_FLOAT_FRONT, number_of

SPACE = b" \t\n\v\f\r"
KINDS = {"hh": 8, "h": 16, "": 32, "l": 64, "ll": 64, "j": 64, "z": 64, "t": 64}

# What matches, and what begins a match, of each integer (a pattern of a front also has the empty text).
WHOLE = {
    "d": rb"[-+]?[0-9]+",
    "u": rb"[-+]?[0-9]+",
    "o": rb"[-+]?[0-7]+",
    "x": rb"[-+]?(?:0[xX])?[0-9a-fA-F]+",
    "b": rb"[-+]?(?:0[bB])?[01]+",
    "i": rb"[-+]?(?:[1-9][0-9]*|0[0-7]*|0[xX][0-9a-fA-F]+|0[bB][01]+)",
}
FRONT = {
    "d": rb"[-+]?[0-9]*",
    "u": rb"[-+]?[0-9]*",
    "o": rb"[-+]?[0-7]*",
    "x": rb"[-+]?(?:0[xX])?[0-9a-fA-F]*",
    "b": rb"[-+]?(?:0[bB])?[01]*",
    "i": rb"[-+]?(?:[1-9][0-9]*|0[0-7]*|0[xX][0-9a-fA-F]*|0[bB][01]*)?",
}
# The same under `!`: a minus before those of d and i, and nothing before the others.
STRICT_WHOLE = {
    "d": rb"-?[0-9]+",
    "u": rb"[0-9]+",
    "o": rb"[0-7]+",
    "x": rb"[0-9a-fA-F]+",
    "b": rb"[01]+",
    "i": rb"-?(?:[1-9][0-9]*|0[0-7]*|0[xX][0-9a-fA-F]+|0[bB][01]+)",
}
STRICT_FRONT = {
    "d": rb"-?[0-9]*",
    "u": rb"[0-9]*",
    "o": rb"[0-7]*",
    "x": rb"[0-9a-fA-F]*",
    "b": rb"[01]*",
    "i": rb"-?(?:[1-9][0-9]*|0[0-7]*|0[xX][0-9a-fA-F]*|0[bB][01]*)?",
}


class Conversion:
    """A conversion of a format, drawn at random; one that opens a group takes bytes, and has no `?`."""

    def __init__(self, rng, opens=False):
        self.letter = rng.choice("dduuxiobfffss[[[c" + "n" * (not opens))
        self.suppressed = self.letter != "n" and rng.random() < 0.15
        self.optional = not opens and self.letter != "n" and rng.random() < 0.6
        self.column = self.letter not in "cn" and rng.random() < 0.3
        self.strict = self.letter not in "[cn" and rng.random() < 0.3
        self.width = rng.randint(1, 6) if self.column or self.letter != "n" and rng.random() < 0.4 else None
        self.length = rng.choice(("", "l")) if self.letter == "f" else rng.choice(list(KINDS)) if self.letter in "duxiobn" else ""
        self.members = rng.choice((b"a-c", b"^,", b"0-9", b",", b"^ ", b".", b"ab,")) if self.letter == "[" else b""

    def text(self):
        marks = "*" * self.suppressed + "?" * self.optional + "=" * self.column + "!" * self.strict
        ending = f"[{self.members.decode()}]" if self.letter == "[" else self.letter
        return f"%{marks}{self.width or ''}{self.length}{ending}"

    def patterns(self):
        """What matches, and what begins a match."""
        if self.letter == "f":
            return (STRICT_FLOAT, STRICT_FLOAT_FRONT) if self.strict else (FLOAT, FLOAT_FRONT)
        if self.letter in WHOLE:
            whole, front = (STRICT_WHOLE, STRICT_FRONT) if self.strict else (WHOLE, FRONT)
            return re.compile(whole[self.letter]), re.compile(front[self.letter])
        member = rb"[%s]" % self.members if self.letter == "[" else rb"[^ \t\n\v\f\r]"
        if self.letter == "c":
            return re.compile(rb"(?s:.{%d})" % (self.width or 1)), re.compile(rb"(?s:.{0,%d})" % (self.width or 1))
        return re.compile(member + rb"+"), re.compile(member + rb"*")

    def item(self, text):
        least, most = 0, len(text) if self.width is None or self.letter == "c" else min(len(text), self.width)
        front = self.patterns()[1]
        while least < most:
            half = (least + most + 1) // 2
            least, most = (half, most) if front.fullmatch(text[:half]) else (least, half - 1)
        return text[:least]

    def take(self, rest):
        """How many bytes it uses, its item or the text in its column, and why that doesn't match, if it doesn't."""
        if self.column:
            column = rest[: self.width]
            text = column if self.strict else column.strip(SPACE)
            if not column.strip(SPACE):
                return len(column), b"", "matching" if column else "input"
            matches = self.letter == "s" and not self.strict or self.patterns()[0].fullmatch(text)
            return len(column), text, None if matches else "matching"
        skipped = 0 if self.letter in "[c" or self.strict else len(rest) - len(rest.lstrip(SPACE))
        item = self.item(rest[skipped:])
        if not item:
            return skipped, item, "matching" if rest[skipped:] else "input"
        return skipped + len(item), item, None if self.patterns()[0].fullmatch(item) else "matching"

    def value(self, item):
        """The value that a matching item has, or None where its kind doesn't hold it."""
        if self.letter == "f":
            return number_of(item, self.length == "l")
        if self.letter not in WHOLE:
            return item.decode()
        digits, bits, signed = item.lower().lstrip(b"+-"), KINDS[self.length], self.letter in "di"
        base = {"d": 10, "u": 10, "o": 8, "x": 16, "b": 2}.get(self.letter)
        if base is None:
            base = 16 if digits[:2] == b"0x" else 2 if digits[:2] == b"0b" else 8 if digits[:1] == b"0" else 10
        if base == 16 and digits[:2] == b"0x" or base == 2 and digits[:2] == b"0b":
            digits = digits[2:]
        size = int(digits, base)
        number = -size if item[:1] == b"-" else size
        if signed:
            return number if -(2 ** (bits - 1)) <= number < 2 ** (bits - 1) else None
        return number % 2**bits if size < 2**bits else None


PERCENT = "%%"


class Group:
    """A group that may be missing, drawn at random: its first directive takes bytes, and the others are what they are."""

    def __init__(self, rng):
        sort = rng.random()
        first = Conversion(rng, opens=True) if sort < 0.45 else PERCENT if sort < 0.55 else rng.choice(b",;.ax-")
        self.parts = [first, *(drawn_part(rng) for _ in range(rng.choice((0, 1, 1, 2, 2, 3))))]

    def text(self):
        return f"%?({text_of(self.parts)}%)"

    def lost(self, rest):
        """How many bytes are used of the rest where the group is missing: blanks that its first directive skips, or a blank column. None where it is there."""
        first, ink = self.parts[0], rest.lstrip(SPACE)
        if isinstance(first, Conversion):
            count, item, why = first.take(rest)
            return count if why and not item else None
        if first == PERCENT:
            return None if ink.startswith(b"%") else len(rest) - len(ink)
        return None if rest[:1] == bytes([first]) else 0

    def slots(self):
        return sum(isinstance(it, Conversion) and not it.suppressed for it in self.parts)


def drawn_part(rng):
    """A directive: a conversion, a byte, a percent sign or white space."""
    sort = rng.random()
    return Conversion(rng) if sort < 0.65 else rng.choice(b",;.ax-") if sort < 0.83 else PERCENT if sort < 0.86 else None


def drawn(rng):
    """A format: conversions, bytes, white space and groups, with a value and with no white space after another."""
    parts = [Group(rng) if rng.random() < 0.25 else drawn_part(rng) for _ in range(rng.randint(1, 7))]
    is_good = "  " not in text_of(parts) and any(it.slots() if isinstance(it, Group) else isinstance(it, Conversion) and not it.suppressed for it in parts)
    return parts if is_good else drawn(rng)


def text_of(parts):
    return "".join(" " if it is None else chr(it) if isinstance(it, int) else it if it == PERCENT else it.text() for it in parts)


class Failed(Exception):
    """A directive that fails: its place, why, the bytes used and the conversions assigned."""


class Reading:
    """A run over a line: how many directives are done, how many bytes they used and how many values they assigned, and the values."""

    def __init__(self, line):
        self.line, self.at, self.used, self.assigned, self.values = line, 0, 0, 0, []

    def fail(self, why):
        raise Failed(self.at, why, self.used, self.assigned)

    def read(self, parts):
        for it in parts:
            if isinstance(it, Group):
                self.group(it)
            else:
                self.at += 1
                self.directive(it, self.line[self.used :])

    def group(self, group):
        lost = group.lost(self.line[self.used :])
        if lost is None:
            return self.read(group.parts)
        self.used += lost
        self.at += len(group.parts)
        self.values += [None] * group.slots()

    def directive(self, it, rest):
        blanks = len(rest) - len(rest.lstrip(SPACE))
        if it is None:
            self.used += blanks
        elif it == PERCENT:
            self.used += blanks
            self.byte(ord("%"), rest[blanks:])
        elif isinstance(it, int):
            self.byte(it, rest)
        elif it.letter == "n":
            if self.used >= 2 ** (KINDS[it.length] - 1):
                self.fail("range")
            self.values.append(self.used)
        else:
            self.conversion(it, rest)

    def byte(self, byte, rest):
        if rest[:1] != bytes([byte]):
            self.fail("matching" if rest else "input")
        self.used += 1

    def conversion(self, it, rest):
        count, item, why = it.take(rest)
        self.used += count
        if why and (item or not it.optional):
            self.fail(why)
        if it.suppressed:
            return
        value = None if why else it.value(item)
        if value is None and not why:
            self.fail("range")
        self.values.append((it, value) if not why else None)
        self.assigned += not why


def run(parts, line):
    """The values and None, or None and what fails: its place, why, the bytes used and the conversions assigned."""
    reading = Reading(line)
    try:
        reading.read(parts)
    except Failed as failed:
        return None, failed.args
    return reading.values, None


WHY = {"matching": "matching failure", "input": "input failure", "range": "out of range"}


def is_written(value, shown):
    """Whether a value of a JSON line is the value."""
    if not isinstance(value, tuple):
        return shown == value and type(shown) is type(value)
    it, value = value
    if it.letter != "f":
        return shown == value and type(shown) is type(value)
    if value != value:
        return shown == "nan"
    if abs(value) == float("inf"):
        return shown == ("inf" if value > 0 else "-inf")
    kind = "<d" if it.length == "l" else "<f"
    return isinstance(shown, float) and struct.pack(kind, shown) == struct.pack(kind, value)


def parts_for(rng, parts):
    """The directives that a line is made for: mostly all, but groups are left out, or cut."""
    for it in parts:
        if not isinstance(it, Group):
            yield it
        elif rng.random() < 0.6:
            yield from it.parts[: rng.choice((None, None, None, None, rng.randint(0, len(it.parts))))]


def line_for(rng, parts):
    """A line that a format nearly matches."""
    line = b""
    for it in parts_for(rng, parts):
        at = len(line)
        if rng.random() < 0.12:
            line += rng.choice((b"", b" ", b"x", b"-", b"0x", b"1e"))
        if it is None:
            line += rng.choice((b"", b" ", b"  ", b"\t"))
        elif it == PERCENT:
            line += rng.choice((b"%", b"%", b" %", b"\t%", b""))
        elif isinstance(it, int):
            line += bytes([it])
        elif it.letter == "f":
            line += rng.choice((b"", b"1.5", b"-0", b" .25", b"1e400", b"3e38", b"4e38", b"inf", b"nan", b"0x1p-3", b"7", b"1e", b"1e-50"))
        elif it.letter in WHOLE:
            line += rng.choice((b"", b"0", b"7", b"-1", b"+12", b" 300", b"0x1F", b"070", b"0b11", b"99999999999", b"18446744073709551616", b"-128", b"255"))
        elif it.letter != "n":
            line += rng.choice((b"", b"a", b"abc", b"ab,", b"12", b" x", b".", b",", b"a.b c"))
        if isinstance(it, Conversion) and it.column and rng.random() < 0.8:
            line = line[:at] + rng.choice((bytes.ljust, bytes.rjust, bytes.center))(line[at : at + it.width], it.width)
    return line + rng.choice((b"", b"", b"", b" ", b"rest"))


LINES = 60


def scanned(seed):
    """A check of one format on many lines."""
    def check():
        rng = random.Random(f"missing {seed}")
        parts = drawn(rng)
        lines = [line_for(rng, parts) for _ in range(LINES)]
        status, out, err = program.run("scan", "--profile", "3", "--lines", "--keep-going", "--output", "json", "--", text_of(parts), stdin=b"".join(it + b"\n" for it in lines))
        shown, errors = [json.loads(it) for it in out.splitlines()], err.decode().splitlines()
        due = [run(parts, it) for it in lines]
        told = [f"sf: line {number}: {WHY[why]} at {at}, used {used}, assigned {assigned}" for number, (_, fault) in enumerate(due, 1) if fault for at, why, used, assigned in [fault]]
        passed = [(line, values) for line, (values, fault) in zip(lines, due) if not fault]
        if errors != told:
            return f"{text_of(parts)!r}: {next((it for it in zip(errors + [''], told + ['']) if it[0] != it[1]))}"
        if len(shown) != len(passed) or status != (1 if told else 0):
            return f"{text_of(parts)!r}: {len(shown)} records, must be {len(passed)}; status {status}"
        for (line, values), row in zip(passed, shown):
            if len(row) != len(values) or not all(map(is_written, values, row)):
                return f"{text_of(parts)!r} of {line!r}: {row}, must be {values}"
        return ""
    return check


# ---- parts in a row, and what is wrong with them

# Directives, each with what `sf show` says of it after its number: {} is its slot. `?` marks those that no group begins with.
DIRECTIVES = {"a": 'byte "a"', "(": 'byte "("', ")": 'byte ")"', "?": 'byte "?"', "%%": "percent", " ": "space?", "%d": "d i32 width - slot {}", "%*s": "s text width - slot -",
              "%?u": "u u32 width - slot {} optional?", "%*?c": "c text width 1 slot - optional?", "%n": "n i32 width - slot {}?", "%hhn": "n i8 width - slot {}?",
              "%=3x": "x u32 width 3 slot {} column", "%!o": "o u32 width - slot {} strict", "%?=!2i": "i i32 width 2 slot {} optional column strict?",
              "%[)]": "[ text width - slot {} members 1", "%2[(%?]": "[ text width 2 slot {} members 3", "%*=5lf": "f f64 width 5 slot - column"}
# The same with a number, and parts that are wrong by themselves: why, and at which of their bytes.
NUMBERED = {"%1$d": "d i32 width - slot 1", "%2$d": "d i32 width - slot 2", "%1$?d": "d i32 width - slot 1 optional?", "%3$hn": "n i16 width - slot 3?"}
WRONG = {"%?n": ("F9 BadCount", 2), "%*n": ("F9 BadCount", 2), "%?=d": ("F20 BadMark", 3), "%!c": ("F20 BadMark", 2), "%[z-a]": ("F8 BackwardRange", 2), "%?[z-a]": ("F8 BackwardRange", 3), "%q": ("F4 UnknownLetter", 1),
         "%*?(": ("F4 UnknownLetter", 3), "%?=(": ("F4 UnknownLetter", 3), "%1$?(": ("F4 UnknownLetter", 4), "%?)": ("F4 UnknownLetter", 2), "%(": ("F4 UnknownLetter", 1), "%*)": ("F4 UnknownLetter", 2),
         "%??(": ("F4 UnknownLetter", 2), "%0d": ("F2 ZeroWidth", 1), "%?0(": ("F2 ZeroWidth", 2), "%hhf": ("F6 BadLength", 3), "%Lf": ("F5 LeftOut", 1), "%?lc": ("F5 LeftOut", 3)}
OPEN, CLOSE = "%?(", "%)"
SHOWN = DIRECTIVES | NUMBERED


def row_of_parts(rng):
    """Parts of a format, in which most groups are good ones."""
    row, numbered = [], rng.random() < 0.15
    if rng.random() < 0.04:
        row, numbered = ["%d"] * rng.randint(29, 33), False
    them = list(NUMBERED if numbered else DIRECTIVES)
    firsts = [it for it in them if not SHOWN[it].endswith("?")]
    while not row or rng.random() < 0.75:
        choice = rng.random()
        if choice < 0.4:
            row.append(rng.choice(them if rng.random() < 0.95 else list(SHOWN)))
        elif choice < 0.45:
            row.append(rng.choice(list(WRONG)))
        elif choice < 0.97:
            inside = [rng.choice(firsts if rng.random() < 0.95 else them), *rng.choices(them, k=rng.choice((0, 1, 2)))] * (rng.random() < 0.97)
            row += [OPEN, *inside, *[CLOSE] * (rng.random() < 0.96)]
        else:
            row.append(rng.choice((OPEN, CLOSE)))
    return row if "  " not in "".join(row) else row_of_parts(rng)


def is_numbered(part):
    return part in NUMBERED


def has_slot(part):
    return "slot " in SHOWN.get(part, "") and "slot -" not in SHOWN[part]


def faults_of(row):
    """All that is wrong with a row of parts: after which of them it is met, in which order, why, and its place."""
    places = [len("".join(row[:at])) for at in range(len(row))]
    with_slots = [at for at, it in enumerate(row) if has_slot(it)]
    for at, it in enumerate(row):
        before = [other for other in with_slots if other < at]
        if it in WRONG:
            yield at, 0, WRONG[it][0], places[at] + WRONG[it][1]
        if at in with_slots and any(is_numbered(row[other]) != is_numbered(it) for other in before):
            yield at, 1, "F10 MixedNumbering", places[at]
        if at in with_slots and not is_numbered(it) and len(before) >= 32:
            yield at, 2, "F16 TooManyDestinations", places[at]
        marks = [other for other in range(at) if row[other] in (OPEN, CLOSE)]
        is_inside = bool(marks) and row[marks[-1]] == OPEN
        if it in (OPEN, CLOSE) and is_inside == (it == OPEN):
            yield at, 0, "F21 BadGroup", places[at]
        if is_inside and marks[-1] == at - 1 and (it == CLOSE or SHOWN.get(it, "").endswith("?")):
            yield at, 3, "F21 BadGroup", places[at - 1]
        if at == len(row) - 1 and (it == OPEN or is_inside and it != CLOSE):
            yield at, 4, "F21 BadGroup", places[at if it == OPEN else marks[-1]]
    if any(map(is_numbered, row)):
        slots = [(SHOWN[row[at]].partition("slot ")[2][0], places[at]) for at in with_slots]
        for turn, (slot, place) in enumerate(slots):
            if slot in [it for it, _ in slots[:turn]]:
                yield len(row), 5, "F12 NumberTwice", place
            if slot not in map(str, range(1, len(slots) + 1)):
                yield len(row), 6, "F13 NumberGap", place


def lines_of(row):
    """What `sf show` says of a row of parts in which nothing is wrong."""
    number = group = slot = 0
    is_inside, widths = False, []
    for it in row:
        if it in (OPEN, CLOSE):
            is_inside, group = it == OPEN, group + (it == OPEN)
            continue
        number, slot = number + 1, slot + has_slot(it)
        widths += ["" if "width - " in SHOWN[it] else it] * (has_slot(it) and it[-1] in "s]cf")
        yield f"{number} {SHOWN[it].removesuffix('?').format(slot)}" + f" group {group}" * is_inside
    yield f"destinations {slot}, width sum {'-' if '' in widths else 2 * len(widths)}"


def spelled(seed):
    """A check that the program shows rows of parts, or reports what is met first of all that is wrong with them."""
    def check():
        rng = random.Random(f"parts {seed}")
        for _ in range(40):
            row = row_of_parts(rng)
            faults = sorted(faults_of(row), key=lambda it: it[:2])
            due = (2, b"", f"sf: scan format: {faults[0][2]} at {faults[0][3]}\n".encode()) if faults else (0, "".join(it + "\n" for it in lines_of(row)).encode(), b"")
            fault = difference(program.run("show", "--profile", "3", "--", "".join(row)), due)
            if fault:
                return f"{''.join(row)!r}: {fault}"
        return ""
    return check


def checks():
    for seed in range(400):
        yield f"format {seed}", scanned(seed)
    for seed in range(20):
        yield f"parts {seed}", spelled(seed)
