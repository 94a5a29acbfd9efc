"""Random pairs of formats of profile 3, with columns, strict conversions and groups, beside a reading of the pair check in docs/FORMATS.md, and values
printed and read back.

The reading makes lists of bytes where the program walks, and takes the texts of floats from the C library.
"""
import json
import random
import struct

import program
from answers import difference
from float_texts import finite_double, printed_by_c
from float_texts import number_of as float_of

DIGITS, SPACES, ALL = set(b"0123456789"), set(b" \t\n\v\f\r"), set(range(256))
HEXADECIMAL = DIGITS | set(b"abcdefABCDEF")
NAMES = {1: "NotAligned", 2: "KindDiffers", 3: "NumberDiffers", 4: "NoWidth", 5: "TooNarrow", 6: "RunsOn", 7: "OpenEnd", 8: "LeadingZero", 9: "NotWritten", 10: "BadFlagHere", 11: "NoValues", 13: "MayBeMissing", 14: "BadMark"}
FLAGS = {"d": "-+ 0", "i": "-+ 0", "u": "-0", "o": "-#0", "x": "-#0", "X": "-#0", "s": "-", "c": "-"} | {it: "-+ #0" for it in "fFeEgGaA"}
SIZES = {"hh": 8, "h": 16, "": 32, "l": 64}
SETS = {"a-c": set(b"abc"), "^,": ALL - {44}, "^ ": ALL - {32}, "0-9": DIGITS, "^\\n": ALL - {10}}


def sort_of(letter):
    return "integer" if letter in "diuoxX" else "float" if letter in "fFeEgGaA" else letter


class Print:
    """A conversion of a print format."""

    def __init__(self, rng, letter):
        self.letter, self.slot = letter, 0
        self.flags = "".join(it for it in FLAGS[letter] if rng.random() < (0.04 if it == "-" else 0.15))
        self.width = rng.choice((0, 0, 0, 1, 4, 8, 12))
        self.precision = rng.choice((None, None, None, 0, 1, 3, 17)) if letter != "c" else None
        self.length = rng.choice(list(SIZES)) if sort_of(letter) == "integer" else rng.choice(("", "l")) if sort_of(letter) == "float" else ""

    def text(self):
        precision = "" if self.precision is None else f".{self.precision}"
        return f"%{self.flags}{self.width or ''}{precision}{self.length}{self.letter}"

    def kind(self):
        if sort_of(self.letter) != "integer":
            return "f64" if sort_of(self.letter) == "float" else "text"
        return ("i" if self.letter in "di" else "u") + str(SIZES[self.length])

    def of(self, value):
        """The text of a value, by the C library where it is a float."""
        if sort_of(self.letter) == "float":
            return printed_by_c(self.text().replace("l", ""), value)
        if sort_of(self.letter) != "integer":
            text = value if self.precision is None else value[: self.precision]
            return text.ljust(self.width) if "-" in self.flags else text.rjust(self.width)
        base = {"o": "o", "x": "x", "X": "X"}.get(self.letter, "d")
        digits = format(abs(value), base).rjust(1 if self.precision is None else self.precision, "0")
        digits = "" if not value and self.precision == 0 else digits
        if "#" in self.flags and base == "o" and digits[:1] != "0":
            digits = "0" + digits
        sign = "-" if value < 0 else "+" if "+" in self.flags else " " if " " in self.flags else ""
        sign += "0" + base if "#" in self.flags and base in "xX" and value else ""
        if "-" in self.flags:
            return (sign + digits).ljust(self.width).encode()
        if "0" in self.flags and self.precision is None:
            return (sign + digits.rjust(self.width - len(sign), "0")).encode()
        return (sign + digits).rjust(self.width).encode()

    def pads_with_zeros(self):
        """Whether zeros come before the digits, and no blanks before all."""
        return "0" in self.flags and "-" not in self.flags and (self.precision is None or sort_of(self.letter) == "float")

    def bare_bytes(self):
        """What the text of a number may begin with, without the blanks before it."""
        signed = self.letter in "di" or sort_of(self.letter) == "float"
        if not signed:
            return {"o": set(b"01234567"), "x": HEXADECIMAL, "X": HEXADECIMAL}.get(self.letter, DIGITS)
        return set(b"+-") if "+" in self.flags else set(b" -") if " " in self.flags else DIGITS | set(b"-")

    def first_bytes_in(self, column):
        """The same of a text that is a column."""
        if self.letter in "sc":
            inked = {"s": ALL - SPACES, "[": SETS.get(column.members, ALL) - SPACES}.get(column.letter, set()) if self.letter == "s" else set()
        else:
            inked = self.bare_bytes()
        is_filled = inked and self.width and not column.strict and "-" not in self.flags and not self.pads_with_zeros()
        return inked | ({32} if is_filled else set())

    def first_bytes(self, after):
        """What its text may begin with, where this scan directive is the next one."""
        if isinstance(after, Scan) and after.column and not after.suppressed:
            return self.first_bytes_in(after)
        if self.letter in "sc":
            letter = after.letter if isinstance(after, Scan) and not after.suppressed else None
            if self.letter == "s" and letter == "s":
                return ALL - SPACES | ({32} if self.width else set())
            if self.letter == "s" and letter == "[":
                return SETS[after.members]
            return ALL if letter == "c" else set()
        return self.bare_bytes() | ({32} if self.width and not self.pads_with_zeros() else set())


class Scan:
    """A conversion of a scan format."""

    def __init__(self, rng, unit):
        letters = {"integer": {"d": "di", "i": "di"}.get(unit.letter, unit.letter), "float": "fega", "s": "s[c", "c": "c"}[sort_of(unit.letter)]
        self.letter = rng.choice(letters) if rng.random() < 0.96 else rng.choice("duoxfs[cn")
        self.suppressed, self.optional = rng.random() < 0.02, self.letter != "n" and rng.random() < 0.03
        self.width = None if self.letter == "n" or rng.random() < 0.06 else 1 if self.letter == "c" and rng.random() < 0.9 else rng.choice((1, 2, 3, 8, 8, 11, 12, 20, 25, 30, 30, 350))
        self.length = unit.length if rng.random() < 0.97 else rng.choice(("", "l"))
        if sort_of(self.letter) == "float":
            self.length = "l" if rng.random() < 0.97 else ""
        elif sort_of(self.letter) != "integer":
            self.length = ""
        self.members = rng.choice(list(SETS)) if self.letter == "[" else ""
        self.slot = 0
        self.column, self.strict = self.letter not in "cn" and rng.random() < 0.3, self.letter not in "[cn" and rng.random() < 0.2
        if self.column:
            unit.width = unit.width or rng.choice((0, 1, 4, 8, 12, 24))
            self.width = unit.width if unit.width and rng.random() < 0.95 else rng.choice((1, 4, 8, 12))
            unit.flags += "0" * ("0" not in unit.flags and "0" in FLAGS[unit.letter] and self.strict and rng.random() < 0.7)
        if self.letter == "n":
            self.suppressed = False

    def text(self):
        ending = f"[{self.members}]" if self.letter == "[" else self.letter
        marks = "*" * self.suppressed + "?" * self.optional + "=" * self.column + "!" * self.strict
        return f"%{marks}{self.width or ''}{self.length}{ending}"

    def kind(self):
        sort = sort_of(self.letter)
        if sort != "integer" and self.letter != "n":
            return ("f64" if self.length == "l" else "f32") if sort == "float" else "text"
        return ("i" if self.letter in "din" else "u") + str(SIZES[self.length])


class Dropped:
    """`%*1[..]` or `%*c`, which reads one byte and drops it."""

    def __init__(self, members):
        self.members = members

    def text(self):
        return f"%*1[{self.members}]" if self.members else "%*c"

    def has(self, byte):
        return not self.members or byte in self.members.replace("\\n", "\n").encode()


def drawn(rng):
    """A print format and a scan format that may read it back: lists of bytes, None for white space, and conversions."""
    prints, scans = [], []
    for _ in range(rng.randint(1, 4)):
        unit = Print(rng, rng.choice("ddiuoxXfffeegaGEFAssc"))
        prints.append(unit)
        scans.append(Scan(rng, unit))
        if rng.random() < 0.85:
            byte = rng.choice(b",;  \nax:-.e")
            prints.append(byte)
            scans.append(byte if byte not in SPACES and rng.random() < 0.8 else Dropped(rng.choice(("", chr(byte).replace("\n", "\\n"), ",;"))) if rng.random() < 0.6 or byte not in SPACES else None)
    if rng.random() < 0.08:
        (prints if rng.random() < 0.5 else scans).pop(rng.randrange(len(prints)))
    for formats in (prints, scans):
        for slot, it in enumerate([it for it in formats if isinstance(it, (Print, Scan)) and not getattr(it, "suppressed", False)], 1):
            it.slot = slot
    scans = [it for at, it in enumerate(scans) if it is not None or not at or scans[at - 1] is not None]
    return prints, scans


def opens(it):
    """Whether a group may begin with it."""
    return it is not None and not (isinstance(it, Scan) and (it.optional or it.letter == "n"))


def group_in(rng, scans):
    """Which of the directives are in a group: mostly none."""
    firsts = [at for at, it in enumerate(scans) if opens(it)] if rng.random() < 0.06 else []
    first = rng.choice(firsts) if firsts else 0
    return range(first, rng.randint(first + 1, len(scans))) if firsts else range(0)


def written(formats, group=range(0)):
    shown = [it.text() if not isinstance(it, (int, type(None))) else " " if it is None else chr(it).replace("\n", "\\n") for it in formats]
    return "".join("%?(" * (at == group.start and bool(group)) + it + "%)" * (at == group.stop - 1 and bool(group)) for at, it in enumerate(shown))


def least_text(unit):
    return len(unit.of(0.0 if sort_of(unit.letter) == "float" else 0).lstrip(b" "))


def pairs_letters(unit, it):
    a, b = unit.letter, it.letter
    if "float" in (sort_of(a), sort_of(b)):
        return sort_of(a) == sort_of(b)
    return b in {"d": "di", "i": "di", "u": "u", "o": "o", "x": "xX", "X": "xX", "s": "s[c", "c": "c"}[a]


def stop_set(unit, it):
    """The bytes with which the item may go on."""
    if it.letter in "s[":
        return ALL - SPACES if it.letter == "s" else SETS[it.members]
    if sort_of(it.letter) == "float":
        letter, prefix = unit.letter.lower(), set() if it.strict else set(b"xX")
        if letter in "ea":
            return DIGITS
        if letter == "f":
            return DIGITS | set(b"eE") if unit.precision != 0 or "#" in unit.flags else DIGITS | set(b".eE") | prefix
        return DIGITS | set(b".eE") | prefix
    least_is_zero = unit.of(0).lstrip(b" ") == b"0" and not it.strict
    return {"o": set(b"01234567"), "x": HEXADECIMAL | (set(b"xX") if least_is_zero else set()), "i": DIGITS | set(b"xXbB")}.get(it.letter.lower(), DIGITS)


def suits(unit, it):
    """Whether the marks of one suit what the other prints."""
    if it.column and unit.width != it.width:
        return False
    if not it.strict:
        return True
    if set("+ #") & set(unit.flags) or unit.letter in "aA":
        return False
    return it.letter == "s" or unit.pads_with_zeros() if it.column else not unit.width


def conversion_fault(unit, it, rest, after):
    """The number of the fault of one conversion, or 0."""
    sort = sort_of(unit.letter)
    if not suits(unit, it):
        return 14
    if unit.kind() != it.kind() or not pairs_letters(unit, it):
        return 2
    if unit.slot != it.slot:
        return 3
    if it.column:
        return 8 if it.letter == "i" and (unit.pads_with_zeros() or (unit.precision or 0) > 1) else 0
    if "-" in unit.flags or sort == "integer" and unit.precision == 0 or unit.letter == "s" and unit.precision is not None or unit.letter == "s" and unit.width and it.letter in "[c" or unit.letter == "c" and (unit.width or (it.width or 1) != 1):
        return 10
    if it.letter != "c" and it.width is None:
        return 4
    if sort in ("integer", "float") and least_text(unit) > it.width:
        return 5
    if it.letter == "i" and (unit.pads_with_zeros() or (unit.precision or 0) > 1):
        return 8
    if it.letter == "c" or it.width == (least_text(unit) if sort in ("integer", "float") else 1):
        return 0
    if not rest:
        return 7
    first = rest[0].first_bytes(after) if isinstance(rest[0], Print) else {rest[0]}
    return 6 if first & stop_set(unit, it) else 0


def verdict(prints, scans, group):
    """What `sf check` must say, where so many of the directives are a group."""
    left, assigned = list(prints), False
    for at, it in enumerate(scans, 1):
        after = scans[at] if at < len(scans) else None
        fault = 0
        if isinstance(it, Scan) and it.letter == "n":
            fault = 9
        elif isinstance(it, Scan) and it.optional or at - 1 in group:
            fault = 13
        elif isinstance(it, int):
            fault = 0 if left and left[0] == it else 1
            left = left[1:]
        elif it is None:
            run = next((count for count, unit in enumerate(left) if isinstance(unit, Print) or unit not in SPACES), len(left))
            left, fault = left[run:], 0 if run else 1
            if not fault and not left:
                fault = 7
            elif not fault and isinstance(after, Scan) and not after.suppressed and (after.letter in "[c" or after.column or after.strict):
                first = left[0].first_bytes(after) if isinstance(left[0], Print) else {left[0]}
                fault = 6 if first & SPACES else 0
        elif isinstance(it, Dropped) or it.suppressed:
            one = isinstance(it, Dropped) or it.letter == "c" and (it.width or 1) == 1 or it.letter == "[" and it.width == 1 and not it.column
            has = one and left and isinstance(left[0], int) and (it.has(left[0]) if isinstance(it, Dropped) else it.letter == "c" or left[0] in SETS[it.members])
            fault, left = 0 if has else 1, left[1:]
        elif not left or not isinstance(left[0], Print):
            fault = 1
        else:
            fault, left, assigned = conversion_fault(left[0], it, left[1:], after), left[1:], True
        if fault:
            return f"refused: Q{fault} {NAMES[fault]} at {at}\n"
    if left:
        return f"refused: Q1 NotAligned at {len(scans) + 1}\n"
    return "accepted\n" if assigned else "refused: Q11 NoValues at 0\n"


def value_for(rng, unit, it):
    """A value that may fit."""
    if sort_of(unit.letter) == "float":
        return rng.choice((finite_double(rng), rng.uniform(-99, 99), rng.randint(-999, 999) / 8, 0.0, -0.0, 1e22))
    if sort_of(unit.letter) == "integer":
        bits = SIZES[unit.length]
        least, most = (-(2 ** (bits - 1)), 2 ** (bits - 1) - 1) if unit.letter in "di" else (0, 2**bits - 1)
        return rng.choice((rng.randint(least, most), rng.randint(max(least, -99), 99), 0, most, least))
    letters = sorted((SETS[it.members] if it.letter == "[" else ALL) & set(b"abcxyz019,;:") or {97})
    if it.column and it.letter == "s":
        letters.append(32)
    count = it.width or 1 if it.letter == "c" or it.column and it.strict else rng.randint(1, min(it.width, 9))
    return bytes(rng.choices(letters, k=count))


def stands(unit, it, value):
    """Whether the value stands in the column that is printed of it."""
    text = unit.of(value)
    if len(text) != it.width:
        return False
    if sort_of(unit.letter) == "integer":
        return bool(set(text) & HEXADECIMAL)
    if sort_of(unit.letter) == "float":
        return struct.pack("<d", float_of(text.strip(b" "), True)) == struct.pack("<d", value)
    is_whole = len(value) == it.width and b" " not in value if it.strict else value.strip(b" ") == value != b""
    return is_whole and (unit.precision is None or len(value) <= unit.precision)


def fits(unit, it, value):
    if it.column:
        return stands(unit, it, value)
    text = unit.of(value)
    if sort_of(unit.letter) not in ("integer", "float"):
        return True
    core = text.lstrip(b" ")
    return len(core) <= it.width and (sort_of(unit.letter) == "integer" or struct.pack("<d", float_of(core, True)) == struct.pack("<d", value))


def read_back(rng, prints, scans):
    """What is wrong with one text that is printed by a pair and read back, whatever follows, if anything is."""
    both = [(unit, next(it for it in scans if isinstance(it, Scan) and it.slot == unit.slot)) for unit in prints if isinstance(unit, Print)]
    values = [value_for(rng, unit, it) for unit, it in both]
    if not all(fits(unit, it, value) for (unit, it), value in zip(both, values)):
        return ""
    text = b"".join(it.of(value) if isinstance(it, Print) else bytes([it]) for it, value in merged(prints, values))
    after = rng.choice((b"", b"0", b"x", b" ", b".", b"e5", b"\n7"))
    status, out, err = program.run("scan", "--profile", "3", "--output", "json", "--", written(scans) + "%n", stdin=text + after)
    first = json.loads(out.splitlines()[0]) if out else err
    due = [it.decode() if isinstance(it, bytes) else it for it in values] + [len(text)]
    same = len(first) == len(due) and all(struct.pack("<d", is_) == struct.pack("<d", must) if isinstance(must, float) else is_ == must for is_, must in zip(first, due))
    return "" if same else f"{written(prints)!r} by {written(scans)!r}: {text!r} is read as {first}"


def merged(prints, values):
    values = iter(values)
    return [(it, next(values) if isinstance(it, Print) else None) for it in prints]


PAIRS = 25


def checked(seed):
    """A check of some pairs."""
    def check():
        rng = random.Random(f"pairs {seed}")
        for _ in range(PAIRS):
            prints, scans = drawn(rng)
            group = group_in(rng, scans)
            due = verdict(prints, scans, group)
            words = ("check", "--profile", "3", "--", written(prints), written(scans, group))
            fault = difference(program.run(*words), (0 if due == "accepted\n" else 1, due.encode(), b""))
            if fault:
                return f"{words[4:]}: {fault}"
            fault = read_back(rng, prints, scans) if due == "accepted\n" else ""
            if fault:
                return fault
        return ""
    return check


def checks():
    for seed in range(80):
        yield f"pairs {seed}", checked(seed)
