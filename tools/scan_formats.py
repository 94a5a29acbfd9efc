#!/usr/bin/env python3
"""Scan formats, read as docs/FORMATS.md says: the directives of a text, or its first fault.

usage: tools/scan_formats.py [--profile N] FORMAT

It prints what `sf show` prints: a line for each directive, and the count of the destinations with the sum of their widths.
A format that is refused is reported by its fault, with status 2. FORMAT has no escapes. It shares nothing with the program.
"""
import argparse
import os
import re
import sys
from collections import namedtuple

# The directives (C11 7.21.6.2p3). A conversion without a slot is suppressed. `lead` is what may stand before its item: Any is what C allows, white
# space, either sign and a prefix; Minus and Nothing are those of `!`; None is that of a letter that never has any of these. The first directive of a
# group says how many of the group come after it: a literal is one that Opens it, and a conversion has them in `opens`, which else is None.
Space = namedtuple("Space", "")
Byte = namedtuple("Byte", "byte")
Percent = namedtuple("Percent", "")
Opens = namedtuple("Opens", "literal more")
Conversion = namedtuple("Conversion", "letter shape base members kind width slot optional column lead opens", defaults=[None])

MOST_BYTES, MOST_WIDTH, MOST_SLOTS = 4096, 65535, 32
WHITE = frozenset(b"\t\n\v\f\r ")
SIGNED = {b"": "i32", b"hh": "i8", b"h": "i16"}
UNSIGNED = {b"": "u32", b"hh": "u8", b"h": "u16"}
SHAPES = {**dict.fromkeys("diuoxXb", "Int"), "s": "Text", "[": "Set", "c": "Chars", "n": "Count", **dict.fromkeys("aAeEfFgG", "Float")}
BASES = {"d": "Dec", "u": "Dec", "o": "Oct", "x": "Hex", "X": "Hex", "b": "Bin"}
OPENING = r"(?:(?P<number>[0-9]+)\$)?(?P<star>\*?)(?P<optional>%s)(?P<column>%s)(?P<strict>%s)(?P<width>[0-9]*)(?P<size>hh|h|ll|l|j|z|t|)"
OPENINGS = {it: re.compile((OPENING % ((r"\??", "=?", "!?") if it == 3 else ("", "", ""))).encode()) for it in (1, 2, 3)}


class Fault(Exception):
    """The first fault of a format, with its place."""

    def __init__(self, why, at):
        super().__init__(f"{why} at {at}")
        self.why, self.at = why, at


def letters_of(profile):
    return "diuoxXs[cn" + ("b" if profile >= 2 else "") + ("aAeEfFgG" if profile == 3 else "")


def refuse(*rules):
    """Refuses by the first of the rules that applies."""
    for applies, why, at in rules:
        if applies:
            raise Fault(why, at)


def kind_of(letter, size):
    """The kind of a letter with a length, in LP64 (C11 7.21.6.2p11); None where it has no such length."""
    shape = SHAPES[letter]
    if shape == "Float":
        return {b"": "f32", b"l": "f64"}.get(size)
    if shape in ("Int", "Count"):
        return SIGNED.get(size, "i64") if letter in "din" else UNSIGNED.get(size, "u64")
    return "text" if size == b"" else None


def judge_letter(profile, letter, opening, at):
    """The rules of the letter, and of what stands before it."""
    size, byte = opening["size"], letter.encode("latin-1")
    is_text, is_float = letter in "cs[", letter in "aAeEfFgG"
    refuse(
        (byte == b"\0", "F14 Nul", at),
        (letter in "mLpCS" or is_float and profile < 3, "F5 LeftOut", at),
        (letter not in letters_of(profile), "F4 UnknownLetter", at),
        (is_text and size == b"l", "F5 LeftOut", at),
        (is_text and size != b"" or is_float and size not in (b"", b"l"), "F6 BadLength", at),
        (letter == "n" and any(opening[it] for it in ("star", "width", "optional")), "F9 BadCount", at),
        (opening["column"] != b"" and (opening["width"] == b"" or letter in "cn"), "F20 BadMark", at),
        (letter in "c[n" and opening["strict"] != b"", "F20 BadMark", at),
    )


def lead_of(letter, is_strict):
    """What may stand before the item of a letter, with `!` or without; nothing is ever skipped before that of c, [ and n."""
    return None if letter in "c[n" else "Any" if not is_strict else "Nothing" if letter in "uoxXbs" else "Minus"


def scanlist(text, at):
    """The members of a scanlist, whose `[` stands at the place, and where it ends (C11 7.21.6.2p12)."""
    inside = at + 2 if text[at + 1 : at + 2] == b"^" else at + 1
    close = text.find(b"]", inside + 1)
    listed = text[inside : close if close >= 0 else len(text)]
    refuse((b"\0" in listed, "F14 Nul", inside + listed.find(b"\0")), (close < 0, "F7 OpenSet", at))
    members, here = set(), 0
    while here < len(listed):
        low = high = listed[here]
        if listed[here + 1 : here + 2] == b"-" and here + 2 < len(listed):
            high = listed[here + 2]
            refuse((high < low, "F8 BackwardRange", inside + here))
            here += 2
        members |= set(range(low, high + 1))
        here += 1
    return frozenset(set(range(256)) - members if inside == at + 2 else members), close + 1


def conversion(text, at, profile, earlier):
    """The conversion whose % stands at the place, where it ends, and its number, if it has one; `earlier` has those before it."""
    opening = OPENINGS[profile].match(text, at + 1)
    number, star, width, size = (opening[it] for it in ("number", "star", "width", "size"))
    refuse(
        (number is not None and not 1 <= int(number) <= MOST_SLOTS, "F11 BadNumber", at + 1),
        (number is not None and star, "F11 BadNumber", opening.start("star")),
        (width and int(width) == 0, "F2 ZeroWidth", opening.start("width")),
        (width and int(width) > MOST_WIDTH, "F3 TooWide", opening.start("width")),
        (opening.end() == len(text), "F1 Truncated", len(text)),
    )
    letter, end, members = chr(text[opening.end()]), opening.end() + 1, None
    judge_letter(profile, letter, opening, opening.end())
    if letter == "[":
        members, end = scanlist(text, opening.end())
    if not star:
        refuse(
            (any((it is None) != (number is None) for it in earlier), "F10 MixedNumbering", at),
            (number is None and len(earlier) >= MOST_SLOTS, "F16 TooManyDestinations", at),
        )
    slot = None if star else int(number) if number is not None else len(earlier) + 1
    base = BASES.get(letter, ("Auto" if profile == 1 else "AutoBin") if letter == "i" else None)
    bytes_ = int(width) if width else 1 if letter == "c" else None
    lead = lead_of(letter, opening["strict"] != b"")
    marks = bool(opening["optional"]), bool(opening["column"]), lead
    return Conversion(letter, SHAPES[letter], base, members, kind_of(letter, size), bytes_, slot, *marks), end, number


def can_open(it):
    """Whether a group may begin with the directive: with one that takes bytes of its own, and hasn't a `?`."""
    return isinstance(it, (Byte, Percent)) or isinstance(it, Conversion) and it.shape != "Count" and not it.optional


def opener(it, more):
    """The directive as the first of a group, which has so many after it."""
    return it._replace(optional=True, opens=more) if isinstance(it, Conversion) else Opens(it, more)


def directives_of(text, profile=1):
    """The directives of a format. Raises Fault with the first fault. `group` is the place of a group that is open; `first`, how many directives stand before it."""
    refuse((len(text) > MOST_BYTES, "F15 FormatTooLong", MOST_BYTES))
    found, numbers, places, at, group, first = [], [], [], 0, None, None
    while at < len(text):
        refuse((text[at] == 0, "F14 Nul", at))
        if profile == 3 and text[at : at + 3] == b"%?(":
            refuse((group is not None, "F21 BadGroup", at))
            group, first, at = at, len(found), at + 3
        elif profile == 3 and text[at : at + 2] == b"%)":
            refuse((group is None, "F21 BadGroup", at), (first == len(found), "F21 BadGroup", group))
            found[first] = opener(found[first], len(found) - first - 1)
            group, at = None, at + 2
        elif text[at] in WHITE:
            while at < len(text) and text[at] in WHITE:
                at += 1
            found.append(Space())
        elif text[at : at + 2] == b"%%":
            found.append(Percent())
            at += 2
        elif text[at] == ord("%"):
            directive, end, number = conversion(text, at, profile, numbers)
            found.append(directive)
            if directive.slot is not None:
                numbers.append(number)
                places.append((directive.slot, at))
            at = end
        else:
            found.append(Byte(text[at]))
            at += 1
        refuse((group is not None and first == len(found) - 1 and not can_open(found[first]), "F21 BadGroup", group))
    refuse((group is not None, "F21 BadGroup", group))
    if any(number is not None for number in numbers):
        slots = [slot for slot, _ in places]
        refuse(*((slot in slots[:turn], "F12 NumberTwice", place) for turn, (slot, place) in enumerate(places)))
        refuse(*((slot > len(slots), "F13 NumberGap", place) for slot, place in places))
    return found


def quoted(text):
    """Bytes between quotes, as the program shows them."""
    one = {34: '\\"', 92: "\\\\"}
    return '"' + "".join(one.get(it) or (chr(it) if 32 <= it < 127 else f"\\x{it:02x}") for it in text) + '"'


def destinations_of(directives):
    return [it for it in directives if isinstance(it, Conversion) and it.slot is not None]


def more_of(it):
    """How many directives of its group come after the one that opens it; None of one that opens none."""
    return it.more if isinstance(it, Opens) else it.opens if isinstance(it, Conversion) else None


def groups_of(directives):
    """The number of the group of each directive, counted from 1, and 0 of one that is in none."""
    group = left = 0
    for it in directives:
        more = more_of(it)
        group, left = (group, max(left - 1, 0)) if more is None else (group + 1, more + 1)
        yield group if left else 0


def shown(directives):
    """The lines of `sf show`."""
    for number, (it, group) in enumerate(zip(directives, groups_of(directives)), 1):
        if isinstance(it, Conversion):
            width, slot = ("-" if one is None else one for one in (it.width, it.slot))
            members = f" members {len(it.members)}" if it.shape == "Set" else ""
            marks = " optional" * (it.optional and it.opens is None) + " column" * it.column + " strict" * (it.lead in ("Minus", "Nothing"))
            letter = "f" if it.shape == "Float" else it.letter.lower()
            said = f"{letter} {it.kind} width {width} slot {slot}{members}{marks}"
        else:
            it = it.literal if isinstance(it, Opens) else it
            said = f"byte {quoted(bytes([it.byte]))}" if isinstance(it, Byte) else type(it).__name__.lower()
        yield f"{number} {said}" + f" group {group}" * (group > 0)
    held = [it.width for it in destinations_of(directives) if it.shape not in ("Int", "Count")]
    yield f"destinations {len(destinations_of(directives))}, width sum {'-' if None in held else sum(held)}"


def main():
    words = argparse.ArgumentParser(description=__doc__, formatter_class=argparse.RawDescriptionHelpFormatter)
    words.add_argument("--profile", type=int, choices=(1, 2, 3), default=1)
    words.add_argument("format")
    given = words.parse_args()
    try:
        print(*shown(directives_of(os.fsencode(given.format), given.profile)), sep="\n")
    except Fault as fault:
        print(f"scan format: {fault}", file=sys.stderr)
        return 2
    return 0


if __name__ == "__main__":
    sys.exit(main())
