#!/usr/bin/env python3
"""fscanf, as docs/FSCANF.md says, in Python: the report of a format on a whole input.

usage: tools/fscanf.py [--profile N] [--limit N] FORMAT < INPUT

    $ printf '12,-7;' | tools/fscanf.py '%d,%d'
    fscanf returns 2; Done at 0, assigned 2, converted 2, used 5, met None
    slot 1: 12
    slot 2: -7

It is a reference: the definitions of the page are functions here, in its order. What reads FORMAT, which has no
escapes, is scan_formats.py. Both share nothing with the program.
"""
import argparse
import math
import os
import re
import sys
from collections import namedtuple
from fractions import Fraction
from functools import lru_cache

sys.dont_write_bytecode = True
sys.path.insert(0, os.path.dirname(os.path.abspath(__file__)))
getattr(sys, "set_int_max_str_digits", int)(0)

from scan_formats import Conversion, Fault, Opens, Percent, Space, WHITE, directives_of, more_of, quoted  # noqa: E402


def skip(x):
    """IsSkip: how many bytes of white space stand in front (p5, p8)."""
    return re.match(rb"[\t-\r ]*", x).end()


# ---- matching sequences of integers (p12; 7.22.1.4p3)

# The radix of an integer whose first digit isn't 0, of one whose first digit is 0, and after the letters of prefixes.
RADICES = dict(Dec=(10, 10, {}), Oct=(8, 8, {}), Hex=(16, 16, {b"x": 16}), Bin=(2, 2, {b"b": 2}))
RADICES |= dict(Auto=(10, 8, {b"x": 16}), AutoBin=(10, 8, {b"x": 16, b"b": 2}))
SIGNS = dict(Any=b"+-", Minus=b"-", Nothing=b"")  # has_plus, has_minus: those that may stand there


def number(radix, digits):
    """IsIntegerDigits: the number of one or more digits of the radix; None where these are none."""
    return int(digits, radix) if digits and not digits.lower().translate(None, b"0123456789abcdef"[:radix]) else None


def unsigned(base, body, lead):
    """IsUnsignedInteger, IsPrefixed, has_prefix: the magnitude of what follows the sign of an integer."""
    first, zero, prefixes = RADICES[base]
    if lead != "Nothing" and body[:1] == b"0" and body[1:2].lower() in prefixes:
        return number(prefixes[body[1:2].lower()], body[2:])
    return number(zero if body[:1] == b"0" else first, body)


def signed(s, lead="Any"):
    """IsIntegerSign: whether a minus stands in front; what follows an optional sign, of those allowed there."""
    return s[:1] == b"-", s[1:] if s[:1] in SIGNS[lead] else s


def integer(base, s, lead):
    """IsInteger: the sign and the magnitude of an integer of the base; no magnitude where it is none."""
    negative, body = signed(s, lead)
    return negative, unsigned(base, body, lead)


# ---- matching sequences of floats (p12; 7.22.1.3p3)

DECIMAL = re.compile(rb"([0-9]*)\.?([0-9]*)(?:[eE]([+-]?[0-9]+))?")
HEXADECIMAL = re.compile(rb"0[xX]([0-9a-fA-F]*)\.?([0-9a-fA-F]*)(?:[pP]([+-]?[0-9]+))?")
INFINITY = re.compile(rb"inf(?:inity)?", re.IGNORECASE)
NAN = re.compile(rb"nan(?:\([0-9A-Za-z_]*\))?", re.IGNORECASE)


def numeral(form, size):
    """IsNumeral: the digits before the point, those after it, and the exponent; None where there is no digit."""
    parts = form.fullmatch(size)
    return parts.groups() if parts and parts[1] + parts[2] else None


def is_float(s, lead):
    """IsFloat: a sign or none; a numeral, infinity or NaN. IsDecimalFloat, with !: a minus or none; a decimal one."""
    size = signed(s, lead)[1]
    is_other = numeral(HEXADECIMAL, size) or INFINITY.fullmatch(size) or NAN.fullmatch(size)
    return bool(numeral(DECIMAL, size) or lead == "Any" and is_other)


# ---- input items (p9)

# What makes a matching sequence of a front of a number, where anything does: a digit, or the end of a word.
TAILS = {"Int": [b"", b"0"], "Float": [b"", b"0", b")", b"nan", b"an", b"n", *(b"infinity"[at:] for at in range(8))]}


def are_members(c, s):
    """Each byte is of the set; of s, none is white space, but in a column without !, which may have it (Fills)."""
    return c.column and c.lead == "Any" or not s.translate(None, bytes(c.members or {*range(256)} - WHITE))


def matches(c, s):
    """Matches: s is a matching sequence of the conversion (p12)."""
    if c.shape == "Int":
        return integer(c.base, s, c.lead)[1] is not None
    if c.shape == "Float":
        return is_float(s, c.lead)
    return len(s) == c.width if c.shape == "Chars" else len(s) > 0 and are_members(c, s)


@lru_cache(4096)
def begins(c, f):
    """BeginsMatch: f is a matching sequence, or a front of one."""
    if c.shape in TAILS:
        return any(matches(c, f + tail) for tail in TAILS[c.shape])
    return len(f) <= c.width if c.shape == "Chars" else are_members(c, f)


def item(c, x):
    """IsItem, IsGreatest: the length of the longest front, within the width, that begins a match, as its fronts do."""
    least, most = 0, len(x[: c.width])
    while least < most:
        half = (least + most + 1) // 2
        least, most = (half, most) if begins(c, x[:half]) else (least, half - 1)
    return least


# ---- values (p10)

BITS = {"i8": 7, "i16": 15, "i32": 31, "i64": 63, "u8": 8, "u16": 16, "u32": 32, "u64": 64}  # beside the sign
FORMATS = {"f32": (24, -149, 128), "f64": (53, -1074, 1024)}  # bits, the last one's power of two, one too great


def value_of(kind, negative, m):
    """value_of: the value of a sign and a magnitude in a kind; None where the kind doesn't hold it."""
    n = BITS[kind]
    if kind[0] == "i":
        return None if m >= 2**n + negative else -m if negative else m
    return None if m >= 2**n else (2**n - m) % 2**n if negative else m


def nearest(kind, digits, base, power):
    """The number of the kind nearest to digits * base ** power, of two the even one; None where that is an infinity."""
    bits, least, most = FORMATS[kind]
    size = digits.bit_length() + max(-(10**12), min(power, 10**12)) * math.log2(base)
    if digits == 0 or not least - 10 <= size <= most + 10:
        return None if digits and size > most else 0.0
    exact = digits * Fraction(base) ** power
    top = exact.numerator.bit_length() - exact.denominator.bit_length()
    unit = Fraction(2) ** max(top - (exact < Fraction(2) ** top) - bits + 1, least)
    rounded = round(exact / unit) * unit
    return None if rounded >= 2**most else float(rounded)


def real(kind, s):
    """IsStored: the float that a matching sequence gives; None where a finite number is out of range."""
    negative, size = signed(s)
    if NAN.fullmatch(size) or INFINITY.fullmatch(size):
        return math.nan if NAN.fullmatch(size) else -math.inf if negative else math.inf
    form, radix, base, places = (HEXADECIMAL, 16, 2, 4) if numeral(HEXADECIMAL, size) else (DECIMAL, 10, 10, 1)
    whole, fraction, exponent = numeral(form, size)
    found = nearest(kind, int(whole + fraction, radix), base, int(exponent or b"0") - places * len(fraction))
    return None if found is None else -found if negative else found


def stored(c, s):
    """ItemStored: what an assigned conversion stores of a matching item; None where its kind doesn't hold it."""
    if c.shape == "Int":
        return value_of(c.kind, *integer(c.base, s, c.lead))
    return real(c.kind, s) if c.shape == "Float" else s


# ---- one directive (p4 to p10): how many bytes it consumes, and how it ends

PASSES, MISSES, OUT_OF_RANGE = ("Passes",), ("Misses",), ("Fails", "OutOfRange")
INPUT_FAILURE, MATCHING_FAILURE = ("Fails", "InputFailure"), ("Fails", "MatchingFailure")


def literal_step(d, x):
    """LiteralStep, ByteStep: the byte due is there, or another, or none (p6). PercentStep: after white space (p12)."""
    s, due = (skip(x), ord("%")) if isinstance(d, Percent) else (0, d.byte)
    return (s, INPUT_FAILURE) if s == len(x) else (s + 1, PASSES) if x[s] == due else (s, MATCHING_FAILURE)


def stores(c, value):
    """NumberStored, RealStored: the value goes to the slot, where there is one."""
    return OUT_OF_RANGE if value is None else ("Stores", c.slot, value)


def item_ends(c, x, j):
    """ItemEnds, EmptyItem: how a conversion ends whose item is x[:j] (p9, p10). ColumnEnds: whose text is."""
    if j == 0:
        return MISSES if c.optional else MATCHING_FAILURE if x else INPUT_FAILURE
    if not matches(c, x[:j]):
        return MATCHING_FAILURE
    return PASSES if c.slot is None else stores(c, stored(c, x[:j]))


def item_step(c, x):
    """ItemStep, IsSkipBefore: white space, where it is skipped (p8; with ! it isn't), and the item."""
    s = skip(x) if c.lead == "Any" else 0
    j = item(c, x[s:])
    return s + j, item_ends(c, x[s:], j)


def column_step(c, x):
    """ColumnStep, IsTextOf: the column, as wide as it may be, and how a conversion ends with the text in it, if any."""
    column, text = x[: c.width], x[: c.width].strip(bytes(WHITE))
    text = column if text and c.lead in ("Minus", "Nothing") else text
    return len(column), item_ends(c, text or column, len(text))


def step(d, x, n):
    """Step: on the remaining input x, after n bytes, how many the directive consumes, and how it ends."""
    if isinstance(d, Space):
        return skip(x), PASSES
    if isinstance(d, Opens):  # OpenerStep: where such a literal fails, it is missed, and may be
        k, end = literal_step(d.literal, x)
        return k, MISSES if end[0] == "Fails" else end
    if not isinstance(d, Conversion):
        return literal_step(d, x)
    if d.shape == "Count":
        return 0, PASSES if d.slot is None else stores(d, value_of(d.kind, False, n))
    return column_step(d, x) if d.column else item_step(d, x)


# ---- whole runs (p4, p16)

Ran = namedtuple("Ran", "directive at bytes end")
Report = namedtuple("Report", "status at assigned converted used met values")


def over(d, end):
    """over: how many directives after it are missing with it: of a missing one, the rest of the group that it opens."""
    return (more_of(d) or 0) if end == MISSES else 0


def steps(directives, x, n=0):
    """Steps, StepsPast: the directives that run after n bytes of x, to the first that fails, each on what is left."""
    ran, m = [], 0
    for d in directives:
        k, end = (0, MISSES) if m else step(d, x[n:], n)  # left_out: it is missing with the first of its group
        ran.append(Ran(d, n, k, end))
        if end[0] == "Fails":
            break
        n, m = n + k, m - 1 if m else over(d, end)
    return ran


def used(ran):
    return sum(it.bytes for it in ran)


def counted(ran, *ends):
    """count_assigned, count_converted: how many conversions ended so."""
    return sum(getattr(it.directive, "shape", "Count") != "Count" and it.end[0] in ends for it in ran)


def is_open(directives, x, ran):
    """IsOpen: after the bytes x the run would consume a byte next. What ended at a byte of x would end there again."""
    again = [it for it in ran if it.at + it.bytes == len(x)]
    left, n = directives[len(ran) - len(again) :], again[0].at if again else 0
    return any(n + used(steps(left, x + bytes([b]), n)) > len(x) for b in (*b"0 a,", *range(256)))  # likely first


def report_of(ran, met):
    status, at = (ran[-1].end[1], len(ran)) if ran and ran[-1].end[0] == "Fails" else ("Done", 0)
    values = [it.end[1:] for it in ran if it.end[0] == "Stores"]
    return Report(status, at, counted(ran, "Stores"), counted(ran, "Stores", "Passes"), used(ran), met, values)


def run(directives, x, limit=2**31 - 1, ending="End"):
    """Run, RunWithin: the report on the input x, which ends so, under a limit on the bytes that are consumed."""
    ran = steps(directives, x)
    if used(ran) <= limit:
        return report_of(ran, ending if used(ran) == len(x) and is_open(directives, x, ran) else None)
    before = [it for it in ran if it.at + it.bytes <= limit]
    return report_of(before, None)._replace(status="TooLong", at=len(before) + 1, used=limit)


def c_return(report):
    """c_return: what fscanf returns, -1 being EOF (p16)."""
    return -1 if report.status == "InputFailure" and report.converted == 0 else report.assigned


def main():
    words = argparse.ArgumentParser(description=__doc__, formatter_class=argparse.RawDescriptionHelpFormatter)
    words.add_argument("--profile", type=int, choices=(1, 2, 3), default=1)
    words.add_argument("--limit", type=int, default=2**31 - 1)
    words.add_argument("format")
    given = words.parse_args()
    try:
        report = run(directives_of(os.fsencode(given.format), given.profile), sys.stdin.buffer.read(), given.limit)
    except Fault as fault:
        sys.exit(f"scan format: {fault}")
    said = (f"{it} {getattr(report, it)}" for it in Report._fields[2:6])
    print(f"fscanf returns {c_return(report)}; {report.status} at {report.at}", *said, sep=", ")
    for slot, value in sorted(report.values):
        print(f"slot {slot}:", quoted(value) if isinstance(value, bytes) else value)


if __name__ == "__main__":
    main()
