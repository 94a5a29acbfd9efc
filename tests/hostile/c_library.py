"""Numbers and texts beside those of the C library, where C11 defines what both do.

What it leaves undefined stands in no row: numbers that their kind doesn't hold, `0x` without a digit, and `%5c` of an
input that is too short, on which libraries differ.
"""
import ctypes
import itertools
import re

import program
from answers import difference, quoted

C = ctypes.CDLL(None)
LENGTHS = {
    "hh": (8, ctypes.c_byte, ctypes.c_ubyte),
    "h": (16, ctypes.c_short, ctypes.c_ushort),
    "": (32, ctypes.c_int, ctypes.c_uint),
    "l": (64, ctypes.c_long, ctypes.c_ulong),
    "ll": (64, ctypes.c_longlong, ctypes.c_ulonglong),
    "j": (64, ctypes.c_int64, ctypes.c_uint64),
    "z": (64, ctypes.c_ssize_t, ctypes.c_size_t),
    "t": (64, ctypes.c_ssize_t, ctypes.c_size_t),
}
FLAGS = {"d": "-+ 0", "i": "-+ 0", "u": "-0", "o": "-#0", "x": "-#0", "X": "-#0"}


def subsets(flags):
    return ["".join(it) for size in range(len(flags) + 1) for it in itertools.combinations(flags, size)]


def numbers_of(letter, length):
    """Numbers of a conversion's kind: its bounds, and small ones."""
    size = LENGTHS[length][0]
    if letter in "di":
        return [0, 1, -1, 42, -42, 2 ** (size - 1) - 1, -(2 ** (size - 1))]
    return [0, 1, 8, 10, 42, 2**size - 1, 2 ** (size - 1)]


def as_argument(letter, length, number):
    """The number as C passes it: what is short is promoted."""
    if LENGTHS[length][0] < 32:
        return ctypes.c_int(number)
    return LENGTHS[length][1 if letter in "di" else 2](number)


def c_printed(format_, arguments):
    """What the C library prints."""
    buffer = ctypes.create_string_buffer(8192)
    count = C.snprintf(buffer, ctypes.c_size_t(len(buffer)), format_, *arguments)
    assert 0 <= count < len(buffer)
    return buffer.raw[:count]


def prints(units):
    """A check that up to 32 conversions with their values are printed as by the C library."""
    def check():
        format_ = "|".join(text for text, _, _ in units)
        words = [word for _, word, _ in units]
        want = c_printed(format_.encode(), [argument for _, _, argument in units])
        return difference(program.run("print", format_, "--", *words), (0, want, b""))
    return check


def print_units():
    """Conversions with all flags, some widths and precisions and all lengths, each with the next of its values."""
    turn = itertools.count()
    for letter, flags in FLAGS.items():
        for length, flag, width, precision in itertools.product(LENGTHS, subsets(flags), ("", "1", "5", "22"), ("", ".", ".0", ".3", ".21")):
            values = numbers_of(letter, length)
            number = values[next(turn) % len(values)]
            yield f"%{flag}{width}{precision}{length}{letter}", str(number), as_argument(letter, length, number)
    for flag, width, precision in itertools.product(("", "-"), ("", "1", "4", "9"), ("", ".", ".0", ".2", ".30")):
        for text in ("", "a", "abc", "abcdefghijkl", "\xe9 %d"):
            yield f"%{flag}{width}{precision}s", text, ctypes.c_char_p(text.encode())
        if not precision:
            yield f"%{flag}{width}c", "x", ctypes.c_int(120)


def printing():
    units = list(print_units())
    for at in range(0, len(units), 32):
        group = units[at : at + 32]
        yield f"{group[0][0]} to {group[-1][0]}", prints(group)


def c_scanned(format_, text, kinds):
    """What sscanf returns, and its values: `kinds` has the C type of each destination, a size for a text."""
    places = [ctypes.create_string_buffer(it) if isinstance(it, int) else it() for it in kinds]
    count = C.sscanf(text, format_, *(it if isinstance(it, ctypes.Array) else ctypes.byref(it) for it in places))
    return count, places


def scans(format_, text, kinds):
    """A check that one scan stores what sscanf stores and returns as many; a `%n` behind it tells where it ended."""
    def check():
        count, places = c_scanned(format_.encode() + b"%n", text, [*kinds, ctypes.c_int])
        status, out, err = program.run("scan", format_ + "%n", stdin=text)
        if count == len(kinds):
            due = b" ".join(quoted(it.value) if isinstance(it, ctypes.Array) else b"%d" % it.value for it in places)
            first = out.split(b"\n")[0] + b"\n"
            return difference((first,), (due + b"\n",))
        if count == -1:
            ended = not out and (not err and status == 0 or re.match(rb"sf: record 1: input failure .* assigned 0\n", err) and status == 1)
        else:
            ended = not out and status == 1 and re.match(rb"sf: record 1: (input|matching) failure at \d+, used \d+, assigned %d\n" % count, err)
        return "" if ended else f"sscanf answers {count}; {status}, {out!r}, {err!r}"
    return check


SMALL = [b"0", b"7", b" 12", b"-12", b"+7", b"007", b"77", b"\t\n\v\f\r 42 ", b"-0", b"12abc", b"1 2", b"12-3", b"", b"  ", b"y", b",", b"++1"]
WIDTHS = ("", "1", "2", "3", "5", "30")


def number_rows():
    for letter, (length, (size, signed, unsigned)) in itertools.product("diuoxX", LENGTHS.items()):
        kind = signed if letter in "di" else unsigned
        for number in numbers_of(letter, length):
            for base in {"o": "o", "x": "x", "X": "X"}.get(letter, "d"):
                yield f"%{length}{letter}", format(number, base).encode() + b",", [kind]
        if letter in "xXi":
            for text in (b"0x1F,", b"0X1f", b" 0x0,", b"+0xaz", b"0x00000000000000000000000000000000007f"):
                yield f"%{length}{letter}", text, [kind]
    for letter, width, text in itertools.product("diuox", WIDTHS, SMALL):
        # (a minus on an unsigned number is defined: it is negated in the type)
        yield f"%{width}{letter}", text, [ctypes.c_int if letter in "di" else ctypes.c_uint]


def text_rows():
    texts = [b"abc", b" abc", b"abc def", b"a,b", b",", b"", b" ", b"aaaaaaaaaaaa", b"]x", b"-a-z", b"abc\n"]
    for format_, text in itertools.product(("%s", "%3s", "%[a-c]", "%2[a-c]", "%[^,]", "%[^]]", "%[]a]", "%[a-]", "%[-a]", "%[^ ]", "%c", "%*c%s", "%*s%s", " %[a-z]", "a%s"), texts):
        yield format_, text, [64] if format_ != "%c" else [2]
    pairs = [b"1,2", b"1 ,2", b"1;2", b"1,", b"1", b"", b" 1, 2", b",2", b"1,x", b"1%2", b"1 % 2", b"a1b2"]
    for format_, text in itertools.product(("%d,%d", "%d ,%d", " %d , %d", "%d%%%d", "%d%*[,;]%d", "a%db%d", "%d%*c%d", "%1d,%1d"), pairs):
        yield format_, text, [ctypes.c_int] * 2


def scanning():
    for format_, text, kinds in [*number_rows(), *text_rows()]:
        yield f"{format_} of {text!r}", scans(format_, text, kinds)


def checks():
    for group in (printing, scanning):
        for name, call in group():
            yield f"{group.__name__}: {name}", call
