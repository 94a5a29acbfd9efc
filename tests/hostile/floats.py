"""200,000 floats, scanned and printed, beside the C library.

What is scanned is written as the shortest text that reads back: `strtod` and `strtof` read it as the same float, and it has
no more digits than Python's `repr`, which looks for the shortest text too. What is printed is what `snprintf` prints, ties
and floats of any size among them.
"""
import ctypes
import decimal
import random
import struct

import program

C = ctypes.CDLL(None)
C.strtod.restype = ctypes.c_double
C.strtof.restype = ctypes.c_float
CHECKS, FLOATS = 20, 10_000
FORMATS = ("%.6f", "%.2f", "%.0f", "%.17g", "%g", "%.3e", "%.12f")


def of_bits(rng):
    """Any finite double, each exponent as often as the others."""
    while True:
        x = struct.unpack("<d", struct.pack("<Q", rng.getrandbits(64)))[0]
        if x - x == 0:
            return x


def a_tie(rng):
    """A double halfway between two numbers of few decimals, or next to one."""
    x = rng.randint(-(2**20), 2**20) / 2 ** rng.randint(0, 12)
    return x if rng.random() < 0.7 else struct.unpack("<d", struct.pack("<q", struct.unpack("<q", struct.pack("<d", x))[0] + 1))[0]


# How a float is drawn, and the text that it is given as.
DRAWN = [
    lambda rng: "%.17g" % rng.uniform(-1000, 1000),
    lambda rng: "%.*f" % (rng.randint(0, 9), rng.uniform(-1e6, 1e6)),
    lambda rng: "%.17g" % of_bits(rng),
    lambda rng: "%.*e" % (rng.randint(0, 25), of_bits(rng)),
    lambda rng: "%.17g" % a_tie(rng),
    lambda rng: "%d" % rng.getrandbits(rng.randint(1, 70)),
    lambda rng: "%.17g" % (rng.randint(1, 9999) * 10.0 ** rng.randint(-25, 25)),
]


def drawn(turn):
    rng = random.Random(20261127 + turn)
    return [DRAWN[at % len(DRAWN)](rng) for at in range(FLOATS)]


def written(conversion, texts):
    """What the command writes of each, or why not."""
    status, out, err = program.run("scan", "--profile", "3", conversion, stdin="\n".join(texts).encode() + b"\n")
    lines = out.decode().splitlines()
    return (None, lines) if (status, err, len(lines)) == (0, b"", len(texts)) else (f"{status}, {len(lines)} lines, {err!r}", [])


def digits(text):
    """How many digits a text has without the zeros at both ends."""
    return len(decimal.Decimal(text).normalize().as_tuple().digits)


def is_same_number(one, other):
    """Whether two texts have one value, and as many digits."""
    return digits(one) == digits(other) and decimal.Decimal(one) == decimal.Decimal(other)


def doubles(turn):
    def check():
        texts = drawn(turn)
        fault, lines = written("%lf", texts)
        for text, line in zip(texts, lines):
            x = C.strtod(text.encode(), None)
            if C.strtod(line.encode(), None) != x or line != repr(x) and not is_same_number(line, repr(x)):
                return f"{text} is {line}, due {x!r}"
        return fault
    return check


def singles(turn):
    def check():
        texts = [text for text in drawn(turn) if abs(C.strtod(text.encode(), None)) < 3.4e38]
        fault, lines = written("%f", texts)
        for text, line in zip(texts, lines):
            x = C.strtof(text.encode(), None)
            if C.strtof(line.encode(), None) != x or x and len(line) > 9 and digits(line) > 9:
                return f"{text} is {line}, due {x!r}"
        return fault
    return check


def prints(turn):
    def check():
        texts = drawn(turn)
        format_ = FORMATS[turn % len(FORMATS)]
        status, out, err = program.run("scan", "--profile", "3", "--print", format_ + r"\n", "%lf", stdin="\n".join(texts).encode() + b"\n")
        lines = out.split(b"\n")
        if (status, err, len(lines)) != (0, b"", len(texts) + 1):
            return f"{status}, {len(lines)} lines, {err!r}"
        buffer = ctypes.create_string_buffer(600)
        for text, line in zip(texts, lines):
            C.snprintf(buffer, ctypes.c_size_t(600), format_.encode(), ctypes.c_double(C.strtod(text.encode(), None)))
            if line != buffer.value:
                return f"{format_} of {text} is {line!r}, due {buffer.value!r}"
    return check


def checks():
    for turn in range(CHECKS):
        yield f"{FLOATS} doubles, from {turn * FLOATS}, are written shortest", doubles(turn)
        yield f"{FLOATS} doubles, from {turn * FLOATS}, are printed by {FORMATS[turn % len(FORMATS)]}", prints(turn)
    for turn in range(4):
        yield f"floats, from {turn * FLOATS}, are written shortest", singles(turn)
