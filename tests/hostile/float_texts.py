"""Floats beside those of the C library: what is read, as strtod and strtof read it; what is printed, as printf prints it.

Each check is a few thousand lines in one call. What is an item is C11's, 7.21.6.2p9: the longest front that is a matching sequence or
begins one, so that `100ergs` fails where strtod takes `100`. Of an item strtod gives the number; one that is too great fails.
"""
import ctypes
import itertools
import random
import re
import struct

import program
from answers import shown

C = ctypes.CDLL(None)
C.strtod.restype, C.strtof.restype = ctypes.c_double, ctypes.c_float

# A matching sequence of a float, and what begins one (docs/FORMATS.md, "Floats").
DIGITS, HEX = rb"[0-9]", rb"[0-9a-fA-F]"
MATCH = re.compile(
    rb"[-+]?(?:(?:%(d)s+(?:\.%(d)s*)?|\.%(d)s+)(?:[eE][-+]?%(d)s+)?|0[xX](?:%(h)s+(?:\.%(h)s*)?|\.%(h)s+)(?:[pP][-+]?%(d)s+)?|"
    rb"(?i:inf|infinity|nan)|(?i:nan)\([0-9A-Za-z_]*\))" % {b"d": DIGITS, b"h": HEX}
)
FRONT = re.compile(
    rb"[-+]?(?:(?:%(d)s+(?:\.%(d)s*)?|\.%(d)s+)[eE][-+]?%(d)s*|%(d)s*\.?%(d)s*|0[xX](?:%(h)s+(?:\.%(h)s*)?|\.%(h)s+)[pP][-+]?%(d)s*|"
    rb"0[xX]%(h)s*\.?%(h)s*|(?i:i|in|inf|infi|infin|infini|infinit|infinity|n|na|nan)|(?i:nan)\([0-9A-Za-z_]*\)?)"
    % {b"d": DIGITS, b"h": HEX}
)
# The same under `!`.
STRICT_MATCH = re.compile(rb"-?(?:[0-9]+\.?[0-9]*|\.[0-9]+)(?:[eE][-+]?[0-9]+)?")
STRICT_FRONT = re.compile(rb"-?(?:(?:[0-9]+\.?[0-9]*|\.[0-9]+)[eE][-+]?[0-9]*|[0-9]*\.?[0-9]*)")


def item_of(text, front=FRONT):
    """The input item at the front of a text."""
    # (what begins a sequence is begun by each front of it, so the longest one is found by halves; mostly it is all of the text)
    least = 0
    half = most = len(text)
    while least < most:
        least, most = (half, most) if front.fullmatch(text[:half]) else (least, half - 1)
        half = (least + most + 1) // 2
    return text[:least]


def is_finite_text(item):
    return b"n" not in item.lower()


def bits(number):
    """The pattern of a double, with one of a NaN."""
    return "nan" if number != number else struct.pack("<d", number)


def number_of(item, is_double):
    """What C reads of a matching sequence, as a double; None where it is too great."""
    number = (C.strtod if is_double else C.strtof)(item, None)
    return None if number in (float("inf"), float("-inf")) and is_finite_text(item) else float(number)


# ---- numbers

def any_double(rng):
    return struct.unpack("<d", struct.pack("<Q", rng.getrandbits(64)))[0]


def finite_double(rng):
    number = any_double(rng)
    return number if abs(number) < float("inf") else rng.uniform(-1, 1)


def plain_text(rng):
    return b"%.*f" % (rng.randint(0, 20), rng.uniform(-1000, 1000) * 10 ** rng.randint(-5, 5))


def full_text(rng):
    return b"%.*e" % (rng.randint(0, 25), finite_double(rng))


def single_text(rng):
    """Near to a binary32."""
    number = struct.unpack("<f", struct.pack("<I", rng.getrandbits(32)))[0]
    return b"%.*e" % (rng.randint(5, 12), number if abs(number) < float("inf") else 1.5)


def tie_text(rng):
    """Just between two doubles, or two binary32, or a digit beside: all digits of it."""
    size, least = rng.choice(((53, -1074), (24, -149)))
    mantissa, exponent = 2 * rng.getrandbits(size) + 1, rng.randint(least - 1, least + 180)
    digits = str(mantissa * 5 ** -exponent if exponent < 0 else mantissa * 2**exponent)
    digits = rng.choice((digits, digits + "000001", digits[:-1] + "4999", digits[: rng.randint(17, len(digits) + 17)]))
    lost = len(str(mantissa * 5 ** -exponent)) - len(digits) if exponent < 0 else 0
    return f"{digits}e{min(exponent, 0) + lost}".encode()


def small_text(rng):
    """Around the subnormals, and around the powers of ten and two with 17 digits."""
    number = rng.choice((2.0 ** rng.randint(-1074, -1020) * rng.randint(1, 9), 10.0 ** rng.randint(-300, 300), 2.0 ** rng.randint(-1000, 1000)))
    number = struct.unpack("<d", struct.pack("<q", max(0, struct.unpack("<q", struct.pack("<d", number))[0] + rng.randint(-2, 2))))[0]
    return b"%.*e" % (rng.randint(15, 18), number)


def great_text(rng):
    """Around the greatest numbers of both kinds."""
    return b"%s%de%d" % (rng.choice((b"", b"-")), rng.choice((34028234663852886, 34028235677973366, 17976931348623157, 17976931348623159)) + rng.randint(-2, 2), rng.choice((22, 292)))


def hexadecimal_text(rng):
    digits = "".join(rng.choices("0123456789abcdefABCDEF", k=rng.randint(1, 20)))
    at = rng.randint(0, len(digits))
    exponent = f"p{rng.randint(-1100, 1050)}" if rng.random() < 0.8 else ""
    return f"{rng.choice(('', '-', '+'))}0{rng.choice('xX')}{digits[:at]}.{digits[at:]}{exponent}".encode()


def long_text(rng):
    """More digits than any double needs, and zeros that an exponent takes away."""
    zeros = rng.randint(0, 400)
    return rng.choice((b"0." + b"0" * zeros + b"%d" % rng.getrandbits(200) + b"e%d" % (zeros - 5), b"%d" % rng.getrandbits(900) + b"0" * zeros + b"e-%d" % zeros))


WORDS = [b"inf", b"-INFINITY", b"infi", b"info", b"nan", b"-nan(1_a)", b"nan(", b"nan(a b)", b"nanx", b"1e", b"1e+", b"1e+5x", b".", b"-", b"+.e1", b".5", b"5.", b"0x", b"0x.", b"0x1p", b"0x1g", b"0x.8p1", b"1.5.2", b"1e5e5", b"100ergs", b"00012", b"-0", b"-0.0e9", b"1e400", b"-1e400", b"1e-400", b"0e999999999999", b"1e99999999999999999999", b"1e-99999999999999999999", b"0x1p99999999999", b"x", b",", b"e5", b"--1"]


def odd_text(rng):
    """Nearly a float."""
    if rng.random() < 0.3:
        return rng.choice(WORDS)
    return bytes(rng.choices(b"0123456789" * 3 + b"..eE+-xXpPaAfFiInNtTyY()_ ", k=rng.randint(1, 12)))


TEXTS = (plain_text, full_text, single_text, tie_text, small_text, great_text, hexadecimal_text, long_text, odd_text)
LINES = 2500


# ---- reading

def reads(make, is_double, seed, mark=""):
    """A check that lines of a float each are read as by C, and those that are none fail where C11 says, or `!` does."""
    def check():
        rng, (match, begin) = random.Random(seed), (STRICT_MATCH, STRICT_FRONT) if mark else (MATCH, FRONT)
        lines = [make(rng) for _ in range(LINES)]
        due, failures = [], []
        for number, line in enumerate(lines, 1):
            text = line if mark else line.lstrip(b" ")
            item, front = item_of(text, begin), len(line) - len(text)
            value = number_of(item, is_double) if match.fullmatch(item) else None
            if value is not None:
                due.append(bits(value))
                continue
            why = b"input failure" if not text else b"out of range" if match.fullmatch(item) else b"matching failure"
            failures.append(b"sf: line %d: %s at 1, used %d, assigned 0" % (number, why, front + len(item)))
        words = ("scan", "--profile", "3", "--lines", "--keep-going", "--print", "%a\\n", f"%{mark}lf" if is_double else f"%{mark}f")
        status, out, err = program.run(*words, stdin=b"\n".join(lines) + b"\n")
        got = [bits(float.fromhex(it.decode())) for it in out.split(b"\n")[:-1]]
        if err.split(b"\n")[:-1] != failures:
            return wrong(err.split(b"\n")[:-1], failures, lines)
        if got != due or status != (1 if failures else 0):
            return wrong(got, due, lines)
        return ""
    return check


def wrong(got, due, lines):
    """The first place at which two lists differ."""
    for at, (is_, must) in enumerate(itertools.zip_longest(got, due)):
        if is_ != must:
            return f"the answer number {at + 1} is {is_!r}, must be {must!r}; of {len(lines)} lines"
    return "the status"


# ---- printing

FLAGS = ["".join(it) for size in range(6) for it in itertools.combinations("-+ #0", size)]


def formats(rng, count):
    for _ in range(count):
        precision = rng.choice(("", "", ".", ".0", ".1", ".2", ".3", ".6", ".10", ".13", ".16", ".17", ".25", ".60", ".255"))
        yield f"%{rng.choice(FLAGS)}{rng.choice(('', '', '1', '8', '20', '40'))}{precision}{rng.choice(('', 'l'))}{rng.choice('fFeEgGaA')}"


BUFFER = ctypes.create_string_buffer(2048)


def printed_by_c(format_, number):
    count = C.snprintf(BUFFER, ctypes.c_size_t(len(BUFFER)), format_.encode(), ctypes.c_double(number))
    assert 0 <= count < len(BUFFER)
    return ctypes.string_at(BUFFER, count)


def doubles(rng):
    """A double of one of several sorts."""
    sort = rng.randrange(6)
    if sort == 0:
        return finite_double(rng)
    if sort == 1:
        return rng.uniform(-1000, 1000)
    if sort == 2:
        return rng.randint(-10**6, 10**6) / rng.choice((1, 2, 4, 8, 10, 100, 1000, 1024))
    if sort == 3:
        return float(b"%.*e" % (rng.randint(0, 3), rng.choice((9.5, 9.95, 0.5, 2.5, 4.5, 99999.5)) * 10.0 ** rng.randint(-8, 8)))
    if sort == 4:
        return rng.choice((0.0, -0.0, float("inf"), -float("inf"), float("nan"), 5e-324, 1.7976931348623157e308, 2.2250738585072014e-308))
    return 10.0 ** rng.randint(-30, 30)


def prints(format_, seed):
    """A check that many doubles are printed as by the C library."""
    def check():
        rng = random.Random(seed)
        numbers = [doubles(rng) for _ in range(LINES)]
        # (a NaN is printed without a minus, whichever it was)
        due = [printed_by_c(format_, abs(it) if it != it else it) for it in numbers]
        lines = b"".join(b"%s\n" % it.hex().encode() for it in numbers)
        status, out, err = program.run("scan", "--profile", "3", "--lines", "--print", format_ + "\\n", "%lf", stdin=lines)
        got = out.split(b"\n")[:-1]
        if (status, err) != (0, b"") or got != due:
            at = next((at for at, (is_, must) in enumerate(itertools.zip_longest(got, due)) if is_ != must), None)
            return f"{format_}: {status}, {shown(err)}" if at is None else f"{format_} of {numbers[at].hex()}: {shown(got[at] if at < len(got) else b'')}, must be {shown(due[at])}"
        return ""
    return check


# ---- the shortest text

def digits_of(number, is_double):
    """The fewest digits that read back, and the power of ten before the first: 0.DIGITS * 10^K. Of several the nearest."""
    read = (lambda text: C.strtod(text, None)) if is_double else (lambda text: C.strtof(text, None))
    for most in range(1, 18):
        text = b"%.*e" % (most - 1, number)
        if read(text) == number:
            digits, _, exponent = text.partition(b"e")
            return digits.replace(b".", b"").rstrip(b"0") or b"0", int(exponent) + 1
    raise AssertionError(number)


def laid_out(number, is_double):
    """A float as the plain form writes it (docs/FORMATS.md)."""
    if number != number:
        return b"nan"
    sign = b"-" if struct.pack(">d", number)[0] & 128 else b""
    size = abs(number)
    if size == float("inf"):
        return sign + b"inf"
    if size == 0:
        return sign + b"0.0"
    digits, point = digits_of(size, is_double)
    whole, least = (16, -5) if is_double else (13, -6)
    if len(digits) <= point <= whole:
        return sign + digits + b"0" * (point - len(digits)) + b".0"
    if 0 < point <= whole:
        return sign + digits[:point] + b"." + digits[point:]
    if least < point <= 0:
        return sign + b"0." + b"0" * -point + digits
    return sign + digits[:1] + (b"." + digits[1:] if digits[1:] else b"") + b"e%d" % (point - 1)


def shortest(is_double, seed):
    """A check that floats are written with the fewest digits, where rounding to so many digits finds them."""
    def check():
        rng = random.Random(seed)
        numbers = [doubles(rng) for _ in range(LINES)]
        if not is_double:
            numbers = [it for it in (C.strtof(b"%.9e" % it, None) for it in numbers) if abs(it) < float("inf")]
        lines = b"".join(b"%s\n" % float(it).hex().encode() for it in numbers)
        status, out, err = program.run("scan", "--profile", "3", "--lines", "%lf" if is_double else "%f", stdin=lines)
        due = [laid_out(it, is_double) for it in numbers]
        if (status, err) != (0, b""):
            return f"{status}, {shown(err)}"
        got = out.split(b"\n")[:-1]
        return "" if got == due else wrong(got, due, numbers)
    return check


def checks():
    for is_double, make, seed in itertools.product((True, False), TEXTS, (1, 2, 3)):
        yield f"reading a {'double' if is_double else 'binary32'}: {make.__name__}, seed {seed}", reads(make, is_double, f"{make.__name__} {seed}")
    for is_double, make in itertools.product((True, False), TEXTS):
        yield f"reading a {'double' if is_double else 'binary32'} under !: {make.__name__}", reads(make, is_double, f"strict {make.__name__}", "!")
    for seed, format_ in enumerate(formats(random.Random(41), 40)):
        yield f"printing by {format_}", prints(format_, seed)
    for is_double, seed in itertools.product((True, False), (1, 2)):
        yield f"the shortest text of a {'double' if is_double else 'binary32'}, seed {seed}", shortest(is_double, seed)
