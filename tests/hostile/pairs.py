"""Pairs of one conversion and one literal, and of columns: which are accepted, and what is read back, with each of the 256 bytes behind.

The stop sets and first bytes are those of docs/FORMATS.md, "Pairs"; the texts of the boundary values are Python's.
"""
import program
from answers import answers, difference, quoted

SPACE = b" \t\n\v\f\r"
DECIMAL, OCTAL, HEX = b"0123456789", b"01234567", b"0123456789abcdefABCDEF"
SIZES = {"hh": 8, "h": 16, "": 32, "l": 64}

# The least and the greatest number of a kind, and what is near them.
SIGNED = {size: [0, 1, -1, 7, -(2 ** (size - 1)), 2 ** (size - 1) - 1, 1 - 2 ** (size - 1)] for size in SIZES.values()}
UNSIGNED = {size: [0, 1, 7, 8, 9, 2**size - 1, 2 ** (size - 1)] for size in SIZES.values()}


def literal(byte, in_scan):
    """A byte as a literal of a print format, or as what takes it in a scan format."""
    if in_scan and byte in SPACE:
        return f"%*1[\\x{byte:02x}]"
    return "%%" if byte == 37 else f"\\x{byte:02x}"


# A scan conversion, its stop set, and the print conversions that it reads back in front of a literal outside of it, each
# with the text that Python gives a number.
NUMBERS = [
    ("d", DECIMAL, [("%{0}d", "d"), ("%+{0}d", "+d"), ("% {0}d", " d"), ("%7{0}d", "7d"), ("%06{0}d", "06d"), ("%{0}i", "d")]),
    ("i", DECIMAL + b"xX", [("%{0}d", "d"), ("%+{0}i", "+d"), ("% {0}d", " d"), ("%9{0}i", "9d")]),
    ("u", DECIMAL, [("%{0}u", "d"), ("%5{0}u", "5d"), ("%05{0}u", "05d")]),
    ("o", OCTAL, [("%{0}o", "o"), ("%8{0}o", "8o"), ("%08{0}o", "08o")]),
    ("x", HEX + b"xX", [("%{0}x", "x"), ("%{0}X", "X"), ("%#{0}x", "#x")]),
    ("X", HEX, [("%02{0}x", "02x"), ("%08{0}X", "08X")]),
]

# Texts: a scan conversion, its stop set and members, the print conversion, and boundary texts.
TEXTS = [
    ("%1s", None, "%s", [bytes([it]) for it in range(256) if it not in SPACE]),
    ("%5s", bytes(it for it in range(256) if it not in SPACE), "%s", [b"a", b"\0", b"\xff", b"abcde", b"\0\xff\x7f%\\", b"-1\"]"]),
    ("%5s", bytes(it for it in range(256) if it not in SPACE), "%7s", [b"a", b"\0", b"abcde"]),
    ("%3[^;]", bytes(it for it in range(256) if it != 59), "%s", [b" ", b"\n\n\n", b"\0", b"\xff\xff\xff", b"a,b"]),
    ("%4[a-c]", b"abc", "%s", [b"a", b"abca", b"cccc"]),
    ("%c", b"", "%c", [bytes([it]) for it in range(256)]),
    ("%3c", b"", "%s", [b"   ", b"\0\0\0", b"\xff\xff\xff", b"\n\n\n", b"%d;"]),
]


def judged(print_, scan, is_accepted, fault):
    """A check of the answer of `sf check`."""
    if is_accepted:
        return answers("check", print_, scan, out=b"accepted\n")
    return answers("check", print_, scan, out=f"refused: {fault}\n".encode(), status=1)


def number_text(spec, number):
    """What the print conversion writes; '#x' puts 0x before what isn't 0."""
    return format(number, spec if spec != "#x" or number else "x").encode()


def width_of(specs, sizes):
    """A width that each of these texts is within."""
    return max(len(number_text(spec, number).lstrip(b" ")) for spec in specs for size in sizes for number in size)


def there_and_back(print_, scan, texts, shown, behind):
    """A check that texts are printed so, are read back with each byte behind, and are copied as they stand."""
    def check():
        joined = b"".join(texts)
        # each text is followed by each of the 256 bytes, which the conversion behind the pair takes
        beside = b"".join(text + bytes([byte]) for text in texts for byte in behind)
        due = b"".join(one + b" " + quoted(bytes([byte])) + b"\n" for one in shown for byte in behind)
        fault = difference(program.run("scan", scan + "%c", stdin=beside), (0, due, b""))
        fault = fault or difference(program.run("scan", scan, stdin=joined), (0, b"".join(it + b"\n" for it in shown), b""))
        return fault or difference(program.run("copy", print_, scan, stdin=joined), (0, joined, b""))
    return check


def numbers():
    """Each number's conversion in front of one literal: what is written and read back."""
    for letter, stop, prints in NUMBERS:
        for length, size in SIZES.items():
            values = (SIGNED if letter in "di" else UNSIGNED)[size]
            for turn, (pattern, spec) in enumerate(prints, len(length)):
                outside = [it for it in b"%;x\xff\n\x01 a" if it not in stop]
                byte = outside[turn % len(outside)]
                print_ = pattern.format(length) + literal(byte, False)
                width = width_of([spec], [values])
                scan = f"%{width}{length}{letter}" + literal(byte, True)
                texts = [number_text(spec, number) + bytes([byte]) for number in values]
                name = f"{print_} {scan}"
                yield f"{name} is accepted", judged(print_, scan, True, "")
                for number, text in zip(values, texts):
                    yield f"{name} prints {number}", answers("print", print_, "--", str(number), out=text)
                yield f"{name} reads back", there_and_back(print_, scan, texts, [b"%d" % it for it in values], range(256))


def texts():
    for scan_, stop, print_, values in TEXTS:
        byte = 59 if not stop or 59 not in stop else 32
        print_, scan = print_ + literal(byte, False), scan_ + literal(byte, True)
        made = [value.rjust(7 if print_.startswith("%7") else 0) + bytes([byte]) for value in values]
        name = f"{print_} {scan}"
        yield f"{name} is accepted", judged(print_, scan, True, "")
        for value, text in zip(values[::7], made[::7]):
            word = "".join(f"\\x{it:02x}" for it in value)
            yield f"{name} prints {value}", answers("print", print_, word, out=text)
        yield f"{name} reads back", there_and_back(print_, scan, made, [quoted(it) for it in values], range(256))


THREE = ("--profile", "3")
# Columns of numbers: a scan letter with its marks, and the print conversions that it reads back, each with the text that Python gives a number.
COLUMNS = [
    ("=", "d", [("%{1}{0}d", "{}d"), ("%-{1}{0}d", "<{}d"), ("%0{1}{0}d", "0{}d"), ("%+{1}{0}d", "+{}d"), ("%-+{1}{0}i", "<+{}d")]),
    ("=", "i", [("%{1}{0}d", "{}d"), ("%-{1}{0}i", "<{}d")]),
    ("=", "u", [("%{1}{0}u", "{}d"), ("%-{1}{0}u", "<{}d"), ("%0{1}{0}u", "0{}d")]),
    ("=", "o", [("%{1}{0}o", "{}o"), ("%0{1}{0}o", "0{}o")]),
    ("=", "x", [("%{1}{0}X", "{}X"), ("%-{1}{0}x", "<{}x"), ("%0{1}{0}x", "0{}x")]),
    ("=!", "d", [("%0{1}{0}d", "0{}d")]),
    ("=!", "u", [("%0{1}{0}u", "0{}d")]),
    ("=!", "x", [("%0{1}{0}X", "0{}X")]),
]
# Columns of texts: a scan conversion, the print conversions, and texts.
TEXT_COLUMNS = [
    ("%=1s", ["%1s", "%-1s"], [bytes([it]) for it in range(256) if it not in SPACE]),
    ("%=5s", ["%5s", "%-5s", "%5.5s"], [b"a", b"\0", b"\xff", b"abcde", b"a b", b"a\n\tb", b"-1\"]"]),
    ("%=4[^;]", ["%4s", "%-4s"], [b"a", b"\0\xff", b"a,b", b"a  b"]),
    ("%=3[a-c]", ["%3s", "%-3.3s"], [b"a", b"ab", b"cab"]),
    ("%=!3s", ["%3s", "%-3s"], [b"abc", b"\0\xff;", b"+-1"]),
]


def read_back_from(print_, scan, texts, shown):
    """A check that texts that are columns are read back with each byte behind, and are copied as they stand."""
    def check():
        beside = b"".join(text + bytes([byte]) for text in texts for byte in range(256))
        due = b"".join(one + b" " + quoted(bytes([byte])) + b"\n" for one in shown for byte in range(256))
        fault = difference(program.run("scan", *THREE, scan + "%c", stdin=beside), (0, due, b""))
        fault = fault or difference(program.run("scan", *THREE, scan, stdin=b"".join(texts)), (0, b"".join(it + b"\n" for it in shown), b""))
        return fault or difference(program.run("copy", *THREE, print_, scan, stdin=b"".join(texts)), (0, b"".join(texts), b""))
    return check


def columns():
    """Columns: each print of the column's width is accepted, each other refused; what is printed in it is read back, whatever stands behind."""
    for marks, letter, prints in COLUMNS:
        for (length, size), (pattern, spec) in ((one, other) for one in SIZES.items() for other in prints):
            values = (SIGNED if letter in "di" else UNSIGNED)[size]
            width = max(len(format(it, spec.format(1))) for it in values)
            texts = [format(it, spec.format(width)).encode() for it in values]
            print_, scan = pattern.format(length, width), f"%{marks}{width}{length}{letter}"
            yield f"{print_} {scan} is accepted", answers("check", *THREE, print_, scan, out=b"accepted\n")
            yield f"{print_} {scan} reads back", read_back_from(print_, scan, texts, [b"%d" % it for it in values])
            for other in (width - 1, width + 1):
                yield f"{print_} {scan} of {other}", answers("check", *THREE, pattern.format(length, other), scan, out=b"refused: Q14 BadMark at 1\n", status=1)
    for scan, prints, values in TEXT_COLUMNS:
        for print_ in prints:
            width = int("".join(it for it in print_.partition(".")[0] if it.isdigit()))
            texts = [it.ljust(width) if "-" in print_ else it.rjust(width) for it in values]
            yield f"{print_} {scan} is accepted", answers("check", *THREE, print_, scan, out=b"accepted\n")
            yield f"{print_} {scan} reads back", read_back_from(print_, scan, texts, [quoted(it) for it in values])
    for print_, scan, text, good in [("%5.5d", "%=5d", b"   12-1234", b"00012"), ("%5.0d", "%=5d", b"    7    0", b"    7"), ("%+3d", "%=3d", b" 12123", b"+12"), ("%#4x", "%=4x", b"  ff abc", b"0xff"),
                                     ("%5.3s", "%=5s", b"fig  plums", b"  fig"), ("%-3s", "%=!3s", b"figf", b"fig"), ("%8.2f", "%=8lf", b"    12.5   0.125", b"   12.50"), ("%8.2f", "%=8lf", b"    12.5     inf", b"   12.50")]:
        yield f"{print_} {scan} of {text}", answers("copy", *THREE, print_, scan, stdin=text, out=good, err="record 2: values do not fit", status=1)


def literals():
    """Each byte as the literal behind a conversion: accepted where it isn't in the stop set."""
    for print_, scan, stop in [("%x", "%8x", HEX + b"xX"), ("%02x", "%8x", HEX), ("%i", "%11i", DECIMAL + b"xX"),
                               ("%s", "%5s", bytes(it for it in range(256) if it not in SPACE))]:
        for byte in range(1, 256):
            words = print_ + literal(byte, False), scan + literal(byte, True)
            yield f"{words[0]} {words[1]}", judged(*words, byte not in stop, "Q6 RunsOn at 1")


def unfit():
    """Values that the scan format wouldn't read back end a copy, and are not written."""
    for print_, scan, text, good in [("%+d;", "%3d;", b"12;123;", b"+12;"), ("%02u%u;", "%2u%2u;", b"0742;", b"0742;"),
                                     ("%#x,", "%1x,", b"0,5,", b"0,"), ("%d;", "%1d;", b"5;", b"5;")]:
        ends = text != good
        want = {"err": "record 2: values do not fit", "status": 1} if ends else {}
        yield f"{print_} {scan}", answers("copy", print_, scan, stdin=text, out=good, **want)


def checks():
    for group in (numbers, texts, columns, literals, unfit):
        for name, call in group():
            yield f"{group.__name__}: {name}", call
