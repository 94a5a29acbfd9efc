"""Malicious inputs: blanks and bytes for ever, texts and numbers of any length, every byte, cuts at each place.

What is due follows from C11 7.21.6.2 and docs/FORMATS.md: the item is the longest front that begins a match, what follows
stays, a number that its kind doesn't hold is out of range, and a run is cut off by its limit.
"""
import program
from answers import answers, difference, quoted

SPACE = b" \t\n\v\f\r"
LONG = "line 1: too long"


def record(number, why, at, used, assigned=0):
    return f"record {number}: {why} at {at}, used {used}, assigned {assigned}"


def piped(feed, words, err, status):
    """A check of a call whose input never ends."""
    def check():
        given = " ".join(f"'{it}'" for it in words)
        got = program.run_script(f'{feed} 2>/dev/null | {{ "$0" {given}; echo "$?"; }}')
        return difference(got, (0, f"{status}\n".encode(), f"sf: {err}\n".encode()))
    return check


def for_ever():
    """Inputs without an end are left after as many bytes as the limit says."""
    cases = [
        ("yes ''", ["scan", "--limit", "1000", "%d"], record(1, "too long", 1, 1000)),
        ("yes ''", ["scan", "%d"], record(1, "too long", 1, 1048576)),
        ("yes ''", ["scan", " "], record(1, "too long", 1, 1048576)),
        ("yes ' '", ["copy", "--limit", "1000", "%d;", "%11d;"], record(1, "too long", 1, 1000)),
        ("cat /dev/zero", ["scan", "%s"], record(1, "too long", 1, 1048576)),
        ("cat /dev/zero", ["scan", "%*[^a]"], record(1, "too long", 1, 1048576)),
        ("cat /dev/zero", ["scan", "%65535c%65535c%d"], record(1, "matching failure", 3, 131070, 2)),
        ("yes 1 | tr -d '\\n'", ["scan", "--limit", "5000", "%d"], record(1, "too long", 1, 5000)),
        ("yes 0 | tr -d '\\n'", ["scan", "%i"], record(1, "too long", 1, 1048576)),
        ("yes 1 | tr -d '\\n'", ["scan", "%65535d"], record(1, "out of range", 1, 65535)),
        ("yes -", ["scan", "%d"], record(1, "matching failure", 1, 1)),
        ("cat /dev/zero", ["scan", "--lines", "%d"], LONG),
        ("cat /dev/zero", ["scan", "--lines", "--limit", "0", "%*[^a]"], LONG),
        ("yes 1 | tr -d '\\n'", ["scan", "--lines", "--limit", "10", "%d"], LONG),
        ("yes 1 | tr -d '\\n'", ["copy", "--lines", "%d;", "%11d;"], LONG),
        ("yes ''", ["scan", "--profile", "3", "%=65535d"], record(1, "matching failure", 1, 65535)),
        ("yes ''", ["scan", "--profile", "3", "--limit", "1000", "%?=65535d"], record(1, "too long", 1, 1000)),
        ("cat /dev/zero", ["scan", "--profile", "3", "%=65535[a]"], record(1, "matching failure", 1, 65535)),
        ("cat /dev/zero", ["scan", "--profile", "3", "%=65535s%=65535s%=5d"], record(1, "matching failure", 3, 131075, 2)),
        ("yes 1 | tr -d '\\n'", ["scan", "--profile", "3", "%=65535d"], record(1, "out of range", 1, 65535)),
        ("cat /dev/zero", ["scan", "--profile", "3", "--lines", "%=5d"], LONG),
        ("yes ''", ["scan", "--profile", "3", "--limit", "1000", "%?(%d;%)"], record(1, "too long", 1, 1000)),
        ("yes ''", ["scan", "--profile", "3", "%?(%%%)"], record(1, "too long", 1, 1048576)),
        ("cat /dev/zero", ["scan", "--profile", "3", "%?(%*65535c;%)"], record(1, "matching failure", 2, 65535)),
        ("cat /dev/zero", ["scan", "--profile", "3", "%?(a%n%)"], "record 1: stalled"),
        ("yes 1", ["scan", "--profile", "3", "--limit", "1000", "%?(1%s %)x"], record(1, "matching failure", 4, 4, 1)),
    ]
    for feed, words, err in cases:
        yield f"{feed} | sf {' '.join(words)[:60]}", piped(feed, words, err, 1)


def long_ones():
    """Items of as many bytes as nobody thought of."""
    text = b"a" * 100000
    yield "%s of 100,000 bytes", answers("scan", "%s", stdin=text, out=b'"%s"\n' % text)
    yield "%s of 100,000 NULs", answers("scan", "%s", stdin=b"\0" * 100000, out=b'"' + rb"\x00" * 100000 + b'"\n')
    yield "%s of as much as the limit", answers("scan", "%s", stdin=b"b" * 1048576, out=b'"' + b"b" * 1048576 + b'"\n')
    yield "%s of one byte more", answers("scan", "%s", stdin=b"b" * 1048577, err=record(1, "too long", 1, 1048576), status=1)
    yield "%3s of limit 3", answers("scan", "--limit", "3", "%3s", stdin=b"abc", out=b'"abc"\n')
    yield "%65535c", answers("scan", "%65535c", stdin=b"c" * 65535, out=b'"' + b"c" * 65535 + b'"\n')
    yield "%65535c of one byte less", answers("scan", "%65535c", stdin=b"c" * 65534, err=record(1, "matching failure", 1, 65534), status=1)
    yield "%65535s takes 65535 of 65537", answers("scan", "%65535s", stdin=b"d" * 65537, out=b'"' + b"d" * 65535 + b'"\n"dd"\n')
    yield "32 texts of 65,535 bytes", answers("scan", "--limit", "2147483647", "%65535c" * 32, stdin=b"e" * 65535 * 32,
                                              out=b" ".join([b'"' + b"e" * 65535 + b'"'] * 32) + b"\n")
    yield "100,000 zeros and 7", answers("scan", "%d", stdin=b"0" * 100000 + b"7", out=b"7\n")
    yield "100,000 zeros and 7 in octal", answers("scan", "%i", stdin=b"0" * 100000 + b"7", out=b"7\n")
    yield "100,000 zeros behind 0x", answers("scan", "%x", stdin=b"-0x" + b"0" * 100000 + b"f", out=b"4294967281\n")
    yield "100,000 nines", answers("scan", "%d", stdin=b"9" * 100000, err=record(1, "out of range", 1, 100000), status=1)
    yield "100,000 nines dropped", answers("scan", "%*d", stdin=b"9" * 100000, out=b"\n")
    yield "100,000 signs", answers("scan", "%d", stdin=b"+" * 100000, err=record(1, "matching failure", 1, 1), status=1)
    yield "1,000,000 blanks", answers("scan", "%d", stdin=SPACE * 170000)
    yield "1,000,000 blanks and a number", answers("scan", "%d", stdin=SPACE * 170000 + b"5", out=b"5\n")
    yield "%n behind 1,000,000 bytes", answers("scan", "%*[a]%n", stdin=b"a" * 1000000, out=b"1000000\n")
    for length, greatest in (("hh", 127), ("h", 32767)):
        yield f"%{length}n of {greatest}", answers("scan", f"%*[a]%{length}n", stdin=b"a" * greatest, out=f"{greatest}\n".encode())
        yield f"%{length}n of {greatest + 1}", answers("scan", f"%*[a]%{length}n", stdin=b"a" * (greatest + 1),
                                                       err=record(1, "out of range", 2, greatest + 1), status=1)
    for power in (8, 16, 32, 64, 128):
        for number in (2**power, 2**power + 1, 2 ** (power - 1), -(2 ** (power - 1)) - 1, -(2**power) - 1):
            for length, size in (("hh", 8), ("h", 16), ("", 32), ("ll", 64)):
                text = str(number).encode()
                fits = -(2 ** (size - 1)) <= number < 2 ** (size - 1)
                want = {"out": text + b"\n"} if fits else {"err": record(1, "out of range", 1, len(text)), "status": 1}
                yield f"%{length}d of {number}", answers("scan", f"%{length}d", stdin=text, **want)
                # a minus negates modulo 2^size where the magnitude is held
                value = number % 2**size if abs(number) < 2**size else None
                want = {"out": b"%d\n" % value} if value is not None else {"err": record(1, "out of range", 1, len(text)), "status": 1}
                yield f"%{length}u of {number}", answers("scan", f"%{length}u", stdin=text, **want)


def columns():
    """Columns of as many bytes as one can have, and each byte in one."""
    wide, most = ("scan", "--profile", "3"), 65535
    text = b"a" + b" " * (most - 2) + b"b"
    yield "a text with blanks inside", answers(*wide, f"%={most}s", stdin=text, out=b'"%s"\n' % text)
    yield "a byte after blanks", answers(*wide, f"%={most}s", stdin=b" " * (most - 1) + b"x", out=b'"x"\n')
    yield "a byte before blanks", answers(*wide, f"%={most}s", stdin=b"x" + b" " * (most - 1), out=b'"x"\n')
    yield "a byte before fewer blanks", answers(*wide, f"%={most}s", stdin=b"x" + b" " * (most - 2), out=b'"x"\n')
    yield "blanks alone", answers(*wide, f"%={most}s", stdin=b" " * most, err=record(1, "matching failure", 1, most), status=1)
    yield "blanks that may be missing", answers(*wide, f"%?={most}s", stdin=b" " * most * 2, out=b"-\n-\n")
    yield "fewer blanks that may be missing", answers(*wide, f"%?={most}s", stdin=b" " * (most - 1))
    yield "32 columns", answers(*wide, "--limit", "2147483647", f"%={most}s" * 32, stdin=(b" e" + b" " * (most - 2)) * 32, out=b" ".join([b'"e"'] * 32) + b"\n")
    yield "32 columns, one byte each", answers(*wide, "%=1s" * 32, stdin=b"f" * 64, out=(b" ".join([b'"f"'] * 32) + b"\n") * 2)
    yield "zeros and a number", answers(*wide, f"%={most}d", stdin=b"0" * (most - 1) + b"7", out=b"7\n")
    yield "blanks around a number", answers(*wide, f"%={most}lf", stdin=b" " * 30000 + b"-1.5e3" + b" " * (most - 30006), out=b"-1500.0\n")
    yield "nines", answers(*wide, f"%={most}d", stdin=b"9" * most, err=record(1, "out of range", 1, most), status=1)
    yield "nines that are dropped", answers(*wide, f"%*={most}d", stdin=b"9" * most, out=b"\n")
    yield "1,000,000 columns of one byte", answers(*wide, "%*=1[\\x01-\\xff]", stdin=b"ab" * 500000, out=b"\n" * 1000000)
    for code in range(256):
        byte = bytes([code])
        is_white = byte in SPACE
        middle = b"a%sc" % byte
        yield f"byte {code} in a text", answers(*wide, "%=3s%=3s%=3s", stdin=byte + b"bc" + middle + b"ab" + byte,
                                               out=b"%s %s %s\n" % (quoted(b"bc" if is_white else byte + b"bc"), quoted(middle), quoted(b"ab" if is_white else b"ab" + byte)))
        number = b"%d" % int(byte + b"12") if byte in b"0123456789-+" else b"12" if is_white else None
        want = {"out": number + b"\n"} if number else {"err": record(1, "matching failure", 1, 3), "status": 1}
        yield f"byte {code} before a number", answers(*wide, "%=3d", stdin=byte + b"12", **want)
        want = {"out": b"12%s\n" % byte} if byte in b"0123456789" else {"out": b"12\n"} if is_white else {"err": record(1, "matching failure", 1, 3), "status": 1}
        yield f"byte {code} after a number", answers(*wide, "%=3d", stdin=b"12" + byte, **want)


def groups():
    """Groups as many as a format can have, a long one, and a million that are missing."""
    three = ("scan", "--profile", "3")
    yield "682 groups", answers(*three, "%?(a%)" * 682, stdin=b"a" * 682 + b"b", out=b"\n", err="record 2: stalled", status=1)
    yield "682 groups, one of them there", answers(*three, "%?(b%)" * 681 + "%?(a%)%*c", stdin=b"ac" * 2, out=b"\n\n")
    yield "a group of 4,091 bytes", answers(*three, "%?(" + "a" * 4091 + "%)", stdin=b"a" * 4091 * 2, out=b"\n\n")
    yield "a group of 4,091 bytes, cut", answers(*three, "%?(" + "a" * 4091 + "%)", stdin=b"a" * 4090 + b"b", err=record(1, "matching failure", 4091, 4090), status=1)
    yield "a group of 4,088 bytes that is missing", answers(*three, "%?(" + "a" * 4088 + "%)%*c", stdin=b"b" * 3, out=b"\n" * 3)
    yield "what follows such a group", answers(*three, "%?(" + "a" * 4088 + "%)%*d", stdin=b"x", err=record(1, "matching failure", 4089, 0), status=1)
    yield "32 values in groups", answers(*three, "%?(%d;%)" * 32, stdin=b"7;" * 31, out=b"7 " * 31 + b"-\n")
    yield "32 values in one group", answers(*three, "%?(" + "%d;" * 32 + "%)%*c", stdin=b"x" + b"7;" * 32 + b"x", out=b"- " * 31 + b"-\n" + b"7 " * 31 + b"7\n")
    yield "1,000,000 blanks before a group", answers(*three, "%?(%d;%)%n", stdin=SPACE * 150000 + b"x", out=b"- 900000\n", err="record 2: stalled", status=1)
    yield "1,000,000 blanks before a percent sign", answers(*three, "%?(%%%d%)%n", stdin=SPACE * 150000 + b"%7", out=b"7 900002\n")
    yield "1,000,000 groups that are missing", answers(*three, "%?(a%d%)%*c", stdin=b"b" * 1000000, out=b"-\n" * 1000000)
    yield "500,000 groups", answers(*three, "%?(a%?d%)%*c", stdin=b"a;" * 500000, out=b"-\n" * 500000)


def directives():
    """Formats of thousands of directives, and the place of the last one."""
    numbers = b" ".join([b"1"] * 1365)
    yield "1,365 dropped numbers", answers("scan", "%*d" * 1365, stdin=numbers, out=b"\n")
    yield "1,364 dropped numbers and none", answers("scan", "%*d" * 1365, stdin=numbers[:-1], err=record(1, "input failure", 1365, 2728), status=1)
    yield "1,364 dropped numbers and x", answers("scan", "%*d" * 1365, stdin=numbers[:-1] + b"x", err=record(1, "matching failure", 1365, 2728), status=1)
    yield "4,096 bytes", answers("scan", "a" * 4096, stdin=b"a" * 8192, out=b"\n\n")
    yield "4,096 bytes and one that differs", answers("scan", "a" * 4096, stdin=b"a" * 4095 + b"b", err=record(1, "matching failure", 4096, 4095), status=1)
    yield "2,048 percent signs", answers("scan", "%" * 4096, stdin=b" %" * 2048, out=b"\n")
    yield "32 numbers backwards", answers("scan", "".join(f"%{it}$d" for it in range(32, 0, -1)), stdin=b" ".join(b"%d" % it for it in range(32, 0, -1)),
                                          out=b" ".join(b"%d" % it for it in range(1, 33)) + b"\n")
    yield "nothing, again and again", answers("scan", " ", stdin=b"x", err="record 1: stalled", status=1)
    yield "an empty format", answers("scan", "", stdin=b"x", err="record 1: stalled", status=1)
    yield "1,000,000 records of one byte", answers("scan", "%*c", stdin=bytes(range(250)) * 4000, out=b"\n" * 1000000)


def every_byte():
    """Each byte as a character, as text, as what a number and an ordinary byte are followed by."""
    every = bytes(range(256))
    yield "%c", answers("scan", "%c", stdin=every, out=b"".join(quoted(bytes([it])) + b"\n" for it in every))
    yield "%256c", answers("scan", "%256c", stdin=every, out=quoted(every) + b"\n")
    black = bytes(it for it in every if it not in SPACE)
    yield "%s", answers("scan", "%s", stdin=black, out=quoted(black) + b"\n")
    behind = b"".join(b"42" + bytes([it]) for it in every if not chr(it).isdigit() or it > 127)
    yield "%d%c", answers("scan", "%d%c", stdin=behind, out=b"".join(b"42 " + quoted(bytes([it])) + b"\n" for it in every if it not in b"0123456789"))
    for code in range(1, 256):
        byte = bytes([code])
        word = "%%" if byte == b"%" else f"\\x{code:02x}"
        if byte in SPACE:
            want = answers("scan", word + "%*c", stdin=SPACE + b"x", out=b"\n")
        else:
            want = answers("scan", word, stdin=byte * 2 + b"\0", out=b"\n\n", err=record(3, "matching failure", 1, 0), status=1)
        yield f"byte {code}", want


def cut(text, words, lines):
    """A check that of an input that is cut anywhere exactly the whole records are written, and a cut one is told."""
    def check():
        for size in range(len(text) + 1):
            status, out, err = program.run(*words, stdin=text[:size])
            records = text[:size].split(b"\n")
            is_whole = not records.pop().strip()
            if (status, out, err == b"") != (not is_whole, b"".join(lines[: len(records)]), is_whole):
                return f"{text[:size]!r}: {status}, {out!r}, {err!r}"
        return ""
    return check


def fronts():
    text = b" +7,ab\n08,c\n-12,zz\n"
    yield "scan, cut at each place", cut(text, ["scan", "%d,%s%*1[\\n]"], [b'7 "ab"\n', b'8 "c"\n', b'-12 "zz"\n'])
    yield "copy, cut at each place", cut(text, ["copy", "%d,%s\\n", "%11d,%20s%*1[\\n]"], [b"7,ab\n", b"8,c\n", b"-12,zz\n"])


def checks():
    for group in (for_ever, long_ones, columns, groups, directives, every_byte, fronts):
        yield from group()
