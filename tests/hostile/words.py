"""Malicious words: values that are no numbers or wrap to good ones, thousands of values, limits, bytes that are no text."""
import program
from answers import answers, shown

# What a sign or none and decimal digits are not.
NO_NUMBERS = ["", "+", "-", "++1", "+-1", "--1", " 1", "1 ", "1\n", "0x1", "1e3", "1.0", "1_000", "1,0", "a", "१", "１", "1\\x31",
              "\\x31", "-" * 1000, "+" + "0" * 1000 + "x", "9" * 100000, "-" + "9" * 100000, "inf", "NaN", "∞"]

# The kinds: how each is printed, its least and its greatest number.
KINDS = [(letter + kind, f"%{length}{letter}", *bounds)
         for length, size in (("hh", 8), ("h", 16), ("", 32), ("l", 64), ("ll", 64), ("j", 64), ("z", 64), ("t", 64))
         for letter, kind, *bounds in (("d", f" i{size}", -2 ** (size - 1), 2 ** (size - 1) - 1), ("u", f" u{size}", 0, 2**size - 1))]


def values():
    for word in NO_NUMBERS:
        for format_, kind in (("%d", "i32"), ("%hhu", "u8"), ("%lld", "i64")):
            yield f"{format_} of {shown(word)}", answers("print", format_, "--", word, err=f"value 1: expected {kind}", status=2)
    for name, format_, least, greatest in KINDS:
        kind = name.split()[1]
        for number in (least, greatest):
            yield f"{name} of {number}", answers("print", format_, "--", str(number), out=str(number).encode())
        outside = [least - 1, greatest + 1, greatest + 2**8 + 1, greatest + 2**64 + 1, least - 2**64, 2**127, 2**128, 2**128 + 1, -(2**127) - 1]
        for number in outside:
            if not least <= number <= greatest:
                yield f"{name} of {number}", answers("print", format_, "--", str(number), err=f"value 1: expected {kind}", status=2)
    # a minus on an unsigned kind is accepted for 0 alone
    yield "%u of -0", answers("print", "%u", "--", "-0", out=b"0")
    yield "%u of -1", answers("print", "%u", "--", "-1", err="value 1: expected u32", status=2)
    yield "%d of 100,000 zeros and 7", answers("print", "%d", "0" * 100000 + "7", out=b"7")
    yield "%d of a plus and zeros", answers("print", "%+d", "+" + "0" * 100000, out=b"+0")


def characters():
    for word in ("", "ab", "\\x41\\x42", "é", "a\\x00", "a" * 131000):
        yield f"%c of {shown(word)}", answers("print", "%c", word, err="value 1: expected one byte", status=2)
    for code in range(256):
        yield f"%c of byte {code}", answers("print", "%c", f"\\x{code:02X}", out=bytes([code]))
    every = bytes(range(256))
    word = "".join(f"\\x{it:02x}" for it in every)
    yield "%s of every byte", answers("print", "%s", word, out=every)
    yield "%.255s of every byte", answers("print", "%.255s", word, out=every[:255])
    yield "%s of a word of 131,000 bytes", answers("print", "%s", "x" * 131000, out=b"x" * 131000)
    yield "32 texts of 60,000 bytes", answers("print", "%s" * 32, *["y" * 60000] * 32, out=b"y" * 60000 * 32)
    for word, at in (("\\", 0), ("a\\q", 1), ("\\\\\\x4", 2), ("z" * 100000 + "\\", 100000)):
        yield f"%s of {shown(word)}", answers("print", "%s", word, err=f"value 1: bad escape at {at}", status=2)


def counts():
    """Numbers of values that would wrap to a good one in 8 or 16 bits."""
    for count in (0, 2, 33, 257, 65537, 131073):
        yield f"{count} values for one", answers("print", "%d", *["1"] * count, err=f"expected 1 values, got {count}", status=2)
    yield "no values wanted, 65536 given", answers("print", "x", *["1"] * 65536, err="expected 0 values, got 65536", status=2)
    yield "the count before the values", answers("print", "%d%d", "x", err="expected 2 values, got 1", status=2)
    yield "the values from the left", answers("print", "%d%hhd", "x", "999", err="value 1: expected i32", status=2)
    yield "the second value", answers("print", "%d%hhd", "1", "999", err="value 2: expected i8", status=2)
    yield "by numbers, the first value", answers("print", "%2$d%1$hhd", "999", "x", err="value 1: expected i8", status=2)


def refused(*words):
    """A check that the words are refused: status 2, nothing on standard output, something on standard error."""
    def check():
        status, out, err = program.run(*words, stdin=b"1\n")
        return "" if (status, out) == (2, b"") and err.endswith(b"\n") else f"{status}, {shown(out)}, {shown(err)}"
    return check


def limits():
    for word in ("", "-1", "+-1", "x", "1x", "0x10", "1e3", " 1", "2147483648", str(2**32), str(2**32 + 1), str(2**64 + 1), str(2**128 + 1), "9" * 10000):
        for verb in (["scan", "%d"], ["copy", "%d;", "%11d;"]):
            yield f"{verb[0]} --limit {shown(word)}", refused(verb[0], f"--limit={word}", *verb[1:])
    for limit in ("2147483647", "0" * 1000 + "3"):
        yield f"--limit {shown(limit)}", answers("scan", "--limit", limit, "%d", stdin=b"12\n", out=b"12\n")
    yield "--limit 0", answers("scan", "--limit", "0", "%d", stdin=b"1", err="record 1: too long at 1, used 0, assigned 0", status=1)
    yield "--limit 0 at the end", answers("scan", "--limit", "0", "%d")
    yield "--limit twice", refused("scan", "--limit", "1", "--limit", "2", "%d")


def others():
    for words in ([], ["scan"], ["show"], ["print"], ["check"], ["copy"], ["copy", "%d"], ["check", "%d", "--names", "a"], ["show", "a", "b"],
                  ["check", "a", "b", "c"], ["nothing"], [""], ["--"], ["-"], ["--limit", "3", "scan", "%d"], ["scan", "--limit"],
                  ["print", "--limit", "3", "%d", "1"], ["scan", "--line-buffered=1", "%d"], ["x" * 131000], ["--" + "x" * 130000]):
        yield f"words {shown(words)}", refused(*words)
    yield "100,000 words", refused("show", *["%d"] * 100000)
    yield "a file that isn't there", answers("scan", "%d", "%d", err="%d: can't be opened", status=3)
    yield "100,000 files", answers("scan", "%d", *["%d"] * 99999, err=b"sf: %d: can't be opened\n" * 99999, status=3)
    for word in (b"\xff", b"\x80abc", b"%d\xc3", b"\xed\xa0\x80", b"\xf8\x88\x80\x80\x80"):
        for words in ([b"scan", word], [word], [b"print", b"%s", word], [b"check", b"%d;", word]):
            yield f"words {words} are no text", answers(*words, err="a word is not UTF-8: a format has such a byte as \\xHH, and < FILE reads such a file", status=2)


def checks():
    for group in (values, characters, counts, limits, others):
        yield from group()
