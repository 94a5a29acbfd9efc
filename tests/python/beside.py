"""The package beside the program: the same rows, and the same messages, of random formats and inputs."""
import json
import os
import random
import re
import struct
import subprocess
import unittest

import sf
from cutting import Pieces
from sf import _errors

PROGRAM = os.environ["SF_PROGRAM"]
FORMATS = 500
PARTS = """%d %u %x %i %o %b %hhd %hhu %hd %lld %llu %3d %1u %s %4s %[a-c] %[^,] %2[^0-9] %[]x-z] %c %2c %n %*d %*s %*c %*[a-z] %lf %f %5lf
%?d %?[a-b] %?lf %?3s %*?d %?c %% , ; : x . - é %[é]""".split() + [" ", "\t ", ","]
NUMBERED = ["%2$d %1$d", "%2$s,%1$?d", "%3$c%1$hhu %2$[a-z]", "%1$d", "%2$d"]
FAULTS = ["%", "%q", "%[z-a]", "%[", "%0d", "%1$d%d", "%ls", "%*n", "%99999d", "%?n", "%hf", "%Lf", "%33$d", "%hc"]
BYTES = "0123456789abcx,:;-+ .e%\té"
PRINTS = "%d %u %x %o %5d %-5d %+d %05u %hhd %hhu %ld %lu %b %#x %s %-6s %.2s %6s %c %f %.3f %e %g %.17g %a %% , ; x".split() + [" ", "\n"]


def escaped(text):
    """A text as the program has it, with escapes."""
    return "".join(f"\\x{ord(it):02x}" if it in "\\\n\t\r" else it for it in text)


def ran(*words, text=b""):
    """What the program writes to both of its streams, and its status."""
    done = subprocess.run([PROGRAM, *words], input=text, capture_output=True, check=False, timeout=60)
    return done.stdout, done.stderr.decode().splitlines(), done.returncode


def drawn_format(rng):
    if rng.random() < 0.08:
        return rng.choice(NUMBERED) + rng.choice(PARTS[-8:])
    parts = rng.choices(PARTS, k=rng.randrange(1, 6))
    if rng.random() < 0.06:
        parts.insert(rng.randrange(len(parts)), rng.choice(FAULTS))
    return "".join(parts)


def drawn_text(rng):
    lines = ["".join(rng.choices(BYTES, k=rng.randrange(9))) for _ in range(rng.randrange(12))]
    if rng.random() < 0.7:
        lines += [",".join(str(rng.randrange(-500, 500)) for _ in range(3)), "abc 12", "1.5e3,-7", "255:256", "0x1f -0.5 inf"]
    if rng.random() < 0.3:
        lines = [it + "\r" for it in lines]
    return ("\n".join(lines) + "\n" * rng.randrange(2)).encode()


def found_in(loop):
    """The rows of a loop, and the message at its end, if one comes."""
    rows = []
    try:
        for row in loop:
            rows.append(row)
    except sf.ScanError as error:
        return rows, [said(error)]
    return rows, []


def said(error):
    """The line of the program's that says the same."""
    return f"sf: {error}".partition(";")[0]


def values_of(rows, kinds):
    """Rows as JSON has them: texts as str, and floats by their bits."""
    return [[value_of(*it) for it in zip(row, kinds)] for row in rows]


def value_of(value, kind):
    if value is None or kind not in ("f32", "f64", "text"):
        return value
    if kind == "text":
        return value.decode("utf-8", "surrogateescape") if isinstance(value, bytes) else value
    # (a NaN and the infinities are words in JSON)
    return struct.pack("f" if kind == "f32" else "d", float(value))


class Beside(unittest.TestCase):
    def setUp(self):
        self.rng = random.Random(20261129)

    def program(self, words, format, kinds, text):
        """The rows and the messages of `sf scan`."""
        written, messages, status = ran("scan", "-p3", "-o", "json", *words, "--", escaped(format), text=text)
        self.assertIn(status, (0, 1))
        return values_of(map(json.loads, written.splitlines()), kinds), messages

    def each(self, compare):
        """Compares by random formats and texts. Those that are no format are refused by the program, too."""
        for _ in range(FORMATS):
            format, text = drawn_format(self.rng), drawn_text(self.rng)
            with self.subTest(format=format, text=text):
                try:
                    kinds = sf.Format(format).kinds
                except sf.FormatError as error:
                    _, messages, status = ran("scan", "-p3", "--", escaped(format))
                    self.assertEqual(([f"sf: {error.which}: {error.fault} {error.name} at {error.at}"], 2), (messages, status))
                else:
                    compare(format, kinds, text)

    def of_lines(self, format, kinds, text, limit, *words, **how):
        errors, length = [], self.rng.randrange(1, 60)
        rows = list(sf.lines(format, Pieces(text, length), errors.append, limit=limit, **how))
        wanted = self.program([*words, f"--limit={limit}"], format, kinds, text)
        self.assertEqual((values_of(rows, kinds), list(map(said, errors))), wanted)

    def test_lines(self):
        self.each(lambda *given: self.of_lines(*given, 1 << 20, "-lk"))

    def test_whole_lines(self):
        self.each(lambda *given: self.of_lines(*given, 1 << 20, "-lkw", whole=True))

    def test_lines_within_a_limit(self):
        self.each(lambda *given: self.of_lines(*given, self.rng.randrange(12), "-lk"))

    def test_records(self):
        def compare(format, kinds, text):
            limit = self.rng.choice((1 << 20, 1 << 20, 7))
            rows, messages = found_in(sf.records(format, Pieces(text, self.rng.randrange(1, 60)), limit=limit))
            self.assertEqual((values_of(rows, kinds), messages), self.program([f"--limit={limit}"], format, kinds, text))

        self.each(compare)

    def test_single_texts(self):
        def compare(format, kinds, text):
            line = text.partition(b"\n")[0]
            rows, messages = found_in(sf.scan(format, it) for it in (line,))
            wanted, told = self.program(["-l"], format, kinds, line + b"\n")
            self.assertEqual((values_of(rows, kinds), [it.replace("sf: ", "sf: line 1: ") for it in messages]), (wanted, told))

        self.each(compare)

    def test_directives(self):
        def compare(format, kinds, _):
            shown, _, _ = ran("show", "-p3", "--", escaped(format))
            self.assertEqual(len(_errors.directives_of(format.encode())), len(shown.splitlines()) - 1)

        self.each(compare)

    def test_pairs(self):
        count = {}
        for _ in range(FORMATS):
            parts = [self.rng.choice((("%d", "%11d"), ("%s", "%9s"), ("%x", "%8x"), (",", ","), (";", ";"), (" ", " "), ("%c", "%c"), ("%u", "%u"),
                                      ("%.17g", "%24lf"), ("%d", "%?5d"))) for _ in range(self.rng.randrange(1, 5))]
            print_format, scan_format = ("".join(it) for it in zip(*parts, (self.rng.choice((";", "", "\n")), self.rng.choice((";", "%*1[\n]")))))
            written, messages, status = ran("check", "-p3", "--", escaped(print_format), escaped(scan_format))
            try:
                sf.check(print_format, scan_format)
                answer = (b"accepted\n", 0)
            except sf.FormatError as error:
                answer = (f"refused: {error.fault} {error.name} at {error.at}\n".encode(), 1)
            self.assertEqual(((written, status), messages), (answer, []), (print_format, scan_format))
            count[status] = count.get(status, 0) + 1
        self.assertGreater(min(count[0], count[1]), FORMATS // 20)

    def test_prints(self):
        for _ in range(FORMATS):
            format = "".join(self.rng.choices(PRINTS, k=self.rng.randrange(1, 7)))
            values = [self.drawn_value(it) for it in re.findall("%[^a-z%]*((?:hh?|ll?)?[a-z]|%)", format) if it != "%"]
            words = [it if isinstance(it, str) else repr(it) for it in values]
            written, messages, status = ran("print", "-p3", "--raw", "--", escaped(format), *words)
            with self.subTest(format=format, values=values):
                try:
                    self.assertEqual((sf.print(format, *values).encode(), [], 0), (written, messages, status))
                except ValueError as error:
                    # (of several values that are refused, another one may be named)
                    fault = r"(sf: )?value \d+: expected (one byte|[iu]\d+).*"
                    self.assertRegex(str(error), fault)
                    self.assertRegex(messages[0], fault)
                    self.assertEqual((written, status), (b"", 2))

    def drawn_value(self, conversion):
        """A value for what stands after a %, which need not fit."""
        letter = conversion[-1]
        if letter in "sc":
            return "".join(self.rng.choices("abc xyz", k=self.rng.choice((1, 1, 1, 3, 8)) if letter == "s" else self.rng.choice((1, 1, 1, 2))))
        if letter in "fega":
            return self.rng.choice((0.0, -0.0, 0.1, 1e300, self.rng.uniform(-1000, 1000)))
        return self.rng.choice((0, 5, self.rng.randrange(-128, 128), self.rng.randrange(-(2**33), 2**33)))
