"""Formats that are refused, and pairs: each by the fault of docs/FORMATS.md, with its word and place."""
import os
import re
import unittest

import sf
from sf import _errors

ROOT = os.path.dirname(os.path.dirname(os.path.dirname(os.path.abspath(__file__))))
# The examples of docs/FORMATS.md: a format, its fault, the place; where it isn't 3, the profile.
SCANS = [
    ("%0d", "F2", 1), ("%70000", "F3", 1), ("%*n", "F9", 2), ("%[z-a]", "F8", 2), ("%[]", "F7", 1), ("%1$d%d", "F10", 4),
    ("%lf", "F5", 2, 1), ("%Lf", "F5", 1), ("%hf", "F6", 2), ("%?n", "F9", 2), ("%?d", "F4", 1, 2), ("%5d %[z-a]", "F8", 6),
    ("%", "F1", 1), ("%q", "F4", 1), ("%ls", "F5", 2), ("%hs", "F6", 2), ("%33$d", "F11", 1), ("%1$*d", "F11", 3),
    ("%1$d%1$d", "F12", 4), ("%2$d", "F13", 0), ("a\0", "F14", 1), (" " * 4097, "F15", 4096), ("%d" * 33, "F16", 64),
    ("%!c", "F20", 2), ("%=d", "F20", 2), ("%=5c", "F20", 3), ("%!=5d", "F4", 2), ("%=5d", "F4", 1, 2),
]
PRINTS = [
    ("%+u", "F17", 1), ("%.300d", "F18", 2), ("%*d", "F5", 1), ("%0$d", "F11", 1), ("%-1$d", "F4", 3), ("%.3c", "F17", 1), ("%n", "F5", 1),
    ("%70000d", "F3", 1), ("%hhf", "F6", 3), ("%1$d %d", "F10", 5),
]
PAIRS = [
    ("%d,", "%11d;", "Q1", 2), ("%d;", "%11d", "Q1", 2), ("%d", "%5u", "Q2", 1), ("%2$d,%1$d;", "%11d,%11d;", "Q3", 1), ("%s", "%s", "Q4", 1),
    ("%05d", "%3d", "Q5", 1), ("%s %s;", "%5s %5[^;];", "Q6", 2), ("%xx", "%4xx", "Q6", 1), ("%d\n", "%3d\n", "Q7", 2), ("%d", "%3d", "Q7", 1),
    ("%05d;", "%5i;", "Q8", 1), ("%d;", "%11d;%n", "Q9", 3), ("%-5d;", "%5d;", "Q10", 1), ("ab", "ab", "Q11", 0), ("%d;", "%?11d;", "Q13", 1),
    ("%+d;", "%!11d;", "Q14", 1), ("%5d", "%=6d", "Q14", 1), ("%d", "%=11d", "Q14", 1),
]


def table():
    """The word of each fault of docs/FORMATS.md."""
    with open(f"{ROOT}/docs/FORMATS.md", encoding="utf-8") as file:
        return dict(re.findall(r"^\| ([FQ]\d+) (\w+) \|", file.read(), re.MULTILINE))


class Faults(unittest.TestCase):
    def refused(self, which, fault, at, call):
        with self.assertRaises(sf.FormatError) as caught:
            call()
        it, word = caught.exception, table()[fault]
        self.assertEqual((it.which, it.fault, it.name, it.at), (which, fault, word, at))
        self.assertTrue(str(it).startswith(f"{which}: {fault} {word} at {at}: "), str(it))
        return it

    def test_scan_formats(self):
        for format, fault, at, *profile in SCANS:
            with self.subTest(format[:40]):
                how = {"profile": profile[0]} if profile else {}
                it = self.refused("scan format", fault, at, lambda: sf.Format(format, **how))
                self.assertEqual(it.format, format)
                self.refused("scan format", fault, at, lambda: sf.lines(format, b"", **how))
                self.refused("scan format", fault, at, lambda: sf.check("%d", format, **how))

    def test_print_formats(self):
        for format, fault, at in PRINTS:
            with self.subTest(format):
                self.refused("print format", fault, at, lambda: sf.print(format))
                self.refused("print format", fault, at, lambda: sf.check(format, "%d"))

    def test_pairs(self):
        for print_format, scan_format, fault, at in PAIRS:
            with self.subTest((print_format, scan_format)):
                it = self.refused("pair", fault, at, lambda: sf.check(print_format, scan_format))
                self.assertEqual(it.format, scan_format)
        for print_format, scan_format in (("%d,%s\n", "%11d,%20s%*1[\n]"), (b"%d;", b"%11d;")):
            self.assertIs(sf.check(print_format, scan_format), True)

    def test_the_print_format_is_judged_first(self):
        self.refused("print format", "F4", 1, lambda: sf.check("%q", "%q"))

    def test_each_fault_has_its_word(self):
        words = {f"F{number}": name for number, (name, _) in _errors._FORMATS.items()}
        words.update((f"Q{number}", name) for number, (name, _) in _errors._PAIRS.items())
        self.assertEqual(words, {fault: name for fault, name in table().items() if fault not in ("F19", "Q12")})

    def test_directives_are_those_of_the_format(self):
        format = b" \t%%%3d,%[]^]x%[^]a]%[^a]%*?5c%2$hhu\xc3%?[?]%1$?lf%*?=!5lf%=3[=]\n"
        self.assertEqual(_errors.directives_of(format), [
            b" \t", b"%%", b"%3d", b",", b"%[]^]", b"x", b"%[^]a]", b"%[^a]", b"%*?5c", b"%2$hhu", b"\xc3", b"%?[?]", b"%1$?lf", b"%*?=!5lf", b"%=3[=]", b"\n"])
