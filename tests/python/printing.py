"""Printing by a format, and the check of a pair."""
import fractions
import unittest

import sf

# A format, its values, and what C's printf makes of them (C11 7.21.6.1).
TEXTS = [
    ("%04u-%02u-%02u", (2026, 3, 7), "2026-03-07"),
    ("%-4s|%+d|%.2f", ("ab", 5, 2.5), "ab  |+5|2.50"),
    ("%5d|%-5d|% d|%05d", (42, 42, 42, -42), "   42|42   | 42|-0042"),
    ("%x %X %#o %#x", (255, 255, 8, 255), "ff FF 010 0xff"),
    ("%hhd %hd %d %ld", (-128, -32768, -(2**31), -(2**63)), "-128 -32768 -2147483648 -9223372036854775808"),
    ("%hhu %hu %u %llu", (255, 65535, 2**32 - 1, 2**64 - 1), "255 65535 4294967295 18446744073709551615"),
    ("%2$s %1$s", ("b", "a"), "a b"),
    ("%c%c", ("x", b"y"), "xy"),
    ("%.3s|%%", ("abcdef",), "abc|%"),
    ("%e %g %a", (12345.678, 0.0001, 1.5), "1.234568e+04 0.0001 0x1.8p+0"),
    ("%f %f", (1, float("inf")), "1.000000 inf"),
    ("%b", (5,), "101"),
    ("", (), ""),
]
BOUNDS = {"hhd": (8, True), "hd": (16, True), "d": (32, True), "ld": (64, True), "hhu": (8, False), "hu": (16, False), "u": (32, False), "lu": (64, False)}


class Printing(unittest.TestCase):
    def test_texts_are_those_of_c(self):
        for format, values, text in TEXTS:
            with self.subTest(format):
                self.assertEqual(sf.print(format, *values), text)
                self.assertEqual(sf.print(format.encode(), *values), text.encode())

    def test_bounds_are_those_of_the_kind(self):
        for letters, (bits, is_signed) in BOUNDS.items():
            low, high = (-(2 ** (bits - 1)), 2 ** (bits - 1) - 1) if is_signed else (0, 2**bits - 1)
            for value in (low, high):
                self.assertEqual(sf.print("%" + letters, value), str(value))
            for value in (low - 1, high + 1, 10**30):
                with self.assertRaises(ValueError) as caught:
                    sf.print("x%" + letters, value)
                kind = f"{'i' if is_signed else 'u'}{bits}"
                self.assertEqual(str(caught.exception), f"value 1: expected {kind}, from {low} to {high}, not {value}")

    def test_values_of_other_types_are_refused(self):
        for format, value, kind in (("%d", "5", "i32"), ("%d", 5.0, "i32"), ("%u", None, "u32"), ("%s", 5, "text"), ("%f", "1", "f64"),
                                    ("%lf", None, "f64")):
            with self.assertRaises(TypeError) as caught:
                sf.print("%%" + format, value)
            self.assertEqual(str(caught.exception), f"value 1: expected {kind}, not {type(value).__name__}")
        self.assertEqual(sf.print("%d %f", True, fractions.Fraction(1, 2)), "1 0.500000")

    def test_as_many_values_as_the_format_has(self):
        for values in ((), (1,), (1, 2, 3)):
            with self.assertRaises(ValueError) as caught:
                sf.print("%d %d", *values)
            self.assertEqual(str(caught.exception), f"expected 2 values, got {len(values)}")

    def test_a_c_takes_one_byte(self):
        for text in ("", "ab", "é"):
            with self.assertRaises(ValueError) as caught:
                sf.print("%d%c", 1, text)
            self.assertEqual(str(caught.exception), "value 2: expected one byte")

    def test_long_texts(self):
        self.assertEqual(sf.print("%9999d", 1), " " * 9998 + "1")
        for length in (1023, 1024, 1025, 100_000):
            self.assertEqual(sf.print(b"%s", b"z" * length), b"z" * length)

    def test_any_bytes(self):
        self.assertEqual(sf.print(b"\xff%s", b"\0\xfe"), b"\xff\0\xfe")
        self.assertEqual(sf.print("%s", "Zo\u00eb"), "Zo\u00eb")
        self.assertEqual(sf.print("%s", b"\xff"), "\udcff")
        self.assertEqual(sf.print(b"%s", bytearray(b"a\0b")), b"a\0b")

    def test_what_is_printed_is_read_back(self):
        for print_format, scan_format, values in (
            ("%d,%s\n", "%11d,%20s%*1[\n]", (-7, "ab")),
            ("%.17g;", "%24lf;", (0.1,)),
            ("%x;%c", "%8x;%c", (0xCAFE, "c")),
        ):
            self.assertTrue(sf.check(print_format, scan_format))
            self.assertEqual(sf.scan(scan_format, sf.print(print_format, *values)), values)

    def test_profiles(self):
        self.assertEqual(sf.print("%d", 1, profile=1), "1")
        for profile in (0, 4):
            with self.assertRaises(ValueError):
                sf.print("%d", 1, profile=profile)
        with self.assertRaises(sf.FormatError):
            sf.print("%f", 1.0, profile=2)

    def test_a_format_is_str_or_bytes(self):
        for call in (lambda: sf.print(5), lambda: sf.check("%d", 5), lambda: sf.check(None, "%d")):
            with self.assertRaises(TypeError):
                call()
