"""One text by one format: its values, and why it fails."""
import collections
import math
import pickle
import typing
import unittest

import sf

# A format, a text, and the row. The numbers are those of C11's types, of 8 to 64 bits.
ROWS = [
    ("%d,%d", b"12,-7", (12, -7)),
    ("%hhd %hhd", b"-128 127", (-128, 127)),
    ("%hd %hd", b"-32768 32767", (-32768, 32767)),
    ("%d %d", b"-2147483648 2147483647", (-(2**31), 2**31 - 1)),
    ("%ld %lld", b"-9223372036854775808 9223372036854775807", (-(2**63), 2**63 - 1)),
    ("%jd %zd %td", b"-1 -2 -3", (-1, -2, -3)),
    ("%hhu %hu", b"255 65535", (255, 65535)),
    ("%u %llu", b"4294967295 18446744073709551615", (2**32 - 1, 2**64 - 1)),
    ("%hhu %u", b"-1 -1", (255, 2**32 - 1)),
    ("%x %X %o", b"0xff FF 17", (255, 255, 15)),
    ("%i %i %i", b"10 010 0x10", (10, 8, 16)),
    ("%b %i", b"101 0b11", (5, 3)),
    ("%n%d%n", b"123", (0, 123, 3)),
    ("%2d%d", b"12345", (12, 345)),
    ("%*d %d", b"99999999999 5", (5,)),
    ("%%", b" %", ()),
    ("%2$d %1$d", b"1 2", (2, 1)),
    ("%s %[a-c]%c%3c", b"  word abcde f", (b"word", b"abc", b"d", b"e f")),
    ("%[^,],%[^\n]", b"a b,c\x00d\n", (b"a b", b"c\x00d")),
    ("%c", b"\x00", (b"\x00",)),
    ("%[]-]", b"-]-", (b"-]-",)),
    ("%f,%lf", b"0.5,-1e3", (0.5, -1000.0)),
    ("%lf %lf %lf", b"0x1p4 .1 1e-400", (16.0, 0.1, 0.0)),
    ("%f", b"0.1", (0.10000000149011612,)),
    ("%lf %lf", b"inf -INFINITY", (math.inf, -math.inf)),
    ("%?d,%?s", b",", (None, None)),
    ("%?d,%?d", b"1,", (1, None)),
    ("%?s %?[a-z] %?c", b"a b", (b"a", b"b", None)),
    ("%?lf;%?hhu", b";7", (None, 7)),
    (" x", b" \t\n x", ()),
    ("", b"anything", ()),
]

# A format, a text; status, directive's number and text, used, assigned, values; and the message.
FAILURES = [
    ("%d,%d", b"1,x", "matching failure", 3, "%d", 2, 1, (1, None), "matching failure at 3, used 2, assigned 1; '%d' doesn't take b'x'"),
    ("%d,%d", b"1,99999999999", "out of range", 3, "%d", 13, 1, (1, None),
     "out of range at 3, used 13, assigned 1; %d takes -2147483648 to 2147483647"),
    ("%hhu", b"300", "out of range", 1, "%hhu", 3, 0, (None,), "out of range at 1, used 3, assigned 0; %hhu takes 0 to 255"),
    ("%2$hd %1$d", b"70000 1", "out of range", 1, "%2$hd", 5, 0, (None, None),
     "out of range at 1, used 5, assigned 0; %2$hd takes -32768 to 32767"),
    ("%lf", b"1e999", "out of range", 1, "%lf", 5, 0, (None,), "out of range at 1, used 5, assigned 0; %lf takes a finite float"),
    ("%d", b"", "input failure", 1, "%d", 0, 0, (None,), "input failure at 1, used 0, assigned 0; the input ended at '%d'"),
    ("%d;", b"1", "input failure", 2, ";", 1, 1, (1,), "input failure at 2, used 1, assigned 1; the input ended at ';'"),
    ("%d", b"-", "matching failure", 1, "%d", 1, 0, (None,), "matching failure at 1, used 1, assigned 0; the input ended at '%d'"),
    ("%x", b"0xg", "matching failure", 1, "%x", 2, 0, (None,), "matching failure at 1, used 2, assigned 0; '%x' doesn't take b'g'"),
    ("%s %%%*d %[^]]", b"w %1 ]", "matching failure", 6, "%[^]]", 5, 1, (b"w", None),
     "matching failure at 6, used 5, assigned 1; '%[^]]' doesn't take b']'"),
    ("%5c", b"abc", "matching failure", 1, "%5c", 3, 0, (None,), "matching failure at 1, used 3, assigned 0; the input ended at '%5c'"),
    ("%?d%d", b"1", "input failure", 2, "%d", 1, 1, (1, None), "input failure at 2, used 1, assigned 1; the input ended at '%d'"),
    ("%d", b"x" * 100, "matching failure", 1, "%d", 0, 0, (None,),
     f"matching failure at 1, used 0, assigned 0; '%d' doesn't take {b'x' * 24!r}.."),
]

Point = collections.namedtuple("Point", "x y")


class Range(typing.NamedTuple):
    low: int
    high: int


class Scanning(unittest.TestCase):
    def test_each_kind_has_its_values(self):
        for format, text, row in ROWS:
            with self.subTest(format):
                self.assertEqual(sf.scan(format, text), row)
                self.assertEqual([type(it) for it in sf.scan(format, text)], [type(it) for it in row])

    def test_nan_and_minus_zero(self):
        nan, zero = sf.scan("%lf %lf", "nan -0")
        self.assertTrue(math.isnan(nan))
        self.assertEqual((zero, math.copysign(1, zero)), (0.0, -1.0))

    def test_each_failure_is_said(self):
        for format, text, *wanted, message in FAILURES:
            with self.subTest(format):
                with self.assertRaises(sf.ScanError) as caught:
                    sf.scan(format, text)
                it = caught.exception
                self.assertEqual([it.status, it.at, it.directive, it.used, it.assigned, it.values], wanted)
                self.assertEqual((str(it), it.text, it.number), (message, text, None))

    def test_of_str_texts_are_str_and_of_bytes_bytes(self):
        self.assertEqual(sf.scan("%s %d", "Zoë 7"), ("Zoë", 7))
        self.assertEqual(sf.scan(b"%s %d", "up 7"), ("up", 7))
        for kind in (bytes, bytearray, memoryview):
            self.assertEqual(sf.scan("%s %d", kind(b"up 7")), (b"up", 7))
        self.assertEqual(sf.scan("%s", "Zo\u00eb".encode(), encoding="utf-8"), ("Zo\u00eb",))
        self.assertEqual(sf.scan("%s", b"Zo\xeb", encoding="latin-1"), ("Zo\u00eb",))

    def test_an_encoding_that_is_none_is_refused_at_once(self):
        with self.assertRaises(LookupError):
            sf.Format("%s", encoding="utf-9")

    def test_half_a_letter_is_kept(self):
        front, rest = sf.scan("%3c%s", "Zoë")
        self.assertEqual((front + rest).encode("utf-8", "surrogateescape").decode(), "Zoë")
        self.assertEqual(sf.scan("%s", "\udcff"), ("\udcff",))

    def test_a_format_may_have_other_letters(self):
        self.assertEqual(sf.scan("é%d", "é5"), (5,))
        with self.assertRaises(sf.ScanError) as caught:
            sf.scan("é%d", "e5")
        self.assertEqual((caught.exception.at, caught.exception.text), (1, "e5"))

    def test_the_whole_text_is_asked_for(self):
        self.assertEqual(sf.scan("%d", b"3.14"), (3,))
        self.assertEqual(sf.scan("%d ", b"3 \n", whole=True), (3,))
        with self.assertRaises(sf.ScanError) as caught:
            sf.scan("%d", b"3.14", whole=True)
        it = caught.exception
        self.assertEqual((it.status, it.at, it.directive, it.used, it.assigned, it.values), ("left over", 0, "", 1, 1, (3,)))
        self.assertEqual(str(it), "left over at 1; b'.14' is left")

    def test_the_limit_is_kept(self):
        self.assertEqual(sf.scan("%d", b"1234", limit=4), (1234,))
        with self.assertRaises(sf.ScanError) as caught:
            sf.scan("%d", b"12345", limit=4)
        self.assertEqual((caught.exception.status, caught.exception.used), ("too long", 4))
        with self.assertRaises(sf.ScanError):
            sf.scan("%s", b"x" * (1 << 20 | 1))
        self.assertEqual(sf.scan("%s", b"x" * (1 << 22), limit=1 << 22), (b"x" * (1 << 22),))
        for limit in (-1, 2**31):
            with self.assertRaises(ValueError):
                sf.scan("%d", b"1", limit=limit)

    def test_profiles_are_those_of_the_command(self):
        self.assertEqual(sf.scan("%i", b"0b11", profile=1), (0,))
        for format, profile, fault in (("%lf", 1, "F5"), ("%b", 1, "F4"), ("%?d", 2, "F4"), ("%lf", 2, "F5")):
            with self.assertRaises(sf.FormatError) as caught:
                sf.scan(format, b"", profile=profile)
            self.assertEqual(caught.exception.fault, fault)
        for profile in (0, 4, -1, 256, 257):
            with self.assertRaises(ValueError):
                sf.scan("%d", b"1", profile=profile)

    def test_names_make_dicts_and_named_tuples(self):
        for names in ("x y", "x,y", "x, y", ["x", "y"], ("x", "y"), iter("xy")):
            self.assertEqual(sf.scan("%d,%d", "1,2", names=names), {"x": 1, "y": 2})
        point = sf.scan("%d,%d", "1,2", names=Point)
        self.assertEqual((point, type(point), point.y), (Point(1, 2), Point, 2))
        self.assertEqual(sf.scan("%d-%d", "3-4", names=Range).high, 4)
        self.assertEqual(sf.Format("%d,%d", names=Range).names, ("low", "high"))
        self.assertEqual(list(sf.scan("%2$d %1$d", "1 2", names="b a").items()), [("b", 2), ("a", 1)])
        for names in ("x", "x y z", "x x", "", []):
            with self.assertRaises(ValueError):
                sf.scan("%d,%d", "1,2", names=names)

    def test_how_much_was_taken_is_said(self):
        self.assertEqual(sf.Format("%d ").scan_front(b"12  -7"), ((12,), 4))
        self.assertEqual(sf.Format("%s").scan_front("ë x"), (("ë",), 2))

    def test_a_format_says_what_it_is(self):
        it = sf.Format("%d %s %?lf %f %llu")
        self.assertEqual((it.slots, it.kinds), (5, ("i32", "text", "f64", "f32", "u64")))
        self.assertEqual((it.format, it.profile, it.limit, it.names, it.encoding, it.whole), ("%d %s %?lf %f %llu", 3, 1048576, None, None, False))
        self.assertEqual(repr(sf.Format("%d")), "sf.Format('%d')")
        self.assertEqual(sf.Format(" ".join(["%d"] * 32)).scan(" ".join(map(str, range(32)))), tuple(range(32)))

    def test_what_is_no_text_is_refused(self):
        for call in (lambda: sf.scan(5, b""), lambda: sf.scan("%d", 5), lambda: sf.scan("%d", None), lambda: sf.Format(None)):
            with self.assertRaises(TypeError):
                call()

    def test_errors_can_be_sent_to_other_processes(self):
        for call in (lambda: sf.scan("%d", "x"), lambda: sf.scan("%q", "x")):
            with self.assertRaises(ValueError) as caught:
                call()
            again = pickle.loads(pickle.dumps(caught.exception))
            self.assertEqual((type(again), str(again), vars(again)), (type(caught.exception), str(caught.exception), vars(caught.exception)))

    def test_formats_can_be_sent_to_other_processes(self):
        for how in ({}, {"names": "x y"}, {"names": Point}, {"whole": True, "encoding": "latin-1", "profile": 1, "limit": 9}):
            first = sf.Format("%d,%d", **how)
            first.scan("1,2")
            again = pickle.loads(pickle.dumps(first))
            self.assertEqual(again.scan("1,2"), first.scan("1,2"))
            for name in ("format", "names", "whole", "encoding", "profile", "limit", "slots", "kinds"):
                self.assertEqual(getattr(again, name), getattr(first, name))
        self.assertEqual(pickle.loads(pickle.dumps(sf.Format(memoryview(b"%d")))).format, b"%d")

    def test_a_text_of_any_length_leaves_the_next_call_as_it_is(self):
        it = sf.Format("%s", limit=1 << 22)
        for length in (1, 1 << 20, 3, 1 << 16, 255, 256, 257):
            self.assertEqual(it.scan(b"y" * length), (b"y" * length,))
