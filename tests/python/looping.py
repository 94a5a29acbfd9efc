"""Loops over lines and over records: sources, what becomes of lines that fail, and how a loop ends."""
import collections
import gzip
import io
import os
import pathlib
import tempfile
import unittest

import sf

TEXT = b"12,-7 x\n3,4 yy\nbad\n555,6 zzz"
ROWS = [(12, -7, b"x"), (3, 4, b"yy"), (555, 6, b"zzz")]
FORMAT = "%d,%d %s"


def open_files():
    """How many files this process has open."""
    return len(os.listdir("/proc/self/fd"))


class Sources(unittest.TestCase):
    def setUp(self):
        self.folder = tempfile.TemporaryDirectory()
        self.addCleanup(self.folder.cleanup)
        self.name = os.path.join(self.folder.name, "a file")
        with open(self.name, "wb") as file:
            file.write(TEXT)

    def rows(self, source, **more):
        return list(sf.lines(FORMAT, source, "skip", **more))

    def test_a_file_is_given_in_each_way(self):
        self.assertEqual(self.rows(self.name), ROWS)
        self.assertEqual(self.rows(pathlib.Path(self.name)), ROWS)
        for source in (TEXT, bytearray(TEXT), memoryview(TEXT), io.BytesIO(TEXT)):
            self.assertEqual(self.rows(source), ROWS)
        for how in ({}, {"buffering": 0}):
            with open(self.name, "rb", **how) as file:
                self.assertEqual(self.rows(file), ROWS)
                self.assertFalse(file.closed)

    def test_a_file_that_gives_str_has_str_for_texts(self):
        wanted = [(12, -7, "x"), (3, 4, "yy"), (555, 6, "zzz")]
        with open(self.name, encoding="ascii") as file:
            self.assertEqual(self.rows(file), wanted)
        self.assertEqual(self.rows(io.StringIO(TEXT.decode())), wanted)
        self.assertEqual(self.rows(self.name, encoding="utf-8"), wanted)
        self.assertEqual(list(sf.lines("%s %s", io.StringIO("ä b\nc \udcff\n"))), [("ä", "b"), ("c", "\udcff")])

    def test_what_was_read_before_is_left_out(self):
        with open(self.name, "rb") as file:
            file.readline()
            self.assertEqual(self.rows(file), ROWS[1:])

    def test_a_packed_file_is_read(self):
        with gzip.open(self.name + ".gz", "wb") as file:
            file.write(TEXT)
        with gzip.open(self.name + ".gz") as file:
            self.assertEqual(self.rows(file), ROWS)

    def test_a_pipe_is_read_as_it_comes(self):
        out, into = os.pipe()
        with open(out, "rb") as file, open(into, "wb", 0) as to:
            to.write(b"1\n2\n3")
            rows = sf.lines("%d", file)
            self.assertEqual([next(rows), next(rows)], [(1,), (2,)])
            to.write(b"4\n")
            self.assertEqual(next(rows), (34,))
            to.write(b"5;6;")
            rows = sf.records("%d;", file)
            self.assertEqual([next(rows), next(rows)], [(5,), (6,)])

    def test_what_is_no_source_is_refused(self):
        for source in ([b"1\n"], 5, None, iter(b"1")):
            with self.assertRaises(TypeError):
                list(sf.lines("%d", source))
        with self.assertRaises(FileNotFoundError):
            list(sf.lines("%d", self.name + "x"))
        with self.assertRaises(IsADirectoryError):
            list(sf.lines("%d", self.folder.name))

    def test_a_read_that_fails_is_not_the_end(self):
        class Broken:
            def __init__(self, last):
                self.pieces = [b"1\n2", last]

            def read(self, _):
                piece = self.pieces.pop(0)
                if isinstance(piece, Exception):
                    raise piece
                return piece

        for last, wanted in ((OSError("gone"), OSError), (None, BlockingIOError), (5, TypeError), ([], TypeError)):
            for loop in (sf.lines, sf.records):
                rows = loop("%d", Broken(last))
                self.assertEqual(next(rows), (1,))
                with self.assertRaises(wanted):
                    next(rows)
                self.assertEqual(list(rows), [])

    def test_a_file_that_was_opened_here_is_closed(self):
        before = open_files()
        for loop in (sf.lines, sf.records):
            for _ in loop("%d,%d%s", self.name):
                break
            self.assertEqual(open_files(), before)
            rows = loop("%d,%d%s", self.name)
            self.assertEqual(open_files(), before)
            next(rows)
            self.assertEqual(open_files(), before + 1)
            rows.close()
            self.assertEqual((open_files(), list(rows)), (before, []))
            with loop("%d,%d%s", self.name) as rows:
                next(rows)
            self.assertEqual((open_files(), next(rows, None)), (before, None))
            with self.assertRaises(sf.ScanError):
                list(loop("%d,%d %s", self.name))
            self.assertEqual(open_files(), before)

    def test_nothing_more_is_read_after_a_loop_is_closed(self):
        text = b"1\n" * 100_000
        file = io.BytesIO(text)
        rows, seen = sf.lines("%d", file), 0
        for _ in rows:
            seen += 1
            if seen == 10:
                rows.close()
        self.assertEqual(seen, 10)
        self.assertLess(file.tell(), len(text))
        rows = sf.lines("%d", file)
        rows.close()
        self.assertEqual(list(rows), [])


class Lines(unittest.TestCase):
    def test_a_line_that_fails_is_raised_skipped_or_handed_over(self):
        rows = sf.lines(FORMAT, TEXT)
        self.assertEqual([next(rows), next(rows)], ROWS[:2])
        with self.assertRaises(sf.ScanError) as caught:
            next(rows)
        it = caught.exception
        self.assertEqual((it.number, it.text, it.values, it.status), (3, b"bad", (None, None, None), "matching failure"))
        self.assertEqual(str(it), "line 3: matching failure at 1, used 0, assigned 0; '%d' doesn't take b'bad'")
        self.assertEqual(list(rows), [])
        seen = []
        self.assertEqual(list(sf.lines(FORMAT, TEXT, errors=seen.append)), ROWS)
        self.assertEqual([(type(it), it.number) for it in seen], [(sf.ScanError, 3)])
        self.assertEqual(list(sf.lines(FORMAT, TEXT, errors="skip")), ROWS)

    def test_what_is_called_comes_after_the_rows_before_it(self):
        order = []
        for row in sf.lines("%d", b"1\nx\n2\ny\nz\n3\n", lambda error: order.append(error.text)):
            order.append(row)
        self.assertEqual(order, [(1,), b"x", (2,), b"y", b"z", (3,)])

    def test_what_is_called_may_raise(self):
        class Stop(Exception):
            pass

        def stop(error):
            raise Stop(error.number)

        rows = sf.lines("%d", b"1\nx\n2\n", stop)
        self.assertEqual(next(rows), (1,))
        with self.assertRaises(Stop) as caught:
            next(rows)
        self.assertEqual((caught.exception.args, list(rows)), ((2,), []))

    def test_other_words_for_errors_are_refused_at_once(self):
        for errors in ("Raise", "ignore", None, 5):
            with self.assertRaises(ValueError):
                sf.lines("%d", b"", errors)
        with self.assertRaises(sf.FormatError):
            sf.lines("%q", b"")

    def test_each_failure_has_what_was_there_before_it(self):
        seen = []
        text = b"1,2\n3,x\n4\n\n300,1\n-\n1,70000\n"
        self.assertEqual(list(sf.lines("%hhu,%hu", text, seen.append)), [(1, 2)])
        self.assertEqual([(it.number, it.status, it.at, it.directive, it.used, it.values, it.text) for it in seen], [
            (2, "matching failure", 3, "%hu", 2, (3, None), b"3,x"),
            (3, "input failure", 2, ",", 1, (4, None), b"4"),
            (4, "input failure", 1, "%hhu", 0, (None, None), b""),
            (5, "out of range", 1, "%hhu", 3, (None, None), b"300,1"),
            (6, "matching failure", 1, "%hhu", 1, (None, None), b"-"),
            (7, "out of range", 3, "%hu", 7, (1, None), b"1,70000"),
        ])

    def test_ends_of_lines(self):
        for text, rows in (
            (b"", []),
            (b"1", [(1, None)]),
            (b"1\n", [(1, None)]),
            (b"1 2\n", [(1, 2)]),
            (b"1\r\n2\r\n", [(1, None), (2, None)]),
            (b"1 2\r\n3 4", [(1, 2), (3, 4)]),
        ):
            self.assertEqual(list(sf.lines("%d%?d", text)), rows)
        self.assertEqual(list(sf.lines("%[^\n]", b"a\r\nb\r")), [(b"a\r",), (b"b\r",)])
        self.assertEqual(list(sf.lines("%?[^\n]", b"\n\na\n\n")), [(None,), (None,), (b"a",), (None,)])
        self.assertEqual(list(sf.lines("", b"\nx\n\n")), [(), (), ()])

    def test_a_line_that_is_too_long_has_failed(self):
        for limit in (0, 1, 3, 5):
            for text in (b"x" * 4 + b"\n1\n", b"1\n" + b"x" * 6 + b"\n2\n\n" + b"9" * 4, b"12345\n123456\n"):
                seen, wanted = [], [(at, it) for at, it in enumerate(text.split(b"\n"), 1) if len(it) > limit]
                rows = list(sf.lines("%*?d" if limit else "", text, seen.append, limit=limit))
                with self.subTest((limit, text)):
                    long = [it for it in seen if it.status == "too long"]
                    self.assertEqual([(it.number, it.text[:limit]) for it in long], [(at, it[:limit]) for at, it in wanted])
                    self.assertEqual([str(it) for it in long], [f"line {at}: too long" for at, _ in wanted])
                    self.assertEqual(len(rows) + len(seen), len(text.splitlines()))

    def test_a_line_may_be_as_long_as_the_limit(self):
        line = b"7" + b" " * 100_000
        text = line + b"\n" + line + b" \n8\n" + line + b" \n9"
        seen = []
        rows = list(sf.lines("%d", text, seen.append, limit=len(line)))
        self.assertEqual(rows, [(7,), (8,), (9,)])
        self.assertEqual([(it.number, it.status, it.values) for it in seen], [(2, "too long", (None,)), (4, "too long", (None,))])

    def test_a_line_of_which_something_is_left_has_failed(self):
        text, seen = b"1,2\n3,4 \n5,6x\n7\n8,9", []
        self.assertEqual(list(sf.lines("%d,%d", text, seen.append, whole=True)), [(1, 2), (8, 9)])
        self.assertEqual([(str(it), it.number, it.status, it.used, it.assigned, it.at, it.values, it.text) for it in seen], [
            ("line 2: left over at 3; b' ' is left", 2, "left over", 3, 2, 0, (3, 4), b"3,4 "),
            ("line 3: left over at 3; b'x' is left", 3, "left over", 3, 2, 0, (5, 6), b"5,6x"),
            ("line 4: input failure at 2, used 1, assigned 1; the input ended at ','", 4, "input failure", 1, 1, 2, (7, None), b"7"),
        ])
        self.assertEqual(list(sf.lines("%d,%d ", b"1,2 \r\n3,4\n", whole=True)), [(1, 2), (3, 4)])
        self.assertEqual(list(sf.lines("%2$d,%1$s", b"1,a\n2,b c\n3,d", "skip", whole=True)), [(b"a", 1), (b"d", 3)])
        self.assertEqual(list(sf.lines("x", b"x\nx\nxx\nx", "skip", whole=True)), [(), (), ()])
        self.assertEqual(list(sf.lines("%[%1$]", b"%1$\n%2\n", "skip", whole=True)), [(b"%1$",)])
        lines = b"".join(b"%d%s\n" % (at, b" x" * (at % 3 == 0)) for at in range(30_000))
        self.assertEqual(list(sf.lines("%d", lines, "skip", whole=True)), [(at,) for at in range(30_000) if at % 3])
        with self.assertRaises(sf.FormatError):
            list(sf.lines("%d" * 32, b"", whole=True))

    def test_many_lines(self):
        self.assertEqual(list(sf.lines("%d", b"1\n" * 20_000)), [(1,)] * 20_000)
        text = b"".join(b"%d,%d,w%d\n" % (at, -at, at) for at in range(30_000))
        self.assertEqual(list(sf.lines("%d,%d,%s", text)), [(at, -at, b"w%d" % at) for at in range(30_000)])

    def test_numbers_of_lines_go_on_over_blocks(self):
        lines = [b"x" if at % 7001 == 0 else b"%d" % at for at in range(1, 50_001)]
        seen = []
        rows = list(sf.lines("%d", b"\n".join(lines), seen.append))
        self.assertEqual([it.number for it in seen], list(range(7001, 50_001, 7001)))
        self.assertEqual(len(rows), 50_000 - len(seen))

    def test_each_kind_in_columns(self):
        format = "%hhd %hd %d %lld %hhu %hu %u %llu %f %lf %s%c"
        row = (-128, -32768, -(2**31), -(2**63), 255, 65535, 2**32 - 1, 2**64 - 1, 0.5, 0.1, b"w", b" ")
        text = b"-128 -32768 -2147483648 -9223372036854775808 255 65535 4294967295 18446744073709551615 .5 .1 w \n"
        self.assertEqual(list(sf.lines(format, text * 3)), [row] * 3)
        self.assertEqual(list(sf.lines(format.replace("%", "%?"), text + b"\n1\n")), [row, (None,) * 12, (1,) + (None,) * 11])

    def test_texts_of_several_slots_and_any_bytes(self):
        format = "%2$[^,],%3$?d,%1$[^\n]"
        text = b"a\0b,1,\xff\0\nx,,yy\n\0,-3,z\n"
        wanted = [(b"\xff\0", b"a\0b", 1), (b"yy", b"x", None), (b"z", b"\0", -3)]
        self.assertEqual(list(sf.lines(format, text)), wanted)
        self.assertEqual(list(sf.lines("%?[a],%?[b]", b"a,b\n,b\na,\n,\n")), [(b"a", b"b"), (None, b"b"), (b"a", None), (None, None)])
        latin = [tuple(it.decode("latin-1") if isinstance(it, bytes) else it for it in row) for row in wanted]
        self.assertEqual(list(sf.lines(format, text, encoding="latin-1")), latin)

    def test_names(self):
        text = b"1,2\n3,4\n"
        self.assertEqual(list(sf.lines("%d,%d", text, names="x y")), [{"x": 1, "y": 2}, {"x": 3, "y": 4}])
        pair = collections.namedtuple("Pair", "x y")
        self.assertEqual([it.y for it in sf.lines("%d,%d", text, names=pair)], [2, 4])
        self.assertEqual(list(sf.records("%d,%d ", text, names=["x", "y"])), [{"x": 1, "y": 2}, {"x": 3, "y": 4}])
        rows = list(sf.lines("%d", b"1\n1\n", names="x"))
        self.assertIsNot(rows[0], rows[1])

    def test_each_option_is_that_of_the_call(self):
        for loop in (sf.lines, sf.records):
            self.assertEqual(list(loop("%i", b"0b1", profile=2)), [(1,)])
            self.assertEqual(next(loop("%i", b"0b1", profile=1)), (0,))
            self.assertEqual(list(loop("%s", b"\xeb", encoding="latin-1")), [("\xeb",)])
            self.assertEqual(list(loop("%s", b"x", names="a")), [{"a": b"x"}])
            with self.assertRaises(sf.ScanError):
                list(loop("%s", b"xyz", limit=2))
            with self.assertRaises(ValueError):
                loop("%s", b"", profile=4)

    def test_32_slots(self):
        format, line = ",".join(["%d"] * 32), ",".join(map(str, range(32))) + "\n"
        self.assertEqual(list(sf.lines(format, line.encode() * 5000)), [tuple(range(32))] * 5000)


class Records(unittest.TestCase):
    def test_records_follow_each_other(self):
        self.assertEqual(list(sf.records("%d", b"1 22\n333  4444")), [(1,), (22,), (333,), (4444,)])
        self.assertEqual(list(sf.records("%2d", b"12345\n")), [(12,), (34,), (5,)])
        self.assertEqual(list(sf.records("%d,%d%*1[\n]", b"1,2\n3,4\n")), [(1, 2), (3, 4)])
        self.assertEqual(list(sf.records("%d", b"")), [])
        self.assertEqual(list(sf.records("%d", b"1\n" * 20_000)), [(1,)] * 20_000)
        self.assertEqual(list(sf.records("%c", b"ab" * 50_000)), [(b"a",), (b"b",)] * 50_000)

    def test_the_end_is_clean_before_the_first_conversion_alone(self):
        self.assertEqual(list(sf.records(" x%d", b"x1\nx2 \n x")), [(1,), (2,)])
        self.assertEqual(list(sf.records("%?d", b"1\n")), [(1,)])
        rows = sf.records("%d,%d ", b"1,2\n3,")
        self.assertEqual(next(rows), (1, 2))
        with self.assertRaises(sf.ScanError) as caught:
            next(rows)
        it = caught.exception
        self.assertEqual((it.number, it.status, it.at, it.used, it.values, it.text), (2, "input failure", 3, 2, (3, None), b"3,"))
        self.assertEqual(str(it), "record 2: input failure at 3, used 2, assigned 1; the input ended at '%d'")

    def test_a_record_that_fails_is_raised(self):
        rows = sf.records("%d", b"1 2 x")
        self.assertEqual([next(rows), next(rows)], [(1,), (2,)])
        with self.assertRaises(sf.ScanError) as caught:
            next(rows)
        self.assertEqual((caught.exception.number, caught.exception.text), (3, b" x"))
        self.assertEqual(list(rows), [])

    def test_a_record_that_takes_nothing_is_an_error(self):
        for format, text, number in (("%?d", b"x", 1), ("", b"x", 1), ("%n", b"x", 1), (" ", b"", 1), (" ", b" \n", 2), ("", b"", 1), ("%n", b"", 1)):
            with self.assertRaises(sf.ScanError) as caught:
                list(sf.records(format, text))
            it = caught.exception
            self.assertEqual((it.status, it.number, it.values, str(it)), ("stalled", number, it.values, f"record {number}: stalled"))
        self.assertEqual(list(sf.records("%?d", b"")), [])

    def test_the_limit_is_that_of_a_record(self):
        self.assertEqual(list(sf.records("%s", b"abc de", limit=3)), [(b"abc",), (b"de",)])
        for text in (b"abcd e", b"abcd", b"a" * 200_000):
            with self.assertRaises(sf.ScanError) as caught:
                list(sf.records("%s", text, limit=3))
            self.assertEqual((caught.exception.status, caught.exception.used), ("too long", 3))
