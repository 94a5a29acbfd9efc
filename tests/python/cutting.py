"""Files that come in pieces of any length: what is read is the same."""
import io
import random
import unittest

import sf

TEXT = b"12,-7 x\n3,4 yy\nbad\n\n555,6 zzz\r\n7,8 w"
LINES = [(12, -7, b"x"), (3, 4, b"yy"), (555, 6, b"zzz"), (7, 8, b"w")]


class Pieces:
    """A file that gives so many bytes a read."""

    def __init__(self, text, length):
        self.text, self.length = text, length

    def read(self, most):
        count = min(most, self.length() if callable(self.length) else self.length)
        piece, self.text = self.text[:count], self.text[count:]
        return piece


def outcome(rows):
    """The rows, and the error at their end, if there is one: but for what stood after it, of which more or less was read."""
    found = []
    try:
        for row in rows:
            found.append(repr(row))
    except sf.ScanError as error:
        found.append((str(error).partition(";")[0], error.text[:error.used], error.values))
    return found


class Cutting(unittest.TestCase):
    def test_lines_of_files_in_pieces(self):
        for length in range(1, 41):
            seen = []
            self.assertEqual(list(sf.lines("%d,%d %s", Pieces(TEXT, length), seen.append)), LINES)
            self.assertEqual([(it.number, it.text) for it in seen], [(3, b"bad"), (4, b"")])
            self.assertEqual(list(sf.lines("%?[^\n]", Pieces(TEXT, length))), [(it or None,) for it in TEXT.split(b"\n")])

    def test_records_of_files_in_pieces(self):
        for length in range(1, 41):
            for format, text in (
                ("%d", b"1 22 333 4444"), ("%d,%d %s", TEXT), ("%x", b"1 0x2 0x 3"), ("%?d;", b"1;;22;3"), ("%lf", b"1e5 1e+ 7"),
                ("%lf ", b"nan(12) infinity inf 1.5\n\n"), ("%s %[a-z];%c", b"aa bb;c dd ee;f"), ("%i,", b"0x1f,07,0b1,"), (" x%n", b"x x  x\n"),
                ("%d;%d", b"1;2 3;"), ("%5c", b"abcdefghijkl"), ("%?d", b"5\n"), ("%*s%n", b"ab cde f"), (" ", b"  \n"), ("%d%%", b"5% 6 %7"),
            ):
                with self.subTest((length, format)):
                    self.assertEqual(outcome(sf.records(format, Pieces(text, length))), outcome(sf.records(format, text)))

    def test_str_in_pieces(self):
        for length in range(1, 41):
            rows = list(sf.lines("%d,%d %s", Pieces(TEXT.decode().replace("x", "ö"), length), "skip"))
            self.assertEqual(rows[0], (12, -7, "ö"))

    def test_long_lines_in_pieces(self):
        for length in range(1, 41):
            for limit in (0, 1, 5, 9, 10):
                seen = []
                rows = list(sf.lines("%?s", Pieces(TEXT, length), seen.append, limit=limit))
                wanted = [at for at, it in enumerate(TEXT.split(b"\n"), 1) if len(it) > limit]
                self.assertEqual(([it.number for it in seen], len(rows)), (wanted, 6 - len(wanted)))

    def test_records_longer_than_a_block(self):
        for size in (1 << 15, (1 << 16) + 1, 1 << 18, 1 << 20):
            text = b"a" * (size - 1) + b" b " + b"c" * (size // 2) + b"\nd"
            wanted = [(b"a" * (size - 1),), (b"b",), (b"c" * (size // 2),), (b"d",)]
            for source in (text, io.BytesIO(text), Pieces(text, 1000), Pieces(text, 1 << 17)):
                self.assertEqual(list(sf.records("%s", source)), wanted)

    def test_lines_longer_than_a_block(self):
        for size in (1 << 15, (1 << 16) + 1, 1 << 18, 1 << 20):
            text = b"a" * (size - 1) + b"\nb\n" + b"c" * (size // 2) + b"\nd"
            wanted = [(b"a" * (size - 1),), (b"b",), (b"c" * (size // 2),), (b"d",)]
            for source in (text, io.BytesIO(text), Pieces(text, 1000), Pieces(text, 1 << 17)):
                self.assertEqual(list(sf.lines("%s", source)), wanted)

    def test_blocks_of_random_lengths(self):
        rng = random.Random(20261129)
        lines = [b"%d %s" % (rng.randrange(-999, 999), b"w" * rng.randrange(1, 90)) for _ in range(5000)]
        rows = [(int(it.split()[0]), it.split()[1]) for it in lines]
        for _ in range(5):
            for text, loop in ((b"\n".join(lines), sf.lines), (b"  ".join(lines), sf.records)):
                self.assertEqual(list(loop("%d %s", Pieces(text, lambda: rng.randrange(1, 5000)))), rows)

    def test_no_newline_in_the_whole_file(self):
        text = b"x" * (1 << 22)
        for source in (io.BytesIO(text), Pieces(text, 1 << 12)):
            with self.assertRaises(sf.ScanError) as caught:
                list(sf.lines("%s", source))
            self.assertEqual(str(caught.exception), "line 1: too long")
        self.assertEqual(list(sf.lines("%s", io.BytesIO(text), limit=1 << 22)), [(text,)])
