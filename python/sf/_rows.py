"""Rows of Python values, made of what the library writes: 16 bytes for each slot of each record, and the texts."""
import struct
from collections import deque
from ctypes import string_at
from io import BytesIO, StringIO
from itertools import accumulate, chain

from ._library import CODES, F32, I64, NONE, TEXT, VALUE

_WIDE = VALUE.size
# In these a byte below 128 is the letter of ASCII.
_ASCII = ("utf-8", "ascii", "iso8859-1")
# Texts of more bytes in all aren't copied once more.
_COPIED = 1 << 17


class Texts:
    """The texts of some records, one after the other, as bytes or, by an encoding, as str."""

    def __init__(self, address, size, encoding):
        self._address, self._size, self._encoding = address, size, encoding

    def _decoded(self, text):
        return text.decode(self._encoding, "surrogateescape") if self._encoding else text

    def at(self, place, length):
        """The text of so many bytes at a place."""
        return self._decoded(string_at(self._address + place, length))

    def columns(self, lengths):
        """Those of each slot that has texts, by the lengths that they have in each record."""
        if not lengths:
            return []
        found = list(self._each(chain.from_iterable(zip(*lengths)) if lengths[1:] else lengths[0]))
        return [found[slot::len(lengths)] for slot in range(len(lengths))] if lengths[1:] else [found]

    def _each(self, lengths):
        """Each text, by its length."""
        if self._size > _COPIED:
            lengths = list(lengths)
            return map(self.at, accumulate(lengths, initial=0), lengths)
        texts = string_at(self._address, self._size)
        if self._encoding in _ASCII and texts.isascii():
            return map(StringIO(texts.decode("ascii")).read, lengths)
        # (a call of read costs less than a slice)
        found = map(BytesIO(texts).read, lengths)
        return map(self._decoded, found) if self._encoding else found


def columns_of(kinds, may_miss, cells, texts):
    """The values of each slot, a list for each."""
    slots = len(kinds)
    lengths = [cells.cast("I")[slot * 4 + 2::slots * 4].tolist() for slot, kind in enumerate(kinds) if kind == TEXT]
    of_texts = iter(texts.columns(lengths))
    columns = [next(of_texts) if kind == TEXT else _numbers(cells, CODES[kind], slot, slots) for slot, kind in enumerate(kinds)]
    return [_with_none(it, cells, slot, slots) for slot, it in enumerate(columns)] if may_miss else columns


def _numbers(cells, code, slot, slots):
    """The numbers of a slot in each record."""
    each = _WIDE // struct.calcsize(code)
    return cells.cast(code)[slot * each::slots * each].tolist()


def _with_none(column, cells, slot, slots):
    """A column with None where a record has no value."""
    kinds = cells[slot * _WIDE + 12::slots * _WIDE].tolist()
    return [value if kind != NONE else None for value, kind in zip(column, kinds)]


def row_of(cells, texts):
    """The values of one record."""
    row = []
    for bits, length, kind, _ in VALUE.iter_unpack(cells):
        if kind == TEXT:
            row.append(texts.at(bits, length))
        elif kind == NONE:
            row.append(None)
        elif kind >= F32:
            row.append(struct.unpack_from("<" + CODES[kind], bits.to_bytes(8, "little"))[0])
        else:
            row.append(bits - (bits >> 63 << 64) if kind <= I64 else bits)
    return tuple(row)


class Block:
    """The rows of one block of an input, which can be ended before they are all taken."""

    def __init__(self):
        self._columns, self._unpacked = [], iter(())

    def rows(self, columns, count):
        """The rows of these columns, one after the other."""
        self._columns = columns or [[()] * count]
        return zip(*columns) if columns else iter(self._columns[0])

    def rows_of_numbers(self, struct, cells):
        """The rows of cells that have numbers alone, each made as it is taken."""
        self._unpacked = struct.iter_unpack(cells)
        return self._unpacked

    def end(self):
        """Gives the values back. No row follows of columns, since zip ends where one of its lists does."""
        for it in self._columns:
            it.clear()

    def close(self):
        """No row follows: what is left of numbers is taken here."""
        self.end()
        deque(self._unpacked, 0)


class Rows:
    """The rows of `lines` or of `records`: an iterator, which can be closed before its end.

    >>> with sf.lines("%d", b"1\\n2\\n3\\n") as rows:
    ...     next(rows)
    (1,)
    >>> list(rows)
    []

    A file that was opened by its name is closed at its end, by `close`, by the end of a `with`, and
    when nobody has the rows any more. One thread at a time may take rows.
    """

    def __init__(self, loop, block):
        # (the loop doesn't refer to this object, so that its file is closed as soon as nobody has the rows)
        self._loop, self._block, self._rows = loop, block, chain.from_iterable(loop)

    def __iter__(self):
        # (of what chain gives a row costs no call of a Python function)
        return self._rows

    def __next__(self):
        return next(self._rows)

    def __enter__(self):
        return self

    def __exit__(self, *_):
        self.close()

    def close(self):
        """Closes a file that was opened by its name. No row follows."""
        self._block.close()
        self._loop.close()
