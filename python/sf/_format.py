"""A format that is kept, and what reads by it."""
from __future__ import annotations

import codecs
import os
import re
from typing import IO, Any, Callable, Iterable, Optional, Tuple, Union

from . import _library as library
from ._errors import ScanError, directives_of, may_miss
from ._failures import error_of
from ._loops import lines, records
from ._rows import Block, Rows, Texts, row_of

Text = Union[str, bytes, bytearray, memoryview]
Source = Union[str, os.PathLike, IO[bytes], IO[str], bytes, bytearray, memoryview]
Names = Union[None, str, Iterable[str], type]
Errors = Union[str, Callable[[ScanError], Any]]

LIMIT = 1 << 20
_NUMBERED = re.compile(rb"%[0-9]+[$]")
# A room with more for texts than this isn't kept for the next call.
_KEPT = 1 << 12


def bytes_of(text, what):
    if isinstance(text, str):
        return text.encode("utf-8", "surrogateescape")
    if isinstance(text, (bytes, bytearray, memoryview)):
        return bytes(text)
    raise TypeError(f"{what} is str or bytes, not {type(text).__name__}")


class Format:
    """A scan format that is read once and used often.

    >>> point = sf.Format("%d,%d")
    >>> point.scan("12,-7")
    (12, -7)
    >>> list(point.lines(b"1,2\\n3,4\\n"))
    [(1, 2), (3, 4)]
    >>> point.slots, point.kinds
    (2, ('i32', 'i32'))

    - `names`: those of the columns, which make a dict of each row. A class of named tuples in their
      place makes rows of that class.
    - `whole`: whether a text or a line has failed of which the format leaves something.
    - `encoding`: makes a str of each text. Without it texts are bytes, but of a str, and of a file
      object that gives str, they are str.
    - `profile`: 1 has C's conversions but those of floats, 2 base 2 beside, 3 floats, the marks `?`,
      `=` and `!`, and groups beside.
    - `limit`: the most bytes that a line may have, and that a record or a text may take.

    Threads may use a format at once. Its attributes say what it was made of; `slots` is how many
    values a row has, and `kinds` are their kinds.
    """

    def __init__(self, format: Text, *, names: Names = None, whole: bool = False, encoding: Optional[str] = None,
                 profile: int = 3, limit: int = LIMIT):
        self.profile, self.limit, self.whole, self.encoding = profile, limit, whole, encoding
        self._bytes = bytes_of(format, "a format")
        self.format = format if isinstance(format, str) else self._bytes
        _checked(limit, profile, encoding)
        self._kinds = library.kinds_of(profile, False, self._bytes)
        self.slots: int = len(self._kinds)
        self.kinds: Tuple[str, ...] = tuple(library.KINDS[it] for it in self._kinds)
        self._may_miss = may_miss(self._bytes)
        # (rows of numbers alone, none of which may be missing, are taken at once)
        is_plain = self._kinds and not self._may_miss and library.TEXT not in self._kinds
        self._numbers = library.row_of_numbers(self._kinds) if is_plain else None
        self.names, self._made = _named(names, self.slots)
        self._type = names if isinstance(names, type) else self.names
        self._rooms = []

    def __repr__(self):
        return f"sf.Format({self.format!r})"

    def __reduce__(self):
        # (what other processes are sent)
        return format_by, (self.format, self._type, self.whole, self.encoding, self.profile, self.limit)

    def scan(self, text: Text) -> Any:
        """The values at the front of a text: a row.

        >>> sf.Format("%s %hhu%%").scan("up 7% more")
        ('up', 7)
        """
        return self.scan_front(text)[0]

    def scan_front(self, text: Text) -> Tuple[Any, int]:
        """The row at the front of a text, and how many bytes that took.

        >>> sf.Format("%d ").scan_front(b"12  -7")
        ((12,), 4)
        """
        is_text, data = isinstance(text, str), bytes_of(text, "a text")
        run, values = self._run(data, is_text)
        if self.whole and not run.status and run.used < len(data):
            run.status = library.LEFT_OVER
        if run.status:
            raise error_of(self, run, data, "", None, is_text)
        return (self._made(values) if self._made else values), run.used

    def lines(self, source: Source, errors: Errors = "raise") -> Rows:
        """The row of each line. See `sf.lines`.

        >>> list(sf.Format("%d").lines(b"1\\n2\\n"))
        [(1,), (2,)]
        """
        if errors not in ("raise", "skip") and not callable(errors):
            raise ValueError('errors is "raise", "skip" or something to call')
        block = Block()
        return Rows(lines(self, source, errors, block), block)

    def records(self, source: Source) -> Rows:
        """The row of each record. See `sf.records`.

        >>> list(sf.Format("%d").records(b"1 2 3"))
        [(1,), (2,), (3,)]
        """
        block = Block()
        return Rows(records(self, source, block), block)

    def _run(self, text, is_text):
        """How the run on a text comes out, and the values of the slots."""
        try:
            room = self._rooms.pop()
        except IndexError:
            room = library.Room(self.slots)
        room.for_texts(min(len(text), self.limit))
        library.refuse(library.scan_one(self.profile, self._bytes, len(self._bytes), text, len(text), self.limit,
                                        room.values, room.count, room.texts, room.texts_len, room.outcome))
        run = room.run()
        if self._numbers and not run.status:
            values = self._numbers.unpack_from(room.of_records(1))
        else:
            values = row_of(room.of_records(1), Texts(room.texts, run.used, self._encoding_of(is_text)))
        if room.texts_len <= _KEPT:
            self._rooms.append(room)
        return run, values

    def _counting(self):
        """The format and its kinds with a slot more, which has the number of bytes that it took (C11 7.21.6.2p12, n)."""
        is_numbered = any(map(_NUMBERED.match, directives_of(self._bytes)))
        number = b"%d$" % (self.slots + 1) if is_numbered else b""
        text = self._bytes + b"%" + number + b"n"
        return text, library.kinds_of(self.profile, False, text)

    def _encoding_of(self, is_text):
        return codecs.lookup(self.encoding).name if self.encoding else "utf-8" if is_text else None

    def _made_of(self, rows):
        """The rows by their names, if they have such."""
        return map(self._made, rows) if self._made else rows


def format_by(format, names, whole, encoding, profile, limit):
    return Format(format, names=names, whole=whole, encoding=encoding, profile=profile, limit=limit)


def _checked(limit, profile, encoding):
    if profile not in (1, 2, 3):
        raise ValueError("the profile is 1, 2 or 3")
    if not 0 <= limit <= 2147483647:
        raise ValueError("the limit is from 0 to 2147483647")
    if encoding is not None:
        codecs.lookup(encoding)


def _named(names, slots):
    """The names of the columns, and what makes a row of its values."""
    if names is None:
        return None, None
    if isinstance(names, type) and hasattr(names, "_fields"):
        found, made = tuple(names._fields), names._make
    else:
        found = tuple(names.replace(",", " ").split() if isinstance(names, str) else names)

        def made(row):
            return dict(zip(found, row))

    if len(found) != slots:
        raise ValueError(f"names: expected {slots}, got {len(found)}")
    if len(set(found)) != slots:
        raise ValueError("names: one stands twice")
    return found, made
