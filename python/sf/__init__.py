"""scanf and printf for Python: each number is checked, and each line that doesn't match is reported.

>>> import sf
>>> sf.scan("%d,%d", "12,-7")
(12, -7)
>>> for name, size in sf.lines("%[^:]: %llu", b"MemTotal: 24683672 kB\\nMemFree: 8802416 kB\\n"):
...     print(name, size)
b'MemTotal' 24683672
b'MemFree' 8802416
>>> sf.print("%04u-%02u-%02u", 2026, 3, 7)
'2026-03-07'

- `scan` reads one text, `lines` each line of a file, `records` one record after the other.
- `print` makes a text of values. `check` says whether a scan format reads back what a print format
  writes.
- `Format` is a scan format that is read once. `Rows` are what `lines` and `records` give.
- `ScanError` is raised where a text doesn't match, `FormatError` where a format is none. Both are
  ValueErrors.

Formats are those of C's fscanf and fprintf:

    %d %u %x %o %i    an int of 32 bits: %d from -2147483648 to 2147483647, %u from 0 to 4294967295
    %hhd %hd %ld      an int of 8, 16 or 64 bits; so %hhu is from 0 to 255
    %lf %f            a float; %f is rounded to 32 bits
    %s %[a-z] %5c     a word, a text of these letters, five bytes
    %?d               an int, or None where none stands there
    %d%?(,%d%)        an int, and after a comma another one; None for that where no comma stands there
    %=8lf %=10s       the float, the text, in a column of eight, of ten bytes, whatever they are
    %!d               an int, with nothing but a minus before its digits
    %*d               an int that is dropped; it has no bounds
    white space       any white space, or none; numbers and %s pass over it, too
    other bytes       themselves; %% is a percent sign

A number that doesn't fit is an error; none wraps. Texts are bytes where bytes are read, and str where
a str is, or a file object that gives str.
"""
from __future__ import annotations

from functools import lru_cache
from typing import Any, Optional

from ._errors import FormatError, ScanError
from ._format import LIMIT, Errors, Format, Names, Source, Text
from ._format import format_by as _made
from ._print import checked as _checked
from ._print import printed as _printed
from ._rows import Rows

__all__ = ["scan", "lines", "records", "print", "check", "Format", "Rows", "ScanError", "FormatError"]
__version__ = "0.3.0"

for _class in (Format, Rows, ScanError, FormatError):
    _class.__module__ = "sf"


_kept = lru_cache(256)(_made)


def _format_of(format, names, whole, encoding, profile, limit):
    if isinstance(format, (bytearray, memoryview)):
        format = bytes(format)
    if names is not None and not isinstance(names, (str, type)):
        names = tuple(names)
    return _kept(format, names, whole, encoding, profile, limit)


def scan(format: Text, text: Text, *, names: Names = None, whole: bool = False, encoding: Optional[str] = None,
         profile: int = 3, limit: int = LIMIT) -> Any:
    """The values at the front of a text, as sscanf reads them: a tuple.

    >>> sf.scan("%s %hhu%% %lf %?d", "up 7% 1.5")
    ('up', 7, 1.5, None)
    >>> sf.scan("%d-%d", b"3-4", names="low high")
    {'low': 3, 'high': 4}

    What the format leaves of the text is dropped. By `whole` such a text has failed:

    >>> sf.scan("%d", "3.14")
    (3,)
    >>> sf.scan("%d", "3.14", whole=True)
    Traceback (most recent call last):
    sf.ScanError: left over at 1; '.14' is left

    A text that doesn't match raises ScanError. `Format` says what the other options are.
    """
    return _format_of(format, names, whole, encoding, profile, limit).scan(text)


def lines(format: Text, source: Source, errors: Errors = "raise", *, names: Names = None, whole: bool = False,
          encoding: Optional[str] = None, profile: int = 3, limit: int = LIMIT) -> Rows:
    """The values of each line of a file, each line an input of its own.

    >>> for row in sf.lines("%[^,],%d", b"pump,42\\nvalve,-7\\n", names="part count"):
    ...     row["part"], row["count"]
    (b'pump', 42)
    (b'valve', -7)

    The source is a file's name (a str or a path), a file object, or the bytes of a file. It may be of
    any length: it is read in blocks as it comes. A newline is no part of its line, and the last line
    may lack it. A line of more bytes than `limit` has failed.

    `errors` says what becomes of a line that fails. "raise" raises ScanError; "skip" passes over it;
    something to call is called with the error, and the loop goes on.

    >>> list(sf.lines("%d", b"1\\nx\\n3\\n", errors=print))
    line 2: matching failure at 1, used 0, assigned 0; '%d' doesn't take b'x'
    [(1,), (3,)]

    What the format leaves of a line is dropped. By `whole` such a line has failed:

    >>> list(sf.lines("%d", b"3\\n3.14\\n", errors="skip", whole=True))
    [(3,)]
    """
    return _format_of(format, names, whole, encoding, profile, limit).lines(source, errors)


def records(format: Text, source: Source, *, names: Names = None, encoding: Optional[str] = None, profile: int = 3,
            limit: int = LIMIT) -> Rows:
    """The values of record after record, each read from what the one before it left, as in a loop
    around fscanf.

    >>> list(sf.records("%d", b"1 2\\n3"))
    [(1,), (2,), (3,)]

    A newline is white space like any other. The source is given as to `lines`. The loop ends where the
    input ends before the first conversion of a record is done. A record that doesn't match raises
    ScanError: where the next one would begin can't be known. `limit` is the most bytes of a record.
    """
    return _format_of(format, names, False, encoding, profile, limit).records(source)


def print(format: Text, *values: Any, profile: int = 3) -> Any:
    """The text of the values by a print format, as snprintf makes it: a str by a str, bytes by bytes.

    >>> sf.print("%-6s|%+d|%.2f", "ab", 5, 2.5)
    'ab    |+5|2.50'
    >>> sf.print("%hhu", 300)
    Traceback (most recent call last):
    ValueError: value 1: expected u8, from 0 to 255, not 300

    A value of another type raises TypeError; one that doesn't fit, and another number of values, ValueError.
    """
    return _printed(format, values, profile)


def check(print_format: Text, scan_format: Text, *, profile: int = 3) -> bool:
    """Whether the scan format reads back what the print format writes, of all values that fit and
    whatever follows.

    >>> sf.check("%d,%s\\n", "%11d,%20s%*1[\\n]")
    True
    >>> sf.check("%d%d\\n", "%5d%5d%*1[\\n]")
    Traceback (most recent call last):
    sf.FormatError: pair: Q6 RunsOn at 1: what is written next could be read by this directive too: ...

    Formats that are no pair raise FormatError, with the reason.
    """
    return _checked(print_format, scan_format, profile)
