"""Printing by a format, and the check of a pair."""
import ctypes
import operator
import struct
from functools import lru_cache

from . import _library as library
from ._errors import FormatError
from ._format import bytes_of
from ._library import CODES, F32, TEXT, VALUE

# What printing refuses, by its number; the first two can't happen here.
_WHY = {1: "the values are not those of the format", 2: "the kinds are not those of the format", 3: "expected one byte", 4: "text too long"}
_kinds = lru_cache(256)(library.kinds_of)


def printed(format, values, profile):
    """What `sf.print` answers."""
    text = bytes_of(format, "a format")
    kinds = _kinds(profile, True, text)
    if len(kinds) != len(values):
        raise ValueError(f"expected {len(kinds)} values, got {len(values)}")
    texts, cells = bytearray(), bytearray()
    for number, (kind, value) in enumerate(zip(kinds, values), 1):
        cells += _cell(kind, value, texts, number)
    output = _print(profile, text, bytes(cells), len(kinds), bytes(texts))
    return output.decode("utf-8", "surrogateescape") if isinstance(format, str) else output


def _cell(kind, value, texts, number):
    """A value as the library has it. Its text is added to the texts."""
    try:
        if kind == TEXT:
            text = bytes_of(value, "a text")
            texts += text
            return VALUE.pack(len(texts) - len(text), len(text), kind, kind)
        if kind >= F32:
            return struct.pack("<" + CODES[kind], value).ljust(8, b"\0") + VALUE.pack(0, 0, kind, kind)[8:]
        integer = operator.index(value)
    except (TypeError, struct.error):
        raise TypeError(f"value {number}: expected {library.KINDS[kind]}, not {type(value).__name__}") from None
    low, high = library.bounds(kind)
    if not low <= integer <= high:
        raise ValueError(f"value {number}: expected {library.KINDS[kind]}, from {low} to {high}, not {integer}")
    return VALUE.pack(integer & 0xFFFFFFFFFFFFFFFF, 0, kind, kind)


def _print(profile, text, cells, count, texts):
    """What the library prints: asked again, where it is longer than the room was."""
    printed, length = ctypes.create_string_buffer(library.PRINTED.size), 1024
    while True:
        room = ctypes.create_string_buffer(length)
        answer = library.print_values(profile, text, len(text), cells, count, texts, len(texts), room, length, printed)
        wanted, _, _, why, slot = library.PRINTED.unpack_from(printed)
        if answer == library.NOT_PRINTED:
            raise ValueError((f"value {slot}: " if slot else "") + _WHY[why])
        library.refuse(answer)
        if wanted <= length:
            return room.raw[:wanted]
        length = wanted


def checked(print_format, scan_format, profile):
    """What `sf.check` answers."""
    print_text, scan_text = bytes_of(print_format, "a format"), bytes_of(scan_format, "a format")
    fault = ctypes.create_string_buffer(library.FAULT.size)
    answer = library.check_pair(profile, print_text, len(print_text), scan_text, len(scan_text), fault)
    at, number = library.FAULT.unpack_from(fault)
    which = {library.BAD_FORMAT: "print format", library.BAD_SCAN_FORMAT: "scan format", library.NO_PAIR: "pair"}.get(answer)
    if which:
        raise FormatError._of(which, number, at, print_text if which == "print format" else scan_text)
    library.refuse(answer)
    return True
