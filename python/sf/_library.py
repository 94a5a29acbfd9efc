"""The calls of libsf.so, which stands beside this file, and what its numbers mean. (c/sf_c.h has them for C.)"""
import ctypes
import mmap
import os
import struct

from ._errors import FormatError

_PATH = os.path.join(os.path.dirname(os.path.abspath(__file__)), "libsf.so")
try:
    _LIBRARY = ctypes.CDLL(_PATH)
except OSError as fault:
    raise ImportError(f"sf needs its library {_PATH}: {fault}") from fault

_BYTE, _SIZE, _NUMBER, _TEXT, _ROOM = ctypes.c_uint8, ctypes.c_size_t, ctypes.c_uint32, ctypes.c_char_p, ctypes.c_void_p


def _call(name, *arguments):
    found = getattr(_LIBRARY, name)
    found.argtypes, found.restype = arguments, ctypes.c_int32
    return found


_FORMAT, _INTO = (_BYTE, _TEXT, _SIZE), (_ROOM, _SIZE, _ROOM, _SIZE, _ROOM)
# What stands before a room is bytes that are lent; each pair is a pointer and how much it has.
scan_one = _call("sf_c_scan", *_FORMAT, _TEXT, _SIZE, _NUMBER, *_INTO)
scan_many = _call("sf_c_scan_many", *_FORMAT, _ROOM, _SIZE, ctypes.c_bool, _NUMBER, *_INTO, _ROOM)
print_values = _call("sf_c_print", *_FORMAT, _TEXT, _SIZE, _TEXT, _SIZE, _ROOM, _SIZE, _ROOM)
check_pair = _call("sf_c_check", *_FORMAT, _TEXT, _SIZE, _ROOM)
put_kinds = _call("sf_c_kinds", _BYTE, ctypes.c_bool, _TEXT, _SIZE, _ROOM, _SIZE, _ROOM)

# What a call answers.
OK, BAD_FORMAT, BAD_LIMIT, NO_MEMORY, NO_ROOM, BAD_VALUE, NOT_PRINTED, BAD_SCAN_FORMAT, NO_PAIR, BAD_PROFILE = range(10)

# What it writes: an outcome, how far the records went, a print, a fault, a format's slots; and one value.
OUTCOME, DONE, PRINTED, FAULT, SLOTS = (struct.Struct(it) for it in ("<iIHHHBBBBBx", "<QQQQ", "<IHBBBxxx", "<HBx", "<HBB"))
VALUE = struct.Struct("<QIBBxx")

# The kinds by their numbers, each with how struct and memoryview write one. A text has its place and its length.
KINDS = ("none", "i8", "i16", "i32", "i64", "u8", "u16", "u32", "u64", "text", "f32", "f64")
CODES = (None, "b", "h", "i", "q", "B", "H", "I", "Q", None, "f", "d")
NONE, I64, U64, TEXT, F32, F64 = 0, 4, 8, 9, 10, 11
MOST_SLOTS = 32

STATUS = ("done", "input failure", "matching failure", "out of range", "too long", "out of memory", "left over", "stalled")
DONE_SO, INPUT_FAILURE, _, OUT_OF_RANGE, TOO_LONG, REFUSED, LEFT_OVER, STALLED = range(8)


class Room:
    """What the library writes to: the values of so many records, their texts, and how the last run came out. Each is an address."""

    def __init__(self, slots, records=1):
        self._wide, self.count, self.texts_len = slots * VALUE.size, slots * records, 256
        self._memory = [ctypes.create_string_buffer(it) for it in (max(records * self._wide, VALUE.size), 256, OUTCOME.size)]
        self.values, self.texts, self.outcome = map(ctypes.addressof, self._memory)
        self._cells, self._outcome = memoryview(self._memory[0]).cast("B"), self._memory[2]

    def for_texts(self, length):
        """Makes room for texts that have so many bytes in all."""
        if self.texts_len < length:
            # (memory that is given back as soon as it isn't used)
            self._memory[1] = ctypes.c_char.from_buffer(mmap.mmap(-1, length))
            self.texts, self.texts_len = ctypes.addressof(self._memory[1]), length

    def of_records(self, count):
        """The values of the first records."""
        return self._cells[:count * self._wide]

    def run(self):
        """How the last run came out."""
        return Run(self._outcome)


class Run:
    """How a run came out (C11 7.21.6.2p16)."""

    def __init__(self, outcome):
        _, self.used, self.at, self.converted, _, self.assigned, self.status, self.met, _, _ = OUTCOME.unpack_from(outcome)

    def is_end(self):
        """Whether the input has no further record: it ended before the first conversion was done."""
        return self.status in (DONE_SO, INPUT_FAILURE) and not self.converted and bool(self.met)


def row_of_numbers(kinds):
    """How struct reads the values of one record, where each slot has a number."""
    each = (f"{CODES[kind]}{VALUE.size - struct.calcsize(CODES[kind])}x" for kind in kinds)
    return struct.Struct("<" + "".join(each))


def bounds(kind):
    """The least and the greatest integer of a kind."""
    bits = 8 << (kind - 1) % 4
    return (-1 << bits - 1, (1 << bits - 1) - 1) if kind <= I64 else (0, (1 << bits) - 1)


def refuse(answer):
    """Raises what an answer means that is no fault of a format."""
    if answer in (NO_MEMORY, NO_ROOM):
        raise MemoryError("sf: memory was refused")
    if answer == BAD_LIMIT:
        raise ValueError("the limit is from 0 to 2147483647")
    if answer == BAD_PROFILE:
        raise ValueError("the profile is 1, 2 or 3")
    if answer:
        raise RuntimeError(f"libsf.so answered {answer}")


def kinds_of(profile, is_print, text):
    """The kinds of a format's slots, as numbers."""
    kinds, found = ctypes.create_string_buffer(MOST_SLOTS), ctypes.create_string_buffer(SLOTS.size)
    answer = put_kinds(profile, is_print, text, len(text), kinds, MOST_SLOTS, found)
    at, fault, slots = SLOTS.unpack_from(found)
    if answer == BAD_FORMAT:
        raise FormatError._of("print format" if is_print else "scan format", fault, at, text)
    refuse(answer)
    return tuple(kinds.raw[:slots])
