"""The loops over lines and over records."""
import ctypes

from . import _library as library
from ._failures import error_of, failure_of, left_of
from ._inputs import BLOCK, Input, blocks_of_lines
from ._rows import Texts, columns_of

# How many records have room at once.
_RECORDS = 4096


class Many:
    """The records or the lines of a block, as many of them as have room."""

    def __init__(self, format, by_lines):
        self.format, self.by_lines = format, by_lines
        self.is_whole = by_lines and format.whole
        self.text, self.kinds = format._counting() if self.is_whole else (format._bytes, format._kinds)
        self.room = library.Room(len(self.kinds), _RECORDS)
        self.done = ctypes.create_string_buffer(library.DONE.size)

    def scan(self, block, at):
        """Scans from a place of the block on: how many records are done, the bytes they took, and how the last run came out."""
        room, lent, length = self.room, ctypes.c_char.from_buffer(block, at), len(block) - at
        room.for_texts(length)
        answer = library.scan_many(self.format.profile, self.text, len(self.text), ctypes.addressof(lent), length, self.by_lines,
                                   self.format.limit, room.values, room.count, room.texts, room.texts_len, room.outcome, self.done)
        self.count, self.used, self.filled, self.failed = library.DONE.unpack_from(self.done)
        self.is_full = answer == library.NO_ROOM and self.count > 0
        if not self.is_full:
            library.refuse(answer)
        self.run = room.run()

    def rows(self, block, is_text):
        """The rows of the records that are done."""
        if self.format._numbers:
            return block.rows_of_numbers(self.format._numbers, self.room.of_records(self.count))
        return block.rows(self.columns(is_text), self.count)

    def columns(self, is_text):
        """The values of the records that are done, a list for each slot."""
        texts = Texts(self.room.texts, self.filled, self.format._encoding_of(is_text))
        return columns_of(self.kinds, self.format._may_miss, self.room.of_records(self.count), texts)


def lines(format, source, errors, block):
    """The rows of each block of lines. `errors` is "raise", "skip" or a call."""
    many, number = Many(format, True), 0
    with Input(source) as input:
        for text in blocks_of_lines(input, format.limit):
            at = 0
            while at < len(text):
                many.scan(text, at)
                for rows, count, line in parts_of(many, block, text, at, input.is_text):
                    yield format._made_of(rows)
                    block.end()
                    number += count
                    if line is not None:
                        number += 1
                        if errors != "skip":
                            take(errors, left_of(format, line, number, input.is_text))
                at += many.used
                if not many.is_full and at < len(text):
                    number += 1
                    if errors != "skip":
                        take(errors, failure_of(format, many.run, text[at:at + many.failed], number, input.is_text))
                    at += many.failed
            del text


def parts_of(many, block, text, at, is_text):
    """The lines that are done: their rows, how many these are, and a line after them of which something is left, if there is one."""
    if not many.is_whole:
        yield many.rows(block, is_text), many.count, None
        return
    columns, first = many.columns(is_text), 0
    ran, found = columns.pop(), bytes(text[at:at + many.used]).split(b"\n")
    for index, (used, line) in enumerate(zip(ran, found)):
        if used != len(line):
            yield block.rows([it[first:index] for it in columns], index - first), index - first, line
            first = index + 1
    yield block.rows([it[first:] for it in columns], many.count - first), many.count - first, None


def take(errors, error):
    """Raises an error, or calls what is to be called with it."""
    if errors == "raise":
        raise error
    errors(error)


def records(format, source, block):
    """The rows of the records of each block."""
    many, number, held, is_over = Many(format, False), 0, bytearray(), False
    with Input(source) as input:
        while not is_over:
            is_over, at = is_last(input, held), 0
            while at < len(held):
                many.scan(held, at)
                is_open = not is_over and many.run.met
                if is_open and not many.run.status and at + many.used == len(held):
                    # (what follows could change the last run, so it isn't taken yet)
                    many.count, many.used = many.count - 1, many.used - many.run.used
                yield format._made_of(many.rows(block, input.is_text))
                block.end()
                number, at = number + many.count, at + many.used
                if is_open:
                    break
                if many.is_full or at == len(held):
                    continue
                if many.run.is_end():
                    return
                text = bytes(held[at:at + many.run.used + 256])
                raise error_of(format, many.run, text, f"record {number + 1}: ", number + 1, input.is_text)
            del held[:at]
        # (a format that is done on nothing, as a blank is, has no end)
        run, _ = format._run(b"", False)
        if run.status == library.DONE_SO and not format._may_miss:
            raise error_of(format, run, b"", f"record {number + 1}: ", number + 1, input.is_text)


def is_last(input, held):
    """Reads more, of a record that is longer than a block a quarter of it, as it is scanned again then. Whether the input has ended."""
    wanted = len(held) + (len(held) // 4 if len(held) > BLOCK else 1)
    while len(held) < wanted:
        piece = input.read()
        if not piece:
            return True
        held += piece
    return False
