"""Inputs in pieces, and in blocks of whole lines."""
import os

# How many bytes are asked for at once. (What is made of a block then fits the caches.)
BLOCK = 1 << 15


class Input:
    """The bytes of a file, a file object or a text, in pieces; closed at its end if it was opened here."""

    def __init__(self, source):
        self.is_text, self._file, self._again = False, None, b""
        if isinstance(source, (str, os.PathLike)):
            self._file = open(source, "rb", 0)
            self._read = self._file.read
        elif hasattr(source, "read"):
            # (read1 gives what is there, as of a pipe; read may wait until all is)
            self._read = getattr(source, "read1", source.read)
        else:
            self._pieces = _pieces_of(source)
            self._read = lambda _: next(self._pieces, b"")

    def __enter__(self):
        return self

    def __exit__(self, *_):
        if self._file:
            self._file.close()

    def __iter__(self):
        return iter(self.read, b"")

    def read(self):
        """The next piece: nothing at the end."""
        if self._again:
            piece, self._again = self._again, b""
            return piece
        piece = self._read(BLOCK)
        if isinstance(piece, str):
            self.is_text = True
            return piece.encode("utf-8", "surrogateescape")
        if piece is None:
            raise BlockingIOError("the file has no bytes now, and doesn't wait for them")
        if not isinstance(piece, (bytes, bytearray)):
            raise TypeError(f"a read gave {type(piece).__name__} in place of bytes or str")
        return piece

    def give_back(self, piece):
        """What is read again."""
        self._again = piece


def _pieces_of(text):
    try:
        view = memoryview(text).cast("B")
    except TypeError:
        raise TypeError(f"a file's name, a file object or bytes is wanted, not {type(text).__name__}") from None
    for at in range(0, len(view), BLOCK):
        yield bytes(view[at:at + BLOCK])


def blocks_of_lines(pieces, limit):
    """The input in blocks of whole lines. Of a line of more than `limit` bytes there is a byte more, at the end of a block."""
    held = bytearray()
    for piece in pieces:
        end = piece.rfind(b"\n") + 1
        if end:
            end += len(held)
            held += piece
            block, held = held, held[end:]
            del block[end:]
            yield block
            del block
        else:
            held += piece
        if len(held) > limit:
            del held[limit + 1:]
            yield held
            held = bytearray()
            pass_line(pieces)
    if held:
        yield held


def pass_line(pieces):
    """Passes over what is left of a line."""
    for piece in pieces:
        end = piece.find(b"\n") + 1
        if end:
            pieces.give_back(piece[end:])
            return
