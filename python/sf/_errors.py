"""What is raised."""
import re

# Why a format is refused (F1 to F21), and why two are no pair (Q1 to Q14): docs/FORMATS.md has each rule.
_FORMATS = {
    1: ("Truncated", "the format ends inside a conversion; %% stands for a percent sign"),
    2: ("ZeroWidth", "a conversion of width 0 takes nothing"),
    3: ("TooWide", "a width is at most 65535"),
    4: ("UnknownLetter", "no conversion of this profile is written so; %% stands for a percent sign"),
    5: ("LeftOut", "this conversion of C is left out"),
    6: ("BadLength", "this letter has no such length"),
    7: ("OpenSet", "no ] closes the set"),
    8: ("BackwardRange", "the range runs backward"),
    9: ("BadCount", "%n has neither a * nor a width"),
    10: ("MixedNumbering", "either all conversions have a number with $, or none has"),
    11: ("BadNumber", "a number is 1 to 32, and what is dropped has none"),
    12: ("NumberTwice", "this number stands twice"),
    13: ("NumberGap", "the numbers leave a gap"),
    14: ("Nul", "a format has no NUL"),
    15: ("FormatTooLong", "a format has at most 4096 bytes"),
    16: ("TooManyDestinations", "a format has at most 32 values"),
    17: ("BadFlag", "this letter has no such flag or precision"),
    18: ("PrecisionTooLarge", "a precision is at most 255"),
    20: ("BadMark", "a = has a width after it, and %c and %n have no =; %c, %[ and %n have no !"),
    21: ("BadGroup", "a group is %?( and %) around conversions or bytes, none within another; first in it is no white space, "
                     "no %n and no conversion with a ?"),
}
_PAIRS = {
    1: ("NotAligned", "what stands here is not what the other format has in its place"),
    2: ("KindDiffers", "the kinds or the letters of the two conversions differ"),
    3: ("NumberDiffers", "the two conversions are of different values"),
    4: ("NoWidth", "a conversion that is read back needs a width"),
    5: ("TooNarrow", "the width is less than the shortest text that is written"),
    6: ("RunsOn", "what is written next could be read by this directive too: write a byte between them at which it stops"),
    7: ("OpenEnd", "nothing is written after this, so what follows could be read as more of it"),
    8: ("LeadingZero", "%i reads a leading zero as octal"),
    9: ("NotWritten", "nothing is written for %n"),
    10: ("BadFlagHere", "what this flag, width or precision writes is not read back"),
    11: ("NoValues", "a pair has at least one value"),
    13: ("MayBeMissing", "what may be missing is not written: leave out the ?, or the %?( and %)"),
    14: ("BadMark", "the two widths differ at a conversion with =, or what this flag, width or letter writes is not read by one with !"),
}
# One part of a scan format (C11 7.21.6.2p3): white space, a byte, a conversion, or a mark of a group.
_PART = re.compile(rb"[\t-\r ]+|%%|%(?:[0-9]+\$)?\*?\??=?!?[0-9]*(?:hh|h|ll|l|j|z|t)?(?:\[\^?.[^]]*\]|[^\[])|.", re.DOTALL)
# How many bytes of an input a message shows.
_SHOWN = 24


def may_miss(format):
    """Whether a value of a scan format may be missing: it has a conversion with a `?`, or a group."""
    return any(it.startswith(b"%") and b"?" in it.partition(b"[")[0] for it in _PART.findall(format))


def directives_of(format):
    """The directives of a scan format, as they stand in it; the marks of its groups are none."""
    return [it for it in _PART.findall(format) if it not in (b"%?(", b"%)")]


class FormatError(ValueError):
    """A format that is none, or two formats that are no pair.

    >>> try:
    ...     sf.scan("%[z-a]", b"")
    ... except sf.FormatError as error:
    ...     print(error)
    ...     error.which, error.fault, error.name, error.at
    scan format: F8 BackwardRange at 2: the range runs backward
    ('scan format', 'F8', 'BackwardRange', 2)

    - `which`: "scan format", "print format" or "pair".
    - `fault`: its code, from F1 to F21, of a pair from Q1 to Q14, and `name` the word for that.
    - `at`: the byte of the format at which it was found, counted from 0; of a pair the directive of
      the scan format, counted from 1.
    - `format`: the format's text, as a str; of a pair that of the scan format.
    """

    def __init__(self, message="", which="", fault="", name="", at=0, format=""):
        super().__init__(message)
        self.which, self.fault, self.name, self.at, self.format = which, fault, name, at, format

    @classmethod
    def _of(cls, which, number, at, format):
        name, why = (_PAIRS if which == "pair" else _FORMATS).get(number, ("", ""))
        fault = f"{'Q' if which == 'pair' else 'F'}{number}"
        return cls(f"{which}: {fault} {name} at {at}: {why}", which, fault, name, at, format.decode("utf-8", "surrogateescape"))


class ScanError(ValueError):
    """What stands there isn't what the format says.

    >>> try:
    ...     list(sf.lines("%d,%hhu", b"1,2\\n3,300\\n"))
    ... except sf.ScanError as error:
    ...     print(error)
    ...     error.number, error.status, error.directive, error.values, error.text
    line 2: out of range at 3, used 5, assigned 1; %hhu takes 0 to 255
    (2, 'out of range', '%hhu', (3, None), b'3,300')

    - `status`: "input failure" (the input ended where a byte was due), "matching failure",
      "out of range", "too long" (more bytes than the limit), "left over" (of what was to be read
      whole), or "stalled" (a record that takes no byte).
    - `number`: that of the line or the record, counted from 1; None where a single text was scanned.
    - `at`: the directive that failed, counted from 1, and `directive` its text in the format; 0 and ""
      where none did.
    - `used`: how many bytes were consumed. `assigned`: how many conversions had stored a value.
    - `values`: a value for each slot, as they were at the failure; None where a slot had none.
    - `text`: the line, or what was scanned; of a record what was read from its start on.
    """

    def __init__(self, message="", status="", number=None, at=0, directive="", used=0, assigned=0, values=(), text=b""):
        super().__init__(message)
        self.status, self.number, self.at, self.directive = status, number, at, directive
        self.used, self.assigned, self.values, self.text = used, assigned, values, text


