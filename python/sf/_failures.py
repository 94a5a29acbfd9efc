"""Why a run failed, in words."""
import re

from . import _library as library
from ._errors import ScanError, directives_of
from ._library import DONE_SO, F32, INPUT_FAILURE, LEFT_OVER, OUT_OF_RANGE, REFUSED, STALLED, STATUS, TOO_LONG

# How many bytes of an input a message shows.
_SHOWN = 24


def error_of(format, run, text, front, number, is_text):
    """Why a run on a text failed, with the values that it had before that. The message begins with `front`."""
    if run.status == REFUSED:
        raise MemoryError("sf: memory was refused")
    status = run.status if run.status != DONE_SO else STALLED
    values = (None,) * format.slots if status in (TOO_LONG, STALLED) else format._run(text, is_text)[1]
    directive = _decoded(directives_of(format._bytes)[run.at - 1]) if run.at else ""
    said = STATUS[status]
    if run.at:
        said += f" at {run.at}, used {run.used}, assigned {run.assigned}"
    rest = text[run.used:]
    message = front + said + _more(format, run, _decoded(rest) if is_text else rest, directive, status)
    given = _decoded(text) if is_text else text
    return ScanError(message, STATUS[status], number, run.at, directive, run.used, run.assigned, values, given)


def failure_of(format, run, line, number, is_text):
    """Why a line failed."""
    line = bytes(line[:-1] if line.endswith(b"\n") else line)
    return error_of(format, run, line, f"line {number}: ", number, is_text)


def left_of(format, line, number, is_text):
    """That something is left of a line."""
    run, _ = format._run(line, is_text)
    run.status = LEFT_OVER
    return error_of(format, run, line, f"line {number}: ", number, is_text)


def _decoded(text):
    return text.decode("utf-8", "surrogateescape")


def _more(format, run, rest, directive, status):
    """What the line of the command doesn't say: which directive, and before what."""
    shown = repr(rest[:_SHOWN]) + (".." if len(rest) > _SHOWN else "")
    if status == OUT_OF_RANGE:
        kind = library.kinds_of(format.profile, False, re.sub("^%[0-9]+[$]", "%", directive).encode())[0]
        return f"; {directive} takes " + ("a finite float" if kind >= F32 else "{} to {}".format(*library.bounds(kind)))
    if status == LEFT_OVER:
        return f" at {run.used}; {shown} is left"
    if not directive:
        return ""
    if status == INPUT_FAILURE or not rest:
        return f"; the input ended at {directive!r}"
    return f"; {directive!r} doesn't take {shown}" if status != TOO_LONG else ""
