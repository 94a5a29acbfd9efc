"""What --explain and --profile say more, on malicious inputs and formats: the first line and the status stay, the place is right."""
import re

import program
from answers import escaped, quoted, shown

NOTE = rb"  at line (\d+), column (\d+) of the input\n"

# Inputs at whose end stands a byte that no number begins with: short and long lines, none, and many; blocks have 4096 bytes.
FRONTS = [b"", b"\n", b"\n" * 4095, b"\n" * 4096, b"\n" * 9000, b" " * 4095 + b"\n", b" " * 100000, b"\r\n" * 5000, b"\t\n \v\f\n", b" \n" * 4096 + b" ",
          b" " * 8191 + b"\n" + b" " * 8191]

# Bytes that a quoted text has to escape, and words that are no options behind --.
DIRECTIVES = [b"%*7[^\n\"\\]", b"%*[\x01-\x1f]", b"%*[]\x7f-\xff]", b"%*1[\n]"]


def place_of(bytes_):
    """The line and the byte of the line behind these bytes, both from 1."""
    return bytes_.count(b"\n") + 1, len(bytes_) - (bytes_.rfind(b"\n") + 1) + 1


def plain(words, stdin):
    """The call without --explain."""
    return program.run(*[it for it in words if it != "--explain"], stdin=stdin)


def same_front(words, stdin):
    """What differs but for lines behind the first, each behind two blanks; and the lines behind it."""
    status, out, err = program.run(*words, stdin=stdin)
    want_status, want_out, want_err = plain(words, stdin)
    line, _, more = err.partition(b"\n")
    if (status, out, line + b"\n") != (want_status, want_out, want_err):
        return f"{status}, {shown(out)}, {shown(err)} and not {want_status}, {shown(want_out)}, {shown(want_err)}", more
    if any(not it.startswith(b"  ") for it in more.split(b"\n")[:-1]):
        return f"a line that isn't behind two blanks: {shown(more)}", more
    return "", more


def stops(front):
    """A check that the place is that behind this front of the input."""
    def check():
        fault, more = same_front(["scan", "--explain", "%d"], front + b"x")
        found = re.search(NOTE, more)
        if fault or not found:
            return fault or f"no place: {shown(more)}"
        told = int(found[1]), int(found[2])
        return "" if told == place_of(front) else f"{told}, must be {place_of(front)}"
    return check


def stands(directive):
    """A check that the directive is told as it stands in the format."""
    def check():
        fault, more = same_front(["scan", "--explain", escaped(b"%d" + directive)], b"1")
        return fault or ("" if b"directive 2: " + quoted(directive) + b", [ text" in more else shown(more))
    return check


def says(words, text, stdin=b""):
    """A check that the lines behind the first hold this text."""
    def check():
        fault, more = same_front(words, stdin)
        return fault or ("" if text in more else shown(more))
    return check


def refused(*words):
    """A check that the words are refused as they are without --explain: nothing is read, status 2."""
    def check():
        status, out, err = program.run(*words, stdin=b"1\n")
        return "" if (status, out) == (2, b"") and err.endswith(b"\n") and b"  at line" not in err else f"{status}, {shown(out)}, {shown(err)}"
    return check


def checks():
    for front in FRONTS:
        yield f"the place behind {shown(front)}", stops(front)
    for directive in DIRECTIVES:
        yield f"the directive {shown(directive)}", stands(directive)
    # the last of 4,096 directives, and a directive of nearly 4,096 bytes
    yield "directive 4096", says(["scan", "--explain", "a" * 4095 + "b"], b'  directive 4096: "b", byte "b"\n  at line 1, column 4096 of the input\n', b"a" * 4095 + b"c")
    yield "a set of 4,000 bytes", says(["scan", "--explain", "%[" + "a" * 4000 + "]"], b'  directive 1: "%[' + b"a" * 4000 + b']", [ text', b"b")
    yield "white space of 4,000 bytes before", says(["scan", "--explain", " " * 4000 + "%d"], b'  directive 2: "%d", d i32', b"\n\nx")
    yield "a million lines before", says(["scan", "--explain", "%d"], b"  at line 1000001, column 1 of the input\n", b"\n" * 1000000 + b"x")
    for word in ("0", "4", "-1", "1.0", "", "one", "99999999999999999999", "\u0661"):
        yield f"--profile {word!r}", refused("scan", "--explain", f"--profile={word}", "%d")
    yield "--explain with a value", refused("scan", "--explain=1", "%d")
    yield "--explain twice", refused("scan", "--explain", "--explain", "%d")
    yield "--explai", refused("scan", "--explai", "%d")
    yield "a prefix of base 2 in profile 1", says(["scan", "--explain", "%b"], b"base 2 is read and printed by --profile 2", b"1")
    yield "0b under %i in profile 1", says(["scan", "--explain", "%i%n%d"], b'  directive 3: "%d", d i32 width - slot 3\n  at line 1, column 2 of the input\n  there stood "b1"', b"0b1")
    yield "0b under %i in profile 2", says(["scan", "--explain", "--profile", "2", "%i%n;"], b'  directive 3: ";", byte ";"\n  at line 2, column 4 of the input\n', b"\n0b1")
