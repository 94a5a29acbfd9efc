"""Deep and odd scansets: which bytes are members.

After `[` or `[^` the first byte is a member whatever it is, and the set closes at the first `]` behind it; of the bytes
between, read from the left, three bytes `a-b` are a range and any other byte is a member (docs/FORMATS.md, "Sets").
"""
import program
from answers import answers, difference, escaped, quoted, shown

ALL = bytes(range(256))
BUT_NUL = bytes(range(1, 256))


def but(text):
    return bytes(it for it in ALL if it not in text)


# A scanset, and its members.
SETS = [
    (b"a", b"a"),
    (b"^a", but(b"a")),
    (b"]", b"]"),
    (b"^]", but(b"]")),
    (b"]-a", b"]^_`a"),
    (b"^]-a", but(b"]^_`a")),
    (b"^^", but(b"^")),
    (b"a^", b"a^"),
    (b"^^-a", but(b"^_`a")),
    (b"-", b"-"),
    (b"^-", but(b"-")),
    (b"--", b"-"),
    (b"---", b"-"),
    (b"----", b"-"),
    (b"-a", b"-a"),
    (b"a-", b"a-"),
    (b"+--", b"+,-"),
    (b"--/", b"-./"),
    (b"a-c-e", b"abc-e"),
    (b"a-c-", b"abc-"),
    (b"a-a", b"a"),
    (b"a-bc-d", b"abcd"),
    (b"a-c0-9", b"abc0123456789"),
    (b"[", b"["),
    (b"[[[[", b"["),
    (b"%d", b"%d"),
    (b"%%", b"%"),
    (b"*5", b"*5"),
    (b" ", b" "),
    (b" \t\n\v\f\r", b" \t\n\v\f\r"),
    (b"^ \t\n\v\f\r", but(b" \t\n\v\f\r")),
    (b"\x01-\xff", BUT_NUL),
    (b"^\x01-\xff", b"\0"),
    (b"\x7f-\x80", b"\x7f\x80"),
    (b"\xfe-\xff", b"\xfe\xff"),
    (b"]" + bytes(it for it in BUT_NUL if it not in b"]-^") + b"^-", BUT_NUL),
    (b"^]" + bytes(it for it in BUT_NUL if it not in b"]-^") + b"^-", b"\0"),
    (b"a-z" * 1300, b"abcdefghijklmnopqrstuvwxyz"),
    (b"a" * 4000, b"a"),
    (b"^" + b"a" * 4000, but(b"a")),
    (b"-" * 3999, b"-"),
]

# A scan format, its fault, and the place.
FAULTS = [
    ("%[", "F7 OpenSet at 1"),
    ("%[]", "F7 OpenSet at 1"),
    ("%[^", "F7 OpenSet at 1"),
    ("%[^]", "F7 OpenSet at 1"),
    ("%[" + "a" * 4094, "F7 OpenSet at 1"),
    ("%[" + "[" * 4094, "F7 OpenSet at 1"),
    ("%[^" + "^" * 4093, "F7 OpenSet at 1"),
    ("%[]" + "-" * 4093, "F7 OpenSet at 1"),
    ("%*65535[", "F7 OpenSet at 7"),
    ("%[z-a]", "F8 BackwardRange at 2"),
    ("%[a--]", "F8 BackwardRange at 2"),
    ("%[^b-a]", "F8 BackwardRange at 3"),
    ("%[]-A]", "F8 BackwardRange at 2"),
    ("%[a-cz-a]", "F8 BackwardRange at 5"),
    ("%[\\xff-\\x01]", "F8 BackwardRange at 2"),
    ("%[" + "a-b" * 1000 + "b-a]", "F8 BackwardRange at 3002"),
    ("%[\\x00]", "F14 Nul at 2"),
    ("%[^\\x00]", "F14 Nul at 3"),
    ("%[]\\x00", "F14 Nul at 3"),
    ("%[a-\\x00]", "F14 Nul at 4"),
    ("%[z-a\\x00]", "F14 Nul at 5"),
]


def membership(word, members):
    """A check that `sf show` counts the members, and that `%1[..]` takes each of them and leaves what is none."""
    def check():
        shows = program.run("show", f"%[{word}]")
        want = f"1 [ text width - slot 1 members {len(members)}\ndestinations 1, width sum -\n".encode()
        fault = difference(shows, (0, want, b""))
        taken = program.run("scan", f"%1[{word}]", stdin=members)
        fault = fault or difference(taken, (0, b"".join(quoted(bytes([it])) + b"\n" for it in members), b""))
        # a byte that is no member stays where it is
        others = but(members)
        for byte in {others[0], others[len(others) // 2], others[-1]} if others and not fault else ():
            left = program.run("scan", f"%1[{word}]", stdin=bytes([byte]))
            fault = fault or difference(left, (1, b"", b"sf: record 1: matching failure at 1, used 0, assigned 0\n"))
        return fault
    return check


def checks():
    for text, members in SETS:
        yield shown(text), membership(escaped(text), bytes(sorted(set(members))))
    for text, fault in FAULTS:
        yield shown(text), answers("show", text, err=f"scan format: {fault}", status=2)
