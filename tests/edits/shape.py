"""Brings the flow of a body to one shape, before its expressions are read: `while` is a loop with an end, `if let` is a match, and what
follows a way out (`if c { return x; }`) stands in the other branch.
"""
from tree import UNIT

EMPTY = ("block", (), None)
ENDS = ("return", "break", "continue")
NEVER = ("unreachable!", "panic!", "bail!", "todo!", "unimplemented!")


def shaped(it):
    """The tree with each block in that shape."""
    if not isinstance(it, tuple) or not it:
        return it
    if isinstance(it[0], str):
        own = OWN.get(it[0])
        it = own(it) if own else it
        return (it[0], *(shaped(part) for part in it[1:]))
    return tuple(shaped(part) for part in it)


def block_of(it):
    """A block with this as its value; of one that is a block, that."""
    return EMPTY if it is None else it if it[0] == "block" else ("block", (), it)


def test(it):
    """An `if`, with a block beside; `if let P = x` is a match."""
    _, condition, then, other = it
    other = block_of(other)
    if other == EMPTY and not then[1] and then[2] and then[2][0] == "if" and block_of(then[2][3]) == EMPTY:
        inner = test(then[2])
        if condition[0] != "is" and inner[0] == "if":
            return ("if", ("bin", "&&", condition, inner[1]), inner[2], other)
    if condition[0] == "is":
        return ("match", condition[2], (("arm", condition[1], None, then), ("arm", ("any",), None, other)))
    return ("if", condition, then, other)


def repeated(it):
    """A `while`, as a loop that ends where the test fails."""
    _, label, condition, body = it
    return ("loop", label, block_of(test(("if", condition, body, block_of(("break", label, None))))))


def ends(it):
    """Whether what follows is never reached from here."""
    if it[0] in ENDS or it[0] == "macro" and it[1] in NEVER:
        return True
    if it[0] == "block":
        return any(one[0] == "do" and ends(one[1]) for one in it[1]) or bool(it[2]) and ends(it[2])
    if it[0] == "if":
        return ends(it[2]) and bool(it[3]) and ends(it[3])
    return it[0] == "match" and all(ends(arm[3]) for arm in it[2])


def is_unit(it):
    """Whether it gives no value, or none that is used."""
    if it is None or it == UNIT or it[0] in (*ENDS, "assign", "loop", "while", "for"):
        return it is None or it[0] != "loop"
    if it[0] == "block":
        return is_unit(it[2])
    if it[0] == "if":
        return is_unit(it[2]) and is_unit(it[3])
    return it[0] == "match" and all(is_unit(arm[3]) or ends(arm[3]) for arm in it[2])


def block(it):
    """A block in which what follows a way out stands in the other branch."""
    _, statements, last = it
    if last == UNIT:
        last = None
    for at, statement in enumerate(statements):
        rest = ("block", statements[at + 1 :], last)
        made = None
        if statement[0] == "let" and statement[4]:
            made = ("match", statement[3], (("arm", statement[1], None, rest), ("arm", ("any",), None, statement[4])))
        elif statement[0] == "do" and statement[1][0] in ENDS:
            return ("block", statements[:at], statement[1])
        elif statement[0] == "do" and (rest[1] or rest[2] or is_unit(statement[1])):
            made = parted(statement[1], rest)
        if made:
            return ("block", statements[:at], made)
    if last and last[0] in ("if", "while"):
        last = OWN[last[0]](last)
    if last and last[0] == "block":
        last = block(last)
        if not any(one[0] == "let" for one in last[1]) or not statements:
            return ("block", (*statements, *last[1]), last[2])
    return ("block", statements, last)


def parted(it, rest):
    """A statement that parts the way, with what follows in the only branch that goes on; nothing where it is none."""
    it = test(it) if it[0] == "if" else it
    if it[0] == "if":
        branches = [ends(it[2]), ends(it[3])]
        if not any(branches) and (rest[1] or rest[2]):
            return None
        return ("if", it[1], *(one if is_end else joined(one, rest) for one, is_end in zip(it[2:], branches, strict=True)))
    if it[0] == "match":
        going = [at for at, arm in enumerate(it[2]) if not ends(arm[3])]
        if len(going) > 1 and (rest[1] or rest[2]):
            return None
        return ("match", it[1], tuple((*arm[:3], joined(arm[3], rest) if at in going else arm[3]) for at, arm in enumerate(it[2])))
    return None


def joined(first, rest):
    """A block, and what follows it."""
    first = block_of(first)
    if not rest[1] and not rest[2]:
        return first
    return ("block", (*first[1], *((("do", first[2]),) if first[2] else ()), *rest[1]), rest[2])


OWN = {"block": block, "if": test, "while": repeated}
