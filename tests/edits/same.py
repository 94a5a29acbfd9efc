"""Whether an edit changes no value: `x & 1 == 1` and `x & 1 != 0` are the same whatever `x` is, and so are `!found` and `found == false`.

The smallest expression that the edit changes is read as it was and as it is then, or the assignments: `at += 3;` and `at += 1; at += 2;`
are the same, and so is a value that gets a name by `let`. What is no operator and no number (a name, a field, a
call) is a part of it that may have any value: both are computed at many values of these parts, for numbers with a sign and without one,
of each width. A result that is out of range, and a division by zero, are faults. What can't be read so is taken for a change.

Before that form.py brings the whole bodies to one form, which knows of more than expressions.
"""
import itertools
import math
import operator
import re

from about import About
from form import have_one_form

TOKEN = re.compile(r"""b?"(?:[^"\\]|\\.)*"|b?'(?:\\[^']{1,8}|[^'\\])'|\d\w*(?:\.\d\w*)?|[A-Za-z_]\w*!?|'\w+
    |<<=|>>=|\.\.=|\.\.\.|::|->|=>|==|!=|<=|>=|&&|\|\||<<|>>|\.\.|[-+*/%&|^]=|[^\s\w]""", re.X)
OPENS, CLOSES = "([{", ")]}"
# What an expression stands beside.
EDGES = {";", ",", ":", "=>", "->", "let", "if", "while", "match", "return", "in", "else", "break", "{", "}"}
ASSIGNS = {f"{it}=": it for it in ("+", "-", "*", "/", "%", "&", "|", "^", "<<", ">>")}
LEVELS = [("..", "..="), ("||",), ("&&",), ("==", "!=", "<", ">", "<=", ">="), ("|",), ("^",), ("&",), ("<<", ">>"), ("+", "-"),
          ("*", "/", "%")]
NUMBER = re.compile(r"(0x[0-9a-fA-F_]+|0b[01_]+|\d[\d_]*)(?:[iu](?:8|16|32|64|128|size))?")
WIDTHS = {"u8": 8, "u16": 16, "u32": 32, "u64": 64, "usize": 64, "u128": 128}
LANES = {"simd_lt": "<", "simd_le": "<=", "simd_gt": ">", "simd_ge": ">=", "simd_eq": "==", "simd_ne": "!="}
# What has the same value as another call of the same thing: `x.is_none()` as `!x.is_some()`.
TURNED = {"is_none": "is_some", "is_err": "is_ok"}
# The least and the greatest number of each type.
RANGES = [(least, most) for bits in (64, 8, 16, 32) for least, most in ((0, 2**bits - 1), (-(2 ** (bits - 1)), 2 ** (bits - 1) - 1))]
# Calls that have no effect and can't fail.
PLAIN = re.compile(r"[^()\[\]]*\.(?:len|is_some|is_ok|is_none|is_err|is_empty)\( \)")
COMPARES = {"==": operator.eq, "!=": operator.ne, "<": operator.lt, ">": operator.gt, "<=": operator.le, ">=": operator.ge}
# Numbers that name their type.
TYPED = re.compile(r"b'.*'|\d\w*?[iu](?:8|16|32|64|128|size)")


class Unread(Exception):
    """A text that is read no further."""


class Fault(Exception):
    """A value that there is not."""


def edge(tokens, at, step, depth):
    """Where the expression ends that a place stands in, so many brackets deep: the place beyond its last token to the left (-1) or the
    right (1)."""
    opens, closes = (OPENS, CLOSES) if step > 0 else (CLOSES, OPENS)
    while 0 <= at < len(tokens):
        it = tokens[at]
        if not depth and (it in EDGES or it in closes):
            break
        depth += (it in opens) - (it in closes)
        at += step
    return at


def changed(was, now):
    """The tokens of the smallest expression that is changed, as it was and as it is now, and what stands before it."""
    old, new = TOKEN.findall(was), TOKEN.findall(now)
    first = next((at for at, both in enumerate(zip(old, new)) if both[0] != both[1]), min(len(old), len(new)))
    rest = old[first:], new[first:]
    last = next((at for at, both in enumerate(zip(*map(reversed, rest))) if both[0] != both[1]), min(map(len, rest)))
    deep = {sum((it in OPENS) - (it in CLOSES) for it in text[first : len(text) - last]) for text in (old, new)}
    if len(deep) > 1:
        raise Unread
    left = edge(old, first - 1, -1, max(0, -min(deep))) + 1
    right = edge(old, len(old) - last, 1, max(0, min(deep))) - len(old)
    if old[len(old) + right :][:1] == ["=>"] and old[left - 1] != "if":
        raise Unread
    return old[left : len(old) + right], new[left : len(new) + right], old[left - 1] if left else ""


class Reader:
    """Reads an expression of tokens into tuples: (operator, parts..), ("number", n), ("part", text)."""

    def __init__(self, tokens):
        self.tokens, self.at = tokens, 0

    def here(self):
        return self.tokens[self.at] if self.at < len(self.tokens) else ""

    def next(self):
        self.at += 1
        return self.tokens[self.at - 1] if self.at <= len(self.tokens) else ""

    def whole(self):
        found = self.level(0)
        if self.at != len(self.tokens):
            raise Unread
        return found

    def level(self, number):
        if number == len(LEVELS):
            return self.cast()
        found = self.level(number + 1)
        while self.here() in LEVELS[number]:
            found = (self.next(), found, self.level(number + 1))
            if found[0] == "|" and found[2][0] == "number":
                # (what `matches!` has is a pattern)
                raise Unread
        return found

    def cast(self):
        found = self.unary()
        while self.here() == "as":
            self.next()
            found = ("as", found, self.next())
        return found

    def unary(self):
        it = self.here()
        if it == "!":
            self.next()
            return ("!", self.unary())
        if it == "-":
            raise Unread
        if it in ("*", "&"):
            found = (self.next(), self.unary())[1]
            return ("part", it + (found[1] if found[0] == "part" else repr(found)))
        return self.postfix()

    def group(self):
        """The text of a group in brackets that begins here."""
        start, depth = self.at, 0
        while True:
            it = self.next()
            if not it:
                raise Unread
            depth += (it in OPENS) - (it in CLOSES)
            if not depth:
                return " ".join(self.tokens[start : self.at])

    def postfix(self):
        it = self.here()
        if it == "(":
            self.next()
            found = self.level(0)
            if self.next() != ")":
                raise Unread
        else:
            it = self.next()
            number = NUMBER.fullmatch(it)
            if number:
                found = ("number", int(number[1].replace("_", ""), 0) if number[1][:2] in ("0x", "0b") else int(number[1].replace("_", "")))
            elif re.fullmatch(r"b'(\\?.)'", it):
                found = ("part", it) if "\\" in it else ("number", ord(it[2]))
            elif it in ("true", "false"):
                found = ("truth", it == "true")
            elif re.fullmatch(r"[A-Za-z_]\w*", it) and it not in ("move", "unsafe", "loop", "for", "mut", "ref", "as"):
                found = ("part", it)
            else:
                raise Unread
        while self.here() in (".", "::", "?", "(", "["):
            known = self.known(found)
            if known:
                found = known
                continue
            text = found[1] if found[0] == "part" else repr(found)
            it = self.here()
            more = self.group() if it in "([" else self.next() + (self.next() if it != "?" else "")
            found = ("part", f"{text}{more}")
        return found


    def known(self, found):
        """The call of a function of which it is known what it computes, where one begins here: of `found`, or with it as its name."""
        start, name = self.at, found[1] if self.here() == "(" and found[0] == "part" else ""
        if self.here() == "." and self.tokens[self.at + 2 : self.at + 3] == ["("]:
            name = f".{self.tokens[self.at + 1]}"
            self.at += 2
        if name.endswith("::splat") or name in (".min", ".max", ".saturating_sub", ".contains") or name[1:] in LANES:
            inside = self.group().split(" ")[1:-1]
            if name == ".contains" and found[0] in ("..", "..=") and inside[:1] == ["&"]:
                value = Reader(inside[1:]).whole()
                return ("&&", (">=", value, found[1]), ("<" if found[0] == ".." else "<=", value, found[2]))
            if name != ".contains":
                value = Reader(inside).whole()
                if value == ("number", 0):
                    # (numbers are at least 0 here: whoever asks for that has others)
                    raise Unread
                return (LANES.get(name[1:], name), found, value) if name.startswith(".") else value
        elif name[1:] in TURNED and self.group() == "( )":
            return ("!", ("part", f"{found[1] if found[0] == 'part' else repr(found)}.{TURNED[name[1:]]}( )"))
        elif name == ".is_empty" and self.group() == "( )":
            return ("==", ("part", f"{found[1] if found[0] == 'part' else repr(found)}.len( )"), ("number", 0))
        self.at = start
        return None


def split(tokens, by):
    """The tokens between those that stand by themselves."""
    found, depth = [[]], 0
    for it in tokens:
        depth += (it in OPENS) - (it in CLOSES)
        if it in by and not depth:
            found.append([])
        else:
            found[-1].append(it)
    return found


def put(tree, state):
    """An expression after some assignments."""
    if tree[0] != "part":
        return tuple(put(it, state) if isinstance(it, tuple) else it for it in tree)
    for place in state:
        base = re.match(r"\W*(\w+)", place)[1]
        if tree[1] != place and (place in tree[1] or tree[1] in place or "(" in tree[1] and re.search(rf"\b{base}\b", tree[1])):
            raise Unread
    return state.get(tree[1], tree)


def read(tokens):
    """What statements come to: each place that they assign, with its value, and the value of the last one if that is an expression; and
    what they call."""
    state, names, calls, statements = {}, set(), [], split(tokens, ";")
    for at, it in enumerate(statements):
        if not it and at:
            continue
        sign = next((one for one in it if one == "=" or one in ASSIGNS), None)
        if not sign and at < len(statements) - 1:
            raise Unread
        first, *more = split(it, (sign,)) if sign else ([], it)
        if len(more) != 1:
            raise Unread
        if first[:1] == ["let"]:
            first = split(first, (":",))[0][1:]
            first = first[first[0] == "mut" :]
            names.add(" ".join(first))
        tree, place = Reader(more[0]).whole(), Reader(first).whole() if sign else ("part", "")
        own = [name for name in parts(tree) if "(" in name and not PLAIN.fullmatch(name)]
        if own and sign in ASSIGNS:
            # (the place is read after the call)
            raise Unread
        calls += own
        if place[0] != "part":
            raise Unread
        state[place[1]] = (ASSIGNS[sign], put(place, state), put(tree, state)) if sign in ASSIGNS else put(tree, state)
    return {place: tree for place, tree in state.items() if place not in names}, calls


def parts(tree):
    """The parts of an expression that may have any value, as often as they stand there."""
    if tree[0] == "part":
        return [tree[1]]
    return [name for it in tree[1:] if isinstance(it, tuple) for name in parts(it)]


def numbers(tree):
    if tree[0] == "number":
        return [tree[1]]
    return [number for it in tree[1:] if isinstance(it, tuple) for number in numbers(it)]


def is_truth(tree, found):
    if not isinstance(tree, tuple) or tree[0] == "number":
        return False
    if tree[0] in ("!", "part"):
        return is_truth(tree[1], found) if tree[0] == "!" else tree[1] in found
    return tree[0] in ("truth", "&&", "||", *COMPARES)


def truths(tree, wanted, found):
    """Adds to what is found the parts that are true or false, of an expression that is one, or not."""
    if tree[0] == "part" and (wanted or re.search(r"\.is_(?:some|ok)\( \)$", tree[1])):
        found.add(tree[1])
    for it in tree[1:]:
        if isinstance(it, tuple):
            beside = tree[0] in ("==", "!=", "&", "|", "^") and any(is_truth(other, found) for other in tree[1:])
            truths(it, tree[0] in ("&&", "||") or beside or wanted and tree[0] in ("&", "|", "^", "!"), found)


def value(tree, given, ends):
    """What an expression is, at given values of its parts, of numbers between two ends."""
    kind = tree[0]
    if kind in ("number", "truth"):
        return tree[1]
    if kind == "part":
        return given[tree[1]]
    first = value(tree[1], given, ends)
    if kind in ("&&", "||"):
        return value(tree[2], given, ends) if first == (kind == "&&") else first
    if kind == "!":
        return not first if isinstance(first, bool) else sum(ends) - first
    if kind == "as":
        if tree[2] not in WIDTHS:
            raise Unread
        return int(first) % 2 ** WIDTHS[tree[2]]
    return computed(kind, first, value(tree[2], given, ends), ends)


def computed(kind, first, second, ends):
    if kind in COMPARES:
        return COMPARES[kind](first, second)
    if kind in ("..", "..="):
        return first, second + (kind == "..=")
    if kind.startswith("."):
        return {".min": min(first, second), ".max": max(first, second), ".saturating_sub": max(ends[0], first - second)}[kind]
    if kind in ("&", "|", "^"):
        return {"&": first & second, "|": first | second, "^": first ^ second}[kind]
    if kind in "/%" and not second or kind in ("<<", ">>") and not 0 <= second < (ends[1] - ends[0]).bit_length():
        raise Fault
    if kind == "<<":
        return ((first << second) - ends[0]) % (ends[1] - ends[0] + 1) + ends[0]
    found = {"+": lambda: first + second, "-": lambda: first - second, "*": lambda: first * second, "/": lambda: divided(first, second),
             "%": lambda: first - second * divided(first, second), ">>": lambda: first >> second}[kind]()
    if not ends[0] <= found <= ends[1]:
        raise Fault
    return found


def divided(first, second):
    """A quotient, cut off towards zero."""
    found = abs(first) // abs(second)
    return found if (first < 0) == (second < 0) else -found


def samples(names, flags, found, ends):
    """Values of at most three parts, at which two expressions are compared: all small ones, those about the numbers that stand there, and
    others."""
    near = {it + by for it in found for by in (-1, 0, 1)}
    about = {one + sign * two + by for one in found | {0} for two in found | {0} for sign in (1, -1) for by in (-1, 0, 1)}
    usual = {*range(12), *about, *(2**it + by for it in range(3, 66) for by in (-1, 0, 1)), *(ord(it) for it in "\t\r 09AFafz")}
    most = {*ends, ends[1] - 1, ends[1] // 2}
    chosen = {*(usual if len(names) < 3 else near | {*range(6)}), *most}
    chosen = sorted(it for it in chosen | {-it for it in chosen} if ends[0] <= it <= ends[1])
    each = [[False, True] if it in flags else chosen for it in names]
    if len(names) > 3 or math.prod(map(len, each)) > 200000:
        raise Unread
    yield from itertools.product(*each)
    if len(names) == 1 and not flags:
        yield from ([it] for it in range(max(ends[0], -1000), min(ends[1], 5000) + 1))


def apart(one, other):
    """The smallest parts of two expressions in which they differ."""
    if len(one) == len(other) == 3 and one[0] == other[0]:
        for at, beside in ((1, 2), (2, 1)):
            if one[beside] == other[beside] and isinstance(one[at], tuple):
                return apart(one[at], other[at])
    return one, other


def result(tree, given, ends):
    try:
        return value(tree, given, ends)
    except Fault:
        return None


def is_equal(trees, flags):
    """Whether two expressions have the same value at all samples. Of three parts these are few, so that they must be all that differs."""
    names = sorted({name for it in trees for name in parts(it)})
    if len(names) > 2 and apart(*trees) != tuple(trees) or any(map(is_guarded, trees)):
        return False
    found = {number for it in trees for number in numbers(it)}
    if not found and len(names) < 3 and not are_equal_floats(trees, names, flags):
        return False
    return all(is_equal_between(trees, flags, names, found, ends) for ends in RANGES if all(it <= ends[1] for it in found))


def are_equal_floats(trees, names, flags):
    """Whether two expressions are the same of floats, too, of which none may be less, equal or greater. With no number among them they may
    be that, unless what is computed is for whole numbers alone."""
    each = [[False, True] if it in flags else [0.5, 1.5, math.nan] for it in names]
    try:
        both = [[result(it, dict(zip(names, values, strict=True)), RANGES[1]) for it in trees] for values in itertools.product(*each)]
        return all(one == other or one != one and other != other for one, other in both)
    except (TypeError, ValueError):
        return True


def is_equal_between(trees, flags, names, found, ends):
    for values in samples(names, flags, found, ends):
        given = dict(zip(names, values, strict=True))
        if result(trees[0], given, ends) != result(trees[1], given, ends):
            return False
    return True


def is_guarded(tree):
    """Whether a part that may have an effect or fail is computed only where a test before it comes out so."""
    if tree[0] in ("&&", "||") and any(("(" in it or "[" in it) and not PLAIN.fullmatch(it) for it in parts(tree[2])):
        return True
    return any(is_guarded(it) for it in tree[1:] if isinstance(it, tuple))


def is_same(was, now, about=None, head=None):
    """Whether two bodies are known to come to the same, by what is known of the crate and of the function's head."""
    return have_one_form(was, now, about or About(), head) or is_same_part(was, now)


def is_same_part(was, now):
    """Whether what differs between two texts, an expression or some assignments, comes to the same in both."""
    try:
        *tokens, before = changed(was, now)
        if len({tuple(sorted(filter(TYPED.fullmatch, it))) for it in tokens}) > 1:
            return False
        (old, calls), (new, others) = map(read, tokens)
        if not old or old.keys() != new.keys() or calls != others:
            return False
        if calls and any(parts(old[it]) != parts(new[it]) for it in old):
            return False
        return all(are_same((old[it], new[it]), before in ("if", "while")) for it in old)
    except (Unread, TypeError, IndexError, RecursionError, OverflowError):
        return False


def are_same(trees, is_test):
    flags = set()
    for it in trees * 2:
        truths(it, is_test, flags)
    return any(is_equal(both, flags) for both in {apart(*trees), trees})
