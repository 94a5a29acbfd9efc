"""Whether two bodies of a function come to the same: both are brought to one form, which no prover need judge.

Each step keeps the value, the effects and the failures of what it changes; a step whose condition isn't known from the sources is left
out. So two bodies with one form are the same, and two that are the same may have two forms. What an overflow is depends on the order of
a sum of signed numbers, so only sums of unsigned ones are put in order.
"""
import hashlib
import re

import shape
from kinds import ARITHMETIC, BITS, COMPARES, INTEGERS, METHODS, SHIFTS, SIGNED, UNSIGNED, Kinds, bare
from names import Names, key, renumbered
from tree import UNIT, Unread, read

TURNED = {"==": "!=", "!=": "==", "<": ">=", ">=": "<", ">": "<=", "<=": ">"}
MIRRORED = {">": "<", ">=": "<="}
TESTS = {"Some": ("is_some", True), "None": ("is_some", False), "Ok": ("is_ok", True), "Err": ("is_ok", False)}
OTHER = {"Some": ("value", ("path", "None")), "None": ("of", "Some", (("any",),)),
         "Ok": ("of", "Err", (("any",),)), "Err": ("of", "Ok", (("any",),))}
TRUE, FALSE = ("truth", True), ("truth", False)
MOST = {**{name: 2 ** (bits - 1) - 1 for name, bits in SIGNED.items()}, **{name: 2**bits - 1 for name, bits in UNSIGNED.items()}}


def method(it, name, *args):
    return ("method", it, name, "", args)


def chain(it, sign):
    """The parts of a chain of one sign."""
    return [*chain(it[2], sign), *chain(it[3], sign)] if it[:2] == ("bin", sign) else [it]


def chained(parts, sign):
    made = parts[0]
    for it in parts[1:]:
        made = ("bin", sign, made, it)
    return made


class Form:
    """Brings the body of one function to its form. Where a part stands (`at`): `fn` as the function's result, `loop` as the last of a
    loop's body, else `value`."""

    def __init__(self, body, about, head=None):
        self.about, self.head = about, head
        self.names = Names(head.parameters if head else ())
        self.tree = self.names.of(read(body), self.names.given)
        self.kinds, self.put = Kinds(about, head, self.names), {}
        self.result = head.result if head and not head.is_generic else None

    def whole(self):
        # (the names of parameters stay what they are)
        parameters = {number: number for number in self.names.given.values()}
        return renumbered(self.form(shape.shaped(self.tree), "fn"), parameters)

    def form(self, it, at="value"):
        if not isinstance(it, tuple) or not it:
            return it
        if not isinstance(it[0], str):
            return tuple(self.form(part) for part in it)
        own = getattr(self, f"form_{it[0]}", None)
        if own:
            made = own(it, at)
        else:
            made = (it[0], *(self.form(part) for part in it[1:]))
        if at == "fn" and self.result:
            made = self.settled(made, self.result)
        return made

    def key(self, it):
        return key(it, self.names.called)

    # Numbers.

    def settled(self, it, wanted):
        """A part whose type is known from where it stands: a number there needs no type of its own."""
        if it[0] == "int":
            return (*it[:2], wanted if wanted in INTEGERS else "")
        if it[0] == "block" and it[2]:
            return (*it[:2], self.settled(it[2], wanted))
        if it[0] == "un" and it[1] == "&" and it[2][0] == "int":
            return (*it[:2], self.settled(it[2], bare(wanted)))
        return it

    def beside(self, first, second):
        """Two operands of one type."""
        for one, other in ((first, second), (second, first)):
            if self.kinds.is_fixed(other):
                first, second = (self.settled(it, self.kinds.type_of(other)) if it is one else it for it in (first, second))
        return first, second

    def form_text(self, it, at):
        return it

    def form_path(self, it, at):
        """A name of the crate; of a constant that is a number, that."""
        value, known = self.about.values.get(it[1]), self.about.constants.get(it[1])
        return (*value[:2], known) if value and known in INTEGERS else it

    def form_local(self, it, at):
        return self.put.get(it[1], it)

    def form_field(self, it, at):
        return ("field", self.form(it[1]), it[2])

    def form_as(self, it, at):
        inside = self.form(it[1])
        if it[2] in INTEGERS and inside[0] == "int" and (inside[2] or inside[1] < 2**31):
            value = inside[1] % 2 ** {**SIGNED, **UNSIGNED}[it[2]]
            return ("int", value, it[2]) if value <= MOST[it[2]] else ("as", inside, it[2])
        return inside if it[2] in INTEGERS and self.kinds.type_of(inside) == it[2] and self.kinds.is_fixed(inside) else ("as", inside, it[2])

    def form_un(self, it, at):
        inside = self.form(it[2])
        if it[1] == "!":
            return self.negated(inside)
        if (it[1], inside[:2]) == ("*", ("un", "&")):
            return inside[2]
        return ("un", it[1], inside)

    def negated(self, it):
        """What is true where this is not; of numbers, its bits turned."""
        if it[0] == "truth":
            return ("truth", not it[1])
        if it[:2] == ("un", "!"):
            return it[2]
        if it[:2] in (("bin", "&&"), ("bin", "||")):
            return self.joined_by("||" if it[1] == "&&" else "&&", self.negated(it[2]), self.negated(it[3]))
        if it[0] == "bin" and it[1] in COMPARES and (it[1] in ("==", "!=") or self.kinds.is_integer(it[2]) or self.kinds.is_integer(it[3])):
            return self.compared(TURNED[it[1]], it[2], it[3])
        return ("un", "!", it)

    def form_bin(self, it, at):
        sign, first, second = it[1], self.form(it[2]), self.form(it[3])
        if sign in ("&&", "||"):
            return self.joined_by(sign, first, second)
        if sign not in SHIFTS:
            first, second = self.beside(first, second)
        if sign in COMPARES:
            return self.compared(sign, first, second)
        if sign in ("&", "|") and self.is_truth(first) and self.is_truth(second) and self.kinds.is_total((first, second)):
            return self.joined_by(sign * 2, first, second)
        return self.computed(sign, first, second)

    def is_truth(self, it):
        return self.kinds.type_of(it) == "bool" or it[:2] == ("un", "!") and self.is_truth(it[2])

    def joined_by(self, sign, first, second):
        """`a && b` or `a || b`, as one chain; parts beside one another that have no effect and can't fail stand in order."""
        stops, made = ("truth", sign == "||"), []
        for it in chain(("bin", sign, first, second), sign):
            if it == ("truth", sign == "&&"):
                continue
            made.append(it)
            if it == stops:
                break
        if made and made[-1] == stops and self.kinds.is_total(tuple(made)):
            return stops
        parts, run = [], []
        for it in [*made, None]:
            if it and self.kinds.is_total(it):
                run.append(it)
            else:
                parts += [*sorted({self.key(one): one for one in run}.values(), key=self.key), *([it] if it else [])]
                run = []
        return chained(parts, sign) if parts else ("truth", sign == "&&")

    def compared(self, sign, first, second):
        """A comparison: with a number to the right, by `<`, `>=`, `==` or `!=`; of others, by `<` or `<=`."""
        if self.kinds.is_pure(first) and self.kinds.is_pure(second):
            if first[0] in ("int", "truth") and second[0] not in ("int", "truth"):
                sign, first, second = {"<": ">", ">": "<", "<=": ">=", ">=": "<="}.get(sign, sign), second, first
            elif sign in MIRRORED and second[0] != "int":
                sign, first, second = MIRRORED[sign], second, first
            elif sign in ("==", "!=") and second[0] not in ("int", "truth") and self.key(second) < self.key(first):
                first, second = second, first
        if sign in ("==", "!=") and second[0] == "truth":
            return first if (sign == "==") == second[1] else self.negated(first)
        if first[0] == second[0] == "int":
            return ("truth", {"==": first[1] == second[1], "!=": first[1] != second[1], "<": first[1] < second[1], ">": first[1] > second[1],
                              "<=": first[1] <= second[1], ">=": first[1] >= second[1]}[sign])
        if second[0] == "int" and not (first[0] == "un" and first[1] == "&"):
            return self.with_number(sign, first, second)
        if sign in ("==", "!=") and ("path", "None") in (first, second):
            it = method(first if second == ("path", "None") else second, "is_some")
            return it if sign == "!=" else self.negated(it)
        return ("bin", sign, first, second)

    def with_number(self, sign, it, number):
        _, value, suffix = number
        if sign in ("<=", ">"):
            sign, value = {"<=": "<", ">": ">="}[sign], value + 1
        known = bare(self.kinds.type_of(it)) or suffix
        if known in UNSIGNED:
            if value == 0 and sign in ("<", ">=") and self.kinds.is_total(it):
                return ("truth", sign == ">=")
            if value == 1 and sign in ("<", ">="):
                sign, value = {"<": "==", ">=": "!="}[sign], 0
        if known in INTEGERS and known not in ("usize", "isize"):
            if value == MOST[known] and sign in ("<", ">="):
                sign = {"<": "!=", ">=": "=="}[sign]
            elif value == MOST[known] + 1 and sign in ("<", ">=") and self.kinds.is_total(it):
                return ("truth", sign == "<")
        return ("bin", sign, it, ("int", value, suffix))

    def computed(self, sign, first, second):
        """A number that is computed. Nothing is added, and nothing is taken by one; operands that have no effect stand in order."""
        if first[0] == second[0] == "int" and sign in (*ARITHMETIC, *BITS):
            return self.folded(sign, first, second)
        if second[0] == "int" and (second[1], sign) in ((0, "+"), (0, "-"), (1, "*"), (1, "/"), (0, "<<"), (0, ">>"), (0, "|"), (0, "^")):
            return first
        if first[0] == "int" and (first[1], sign) in ((0, "+"), (1, "*"), (0, "|"), (0, "^")):
            return second
        if sign in ("/", "%") and second[0] == "int" and second[1] & (second[1] - 1) == 0 < second[1] and self.kinds.is_unsigned(first):
            sign, second = (">>", ("int", second[1].bit_length() - 1, "")) if sign == "/" else ("&", ("int", second[1] - 1, second[2]))
        elif sign in SHIFTS and second[0] == "int" and self.kinds.is_unsigned(first):
            second = ("int", second[1], "")
        if sign in ("&", "|", "^") or sign == "+" and (self.kinds.is_unsigned(first) or self.kinds.is_unsigned(second)):
            parts = chain(("bin", sign, first, second), sign)
            if self.kinds.is_pure(tuple(parts)):
                return self.summed(sign, parts)
        if sign == "+" and second[0] == "int" and first[:2] == ("bin", "+") and first[3][0] == "int":
            both = self.folded("+", first[3], second)
            return ("bin", "+", first[2], both) if both[0] == "int" else ("bin", sign, first, second)
        if sign in ("+", "*") and self.kinds.is_pure((first, second)) and (self.kinds.is_integer(first) or self.kinds.is_integer(second)):
            if first[0] == "int" or second[0] != "int" and self.key(second) < self.key(first):
                first, second = second, first
        return ("bin", sign, first, second)

    def summed(self, sign, parts):
        """A chain in order, with its numbers as one."""
        numbers = [it for it in parts if it[0] == "int"]
        others = sorted((it for it in parts if it[0] != "int"), key=self.key)
        while len(numbers) > 1:
            both = self.folded(sign, numbers[0], numbers[1])
            if both[0] != "int":
                break
            numbers[:2] = [both]
        if sign in ("+", "|", "^") and len(numbers) == 1 and numbers[0][1] == 0:
            numbers = []
        return chained([*others, *sorted(numbers)], sign)

    @staticmethod
    def folded(sign, first, second):
        """Two numbers as one, where that is in the range of their type; of a type that isn't known, of each type."""
        one, two, suffix = first[1], second[1], first[2] or second[2]
        whole = {"+": one + two, "-": one - two, "*": one * two, "&": one & two, "|": one | two, "^": one ^ two}
        if two:
            whole |= {"/": one // two, "%": one % two}
        if first[2] and second[2] and first[2] != second[2] or not 0 <= whole.get(sign, -1) <= MOST.get(suffix, 127):
            return ("bin", sign, first, second)
        return ("int", whole[sign], suffix)

    # Calls.

    def form_call(self, it, at):
        made, head = ("call", self.form(it[1]), self.form(it[2])), self.kinds.head_of(it)
        if head and not head.is_generic and len(head.parameters) == len(made[2]):
            wanted = [it if bare(it) in INTEGERS else None for _, it, _ in head.parameters]
            return (*made[:2], tuple(self.settled(one, it) if it else one for one, it in zip(made[2], wanted, strict=True)))
        return made

    def form_method(self, it, at):
        _, of, name, more, args = it
        of, args = self.form(of), self.form(args)
        plain = ("method", of, name, more, args)
        if name in self.about.names:
            return plain
        if name in ("is_none", "is_err") and not args:
            return self.negated(method(of, {"is_none": "is_some", "is_err": "is_ok"}[name]))
        if name == "is_empty" and not args and of[0] != "range":
            return self.compared("==", method(of, "len"), ("int", 0, "usize"))
        if name == "map_or" and len(args) == 2 and args[0] == FALSE:
            return method(of, "is_some_and", args[1])
        if name == "contains" and of[0] == "range" and args[0][:2] == ("un", "&") and self.kinds.is_total(args[0]):
            return self.within(of, args[0][2]) or plain
        if name == "any" and of[0] == "method" and of[2] == "iter":
            return self.is_any(of[1], args) or plain
        if name in ("min", "max") and len(args) == 1:
            first, second = self.beside(of, args[0])
            if self.kinds.is_pure((first, second)) and (self.kinds.type_of(first) in INTEGERS or self.kinds.type_of(second) in INTEGERS):
                first, second = sorted((first, second), key=lambda one: (one[0] == "int", self.key(one)))
                return method(first, name, second)
        if METHODS.get(name) == "same" and self.kinds.is_fixed(of):
            args = tuple(self.settled(one, self.kinds.type_of(of)) for one in args)
        return ("method", of, name, more, args)

    def is_any(self, of, args):
        """`list.iter().any(|x| *x == b)`, which is `list.contains(&b)`."""
        if args[0][0] != "closure" or len(args[0][1]) != 1 or args[0][1][0][0][0] != "bind":
            return None
        (pattern, _), body = args[0][1][0], args[0][2]
        one = ("un", "*", ("local", pattern[1]))
        if body[:2] != ("bin", "==") or one not in body[2:] or not self.kinds.is_total(body):
            return None
        other = body[3] if body[2] == one else body[2]
        return None if repr(("local", pattern[1])) in repr(other) else method(of, "contains", ("un", "&", other))

    def within(self, of, it):
        """Whether a number is in a range."""
        _, first, last, sign = of
        if not all(one is None or self.kinds.is_integer(one) and self.kinds.is_total(one) for one in (first, last)):
            return None
        tests = [self.compared(">=", *self.beside(it, first))] if first else []
        tests += [self.compared("<" if sign == ".." else "<=", *self.beside(it, last))] if last else []
        return self.joined_by("&&", *tests) if len(tests) == 2 else tests[0] if tests else None

    def form_range(self, it, at):
        first, last = self.form(it[1]), self.form(it[2])
        if first and last:
            first, last = self.beside(first, last)
        return ("range", first, last, it[3])

    @staticmethod
    def half_open(it):
        """A range that is only walked through or cut by, without its last number."""
        if it[0] == "range" and it[3] == "..=" and it[2] and it[2][0] == "int":
            return ("range", it[1], ("int", it[2][1] + 1, it[2][2]), "..")
        return it

    def form_index(self, it, at):
        of, where = self.form(it[1]), self.form(it[2])
        known = bare(self.kinds.type_of(of))
        if known.startswith(("[", "Vec<")) or where[0] == "range":
            where = self.settled(self.half_open(where), "usize")
            if where[0] == "range":
                where = ("range", *(one and self.settled(one, "usize") for one in where[1:3]), where[3])
                where = ("range", None if where[1] == ("int", 0, "usize") else where[1], *where[2:])
        return ("index", of, where)

    def form_struct(self, it, at):
        fields = []
        for _, name, value in it[2]:
            known = self.about.field_of(it[1] if it[1] != "Self" else self.head and self.head.owner, name)
            made = self.form(value)
            fields.append(("with", name, self.settled(made, known) if known in INTEGERS else made))
        if self.kinds.is_pure(tuple(fields)):
            fields.sort(key=lambda one: one[1])
        return ("struct", it[1], tuple(fields), self.form(it[3]))

    def form_assign(self, it, at):
        sign, place, value = it[1], self.form(it[2]), self.form(it[3])
        known = self.kinds.type_of(place)
        if self.kinds.is_fixed(place) and sign not in ("<<=", ">>="):
            value = self.settled(value, known)
        is_plain = known in INTEGERS or known == "bool" or self.kinds.type_of(value) in INTEGERS
        if sign != "=" and is_plain and self.kinds.is_pure((place, value)):
            return ("assign", "=", place, self.form(("bin", sign[:-1], it[2], it[3])))
        return ("assign", sign, place, value)

    # Ways.

    def form_return(self, it, at):
        value = it[1] and self.settled(self.form(it[1], "fn"), self.result)
        if at == "fn":
            return UNIT if value is None else value
        return ("return", None if value == UNIT else value)

    def form_continue(self, it, at):
        return UNIT if at == "loop" and not it[1] else it

    def form_closure(self, it, at):
        was, self.result = self.result, None
        made = ("closure", it[1], self.form(it[2], "fn"))
        self.result = was
        return made

    def form_loop(self, it, at):
        return ("loop", it[1], self.form(it[2], "loop"))

    def form_for(self, it, at):
        of = self.form(it[3])
        of = self.half_open(of)
        if it[2][0] == "bind" and of[0] == "range" and of[1] and of[2]:
            known = next((self.kinds.type_of(one) for one in of[1:3] if self.kinds.is_fixed(one)), None)
            if known:
                self.kinds.types[it[2][1]] = known
                self.kinds.fixed.add(it[2][1])
        elif self.kinds.is_fixed(of):
            self.fix(it[2])
        return ("for", it[1], self.pattern(it[2]), of, self.form(it[4], "loop"))

    def fix(self, pattern):
        """Notes that the types of the names in a pattern don't depend on how they are used."""
        if pattern[0] == "bind":
            self.kinds.fixed.add(pattern[1])
        for it in pattern[1:]:
            if isinstance(it, tuple):
                for one in [it] if it and isinstance(it[0], str) else it:
                    self.fix(one)

    def form_if(self, it, at):
        test, then, other = self.form(it[1]), self.form(it[2], at), self.form(it[3], at)
        return self.parted(test, then, other)

    def form_is(self, it, at):
        if self.kinds.is_fixed(it[2]):
            self.fix(it[1])
        pattern, value = self.pattern(it[1]), self.form(it[2])
        return self.test_of(pattern, value) or ("is", pattern, value)

    def parted(self, test, then, other):
        """`if test then other`, the simpler test first."""
        if test[0] == "truth":
            return then if test[1] else other
        inside = {TRUE: True, FALSE: False}
        if not self.has_pattern(test):
            if then in inside and other in inside and then != other:
                return test if inside[then] else self.negated(test)
            if other == FALSE and then[0] != "block":
                return self.joined_by("&&", test, then)
            if then == TRUE and other[0] != "block":
                return self.joined_by("||", test, other)
            if then[0] == "if" and then[3] == other and not self.has_pattern(then[1]):
                return self.parted(self.joined_by("&&", test, then[1]), then[2], other)
            if other[0] == "if" and other[2] == then and not self.has_pattern(other[1]):
                return self.parted(self.joined_by("||", test, other[1]), then, other[3])
            turned = self.negated(test)
            if self.key(turned) < self.key(test):
                test, then, other = turned, other, then
        return ("if", test, then, other)

    @staticmethod
    def has_pattern(test):
        return any(it[0] == "is" for it in chain(test, "&&"))

    def pattern(self, it):
        """A pattern in its form: a name that isn't used is left out, and patterns that bind nothing stand in order."""
        kind = it[0]
        if kind == "bind":
            return ("any",) if not self.names.uses[it[1]] and not it[4] else (*it[:4], it[4] and self.pattern(it[4]))
        if kind == "one_of":
            parts = [one for pattern in it[1] for one in [self.pattern(pattern)]]
            flat = [one for pattern in parts for one in (pattern[1] if pattern[0] == "one_of" else [pattern])]
            return ("one_of", tuple(flat)) if any(map(binds, flat)) else one_of(flat)
        if kind == "of":
            return ("of", it[1], (("any",),) if it[2] == (("rest",),) and it[1] in TESTS else tuple(map(self.pattern, it[2])))
        if kind in ("of_tuple", "of_slice"):
            return (kind, tuple(map(self.pattern, it[1])))
        if kind == "lent":
            return (kind, self.pattern(it[1]))
        if kind == "of_fields":
            return (kind, it[1], tuple(("with", name, self.pattern(one)) for _, name, one in it[2]), it[3])
        return it

    def test_of(self, pattern, it):
        """Whether something is of a pattern that binds nothing, as an expression; nothing where that isn't known."""
        kind = pattern[0]
        if kind == "one_of":
            tests = [self.test_of(one, it) for one in pattern[1]]
            if None in tests or not self.kinds.is_total(it):
                return None
            made = tests[0]
            for one in tests[1:]:
                made = self.joined_by("||", made, one)
            return made
        if kind == "range_of":
            return self.is_within(pattern, it)
        name = whole_variant(pattern)
        if name in TESTS and TESTS[name][0] not in self.about.names:
            found = method(it[2] if it[:2] == ("un", "&") else it, TESTS[name][0])
            return found if TESTS[name][1] else self.negated(found)
        if kind == "value" and pattern[1][0] == "truth":
            return it if pattern[1][1] else self.negated(it)
        return None

    def is_within(self, pattern, it):
        _, first, last = pattern
        known = self.kinds.type_of(it)
        if (known or "").startswith("&"):
            return None
        if last is not None and last == (first or 0) + 1 and first is not None:
            return self.compared("==", it, ("int", first, known if known in INTEGERS else ""))
        tests = [self.compared(">=", it, ("int", first, known if known in INTEGERS else ""))] if first is not None else []
        tests += [self.compared("<", it, ("int", last, known if known in INTEGERS else ""))] if last is not None else []
        if len(tests) == 2:
            return self.joined_by("&&", *tests) if self.kinds.is_total(it) else None
        return tests[0] if tests else None

    def form_match(self, it, at):
        if self.kinds.is_fixed(it[1]):
            for arm in it[2]:
                self.fix(arm[1])
        of = self.form(it[1])
        arms = [(self.pattern(pattern), self.form(guard), self.form(body, at)) for _, pattern, guard, body in it[2]]
        arms = merged(ordered([self.whole_arm(arms, number) for number in range(len(arms))]))
        if len(arms) == 2 and not any(guard for _, guard, _ in arms) and not any(binds(pattern) for pattern, _, _ in arms):
            test = self.test_of(arms[0][0], of) if arms[1][0] == ("any",) or is_rest(arms[0][0], arms[1][0]) else None
            if test:
                return self.parted(test, arms[0][2], arms[1][2])
        if len(arms) == 2 and arms[0][1] and arms[1][0] == ("any",) and not binds(arms[0][0]) and self.kinds.is_pure(of):
            test = self.test_of(arms[0][0], of)
            if test and not self.has_pattern(arms[0][1]):
                return self.parted(self.joined_by("&&", test, arms[0][1]), arms[0][2], arms[1][2])
        return ("match", of, tuple(("arm", *arm) for arm in arms))

    @staticmethod
    def whole_arm(arms, number):
        """An arm for what is left, by its name where only one other is left."""
        pattern, guard, body = arms[number]
        if number == 1 == len(arms) - 1 and pattern == ("any",) and not guard and not arms[0][1]:
            first = arms[0][0]
            name = first[1] if first[0] == "of" else first[1][1] if first[0] == "value" and first[1][0] == "path" else ""
            if name in OTHER and (name == "None" or first[2][0] == ("any",) or first[2][0][0] == "bind" and not first[2][0][4]):
                return OTHER[name], guard, body
        return arms[number]

    # Blocks.

    def form_block(self, it, at):
        made, statements = [], [*it[1], *([("do", it[2])] if it[2] else [])]
        for number, statement in enumerate(it[1]):
            found = self.let(statement, statements[number + 1 :]) if statement[0] == "let" else self.done(statement)
            if found:
                made.append(found)
        last = self.form(it[2], at) if it[2] else None
        last = None if last == UNIT else last
        if last and last[0] == "block" and (not made or not last[1]):
            made, last = [*made, *last[1]], last[2]
        made = self.in_order(made)
        return last if not made and last else UNIT if not made else ("block", tuple(made), last)

    def done(self, statement):
        value = self.form(statement[1])
        is_idle = value[0] in ("truth", "int", "bin") and self.kinds.is_total(value)
        return None if value == UNIT or is_idle else ("do", value)

    def let(self, it, following):
        """A `let`, or nothing where the name is put in the place of its value."""
        _, pattern, known, value, _ = it
        if value is None:
            return it
        value = self.form(value)
        if known and known in INTEGERS:
            value = self.settled(value, known)
        if pattern[0] == "any" and self.kinds.is_total(value):
            return None
        if pattern[0] != "bind" or pattern[3] or pattern[4]:
            if self.kinds.is_fixed(value):
                self.fix(pattern)
            return ("let", self.pattern(pattern), known, value, None)
        number, is_mutable = pattern[1:3]
        self.kinds.types[number] = known or self.kinds.type_of(value)
        if known and "_" not in known or self.kinds.is_fixed(value):
            self.kinds.fixed.add(number)
        if not is_mutable and self.may_stand_for(number, value, known, following):
            self.put[number] = value
            return None
        self.names.called[number] = hashlib.md5(self.key(value)[0].encode()).hexdigest()
        known = known if known and not (known == self.kinds.type_of(value) and self.kinds.is_fixed(value)) else None
        return ("let", pattern, known, value, None)

    def may_stand_for(self, number, value, known, following):
        """Whether a value may stand in the place of its only name: it is the same there, and what is done before it is nothing."""
        if known and known not in INTEGERS and known != "bool":
            return False
        if known in INTEGERS and value[0] != "int" and not self.kinds.is_fixed(value):
            return False
        uses = self.names.uses[number]
        if self.kinds.is_constant(value) and (uses <= 1 or value[0] != "int" or bool(value[2])):
            return value[0] != "closure" and (uses <= 1 or self.kinds.type_of(value) in (*INTEGERS, "bool"))
        return uses == 1 and self.is_next(number, following, self.kinds.is_pure(value))

    def is_next(self, number, following, is_pure):
        """Whether a name is computed next, in what follows. A value without effect may be computed after others of that kind."""
        for it in following:
            if repr(("local", number)) in repr(it):
                return self.comes_first(it, number, is_pure)
            if not (is_pure and it[0] == "let" and it[3] and not it[4] and self.kinds.is_pure(it[3])):
                return False
        return False

    def comes_first(self, it, number, is_pure):
        """Whether a name is the first that is computed of a statement or an expression."""
        kind = it[0]
        if kind == "local":
            return it[1] == number
        if kind in ("do", "field", "try", "as", "match", "if", "return"):
            return bool(it[1]) and self.comes_first(it[1], number, is_pure)
        if kind == "let":
            return bool(it[3]) and self.comes_first(it[3], number, is_pure)
        if kind == "un":
            return it[1] in ("!", "-") and self.comes_first(it[2], number, is_pure)
        if kind == "assign":
            return it[1] == "=" and it[2][0] == "local" and self.comes_first(it[3], number, is_pure)
        if kind == "block":
            return self.comes_first(it[1][0] if it[1] else it[2] or UNIT, number, is_pure)
        return self.is_first_of(self.in_turn(it), number, is_pure)

    def is_first_of(self, parts, number, is_pure):
        for it in parts:
            if self.comes_first(it, number, is_pure):
                return True
            if not (is_pure and self.kinds.is_pure(it)):
                return False
        return False

    @staticmethod
    def in_turn(it):
        """The parts of an expression that are computed in each case, in their order."""
        if it[0] == "bin":
            return it[2:3] if it[1] in ("&&", "||") else it[2:4]
        if it[0] == "index":
            return it[1:3]
        if it[0] == "method":
            return (it[1], *it[4])
        return it[2] if it[0] == "call" and it[1][0] == "path" else ()

    def in_order(self, statements):
        """The statements, with each `let` as early as its order allows beside others that don't name one another."""
        made = [*statements]
        for _ in made:
            for at in range(len(made) - 1):
                one, other = made[at : at + 2]
                if self.are_apart(one, other) and self.key(other[3]) < self.key(one[3]):
                    made[at : at + 2] = [other, one]
        return made

    def are_apart(self, one, other):
        """Whether two `let`s may change places: both compute without an effect, and the later one doesn't name the first."""
        if not (one[0] == other[0] == "let" and one[3] and other[3] and one[1][0] == other[1][0] == "bind"):
            return False
        return self.kinds.is_pure((one[3], other[3])) and repr(("local", one[1][1])) not in repr(other)


def binds(pattern):
    return "('bind'," in repr(pattern)


def whole_variant(pattern):
    """The variant that a pattern is of, whatever is in it; of another pattern, nothing."""
    if pattern[0] == "of" and pattern[2] == (("any",),):
        return pattern[1]
    return pattern[1][1] if pattern[0] == "value" and pattern[1][0] == "path" else ""


def is_rest(first, second):
    """Whether a pattern is what another one leaves."""
    if {*map(whole_variant, (first, second))} in ({"Some", "None"}, {"Ok", "Err"}):
        return True
    return {first, second} == {("value", TRUE), ("value", FALSE)}


def are_disjoint(one, other):
    """Whether nothing is of both patterns."""
    if "one_of" in (one[0], other[0]):
        return all(are_disjoint(first, second) for first in parts_of(one) for second in parts_of(other))
    if one[0] == other[0] == "range_of":
        ends = [(-1 if it[1] is None else it[1], float("inf") if it[2] is None else it[2]) for it in (one, other)]
        return ends[0][1] <= ends[1][0] or ends[1][1] <= ends[0][0]
    if one[0] == other[0] == "value" and one[1][0] == other[1][0] in ("truth", "text"):
        return one[1] != other[1] and "\\" not in repr((one, other))
    names = [variant(it) for it in (one, other)]
    return None not in names and names[0][0] == names[1][0] and names[0] != names[1]


def one_of(patterns):
    """The pattern of what is of any of these, which bind nothing; ranges that touch are one."""
    ranges = sorted((it for it in patterns if it[0] == "range_of" and None not in it), key=lambda it: it[1:])
    made = [it for it in patterns if it not in ranges]
    while ranges:
        _, first, last = ranges.pop(0)
        while ranges and ranges[0][1] <= last:
            last = max(last, ranges.pop(0)[2])
        made.append(("range_of", first, last))
    if ("any",) in made or len(made) == 1:
        return ("any",) if ("any",) in made else made[0]
    return ("one_of", tuple(sorted({*made}, key=key)))


def parts_of(pattern):
    return pattern[1] if pattern[0] == "one_of" else (pattern,)


def variant(pattern):
    """The type and the variant that a pattern names: of `Kind::Text`, both."""
    name = pattern[1] if pattern[0] in ("of", "of_fields") else pattern[1][1] if pattern[0] == "value" and pattern[1][0] == "path" else ""
    if name in TESTS:
        return TESTS[name][0], name
    found = re.fullmatch(r"([A-Z]\w*)::([A-Z]\w*[a-z]\w*)", name)
    return found and found.groups()


def ordered(arms):
    """The arms of a match; those beside one another that exclude each other stand in order."""
    made = [*arms]
    for _ in made:
        for at in range(len(made) - 1):
            one, other = made[at : at + 2]
            if key(other[0]) < key(one[0]) and are_disjoint(one[0], other[0]):
                made[at : at + 2] = [other, one]
    return made


def merged(arms):
    """The arms of a match, as one where two that bind nothing stand beside one another and do the same."""
    made = []
    for pattern, guard, body in arms:
        if made and not guard and not made[-1][1] and made[-1][2] == body and not binds(pattern) and not binds(made[-1][0]):
            if pattern == ("any",):
                made[-1] = (pattern, None, body)
            else:
                made[-1] = (one_of([*parts_of(made[-1][0]), *parts_of(pattern)]), None, body)
        else:
            made.append((pattern, guard, body))
    return made


def have_one_form(was, now, about, head=None):
    """Whether two bodies of a function are known to come to the same."""
    try:
        return Form(was, about, head).whole() == Form(now, about, head).whole()
    except (Unread, RecursionError):
        return False
