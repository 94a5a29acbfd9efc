"""Gives each name that a body binds a number of its own, so that names alone make no difference, and what is shadowed stays apart."""
import re

from tree import Unread

IN_TEXT = re.compile(r"[A-Za-z_]\w*")


class Names:
    """Numbers the names of a body. `uses` counts where each stands, `mutable` has those that may change."""

    def __init__(self, parameters=()):
        self.uses, self.mutable, self.count = {}, set(), 0
        self.given = {name: self.new(is_mutable) for name, _, is_mutable in parameters}
        # (what names are called where trees are put in order: what they stand for, whatever their numbers are)
        self.called = {number: name for name, number in self.given.items()}

    def new(self, is_mutable=False):
        self.count += 1
        self.uses[self.count] = 0
        self.mutable |= {self.count} if is_mutable else set()
        return self.count

    def of(self, it, here):
        """The tree with its names numbered, where `here` has those in scope."""
        if not isinstance(it, tuple):
            return it
        if not it or not isinstance(it[0], str):
            return tuple(self.of(part, here) for part in it)
        own = getattr(self, f"of_{it[0]}", None)
        return own(it, here) if own else (it[0], *(self.of(part, here) for part in it[1:]))

    def of_path(self, it, here):
        if it[1] not in here:
            return it
        self.uses[here[it[1]]] += 1
        return ("local", here[it[1]])

    def of_text(self, it, here):
        return it

    def of_field(self, it, here):
        return ("field", self.of(it[1], here), it[2])

    def of_method(self, it, here):
        return ("method", self.of(it[1], here), *it[2:4], self.of(it[4], here))

    def of_macro(self, it, here):
        """A macro stays as it is, beside what the names in it mean (which may stand in its texts)."""
        names = sorted({name for token in it[2] for name in IN_TEXT.findall(token) if name in here})
        return (*it, tuple(self.of_path(("path", name), here) for name in names))

    def of_block(self, it, here):
        here, made = {**here}, []
        for statement in it[1]:
            made.append(self.let(statement, here) if statement[0] == "let" else self.of(statement, here))
        return ("block", tuple(made), self.of(it[2], here))

    def let(self, it, here):
        _, pattern, type_of_it, value, otherwise = it
        value, otherwise = self.of(value, here), self.of(otherwise, here)
        return ("let", self.pattern(pattern, here), type_of_it, value, otherwise)

    def of_let(self, it, here):
        raise Unread

    def test(self, it, here):
        """A test, and the names in scope where it holds."""
        if it[0] == "is":
            value, here = self.of(it[2], here), {**here}
            return ("is", self.pattern(it[1], here), value), here
        if it[:2] == ("bin", "&&"):
            first, here = self.test(it[2], here)
            second, here = self.test(it[3], here)
            return ("bin", "&&", first, second), here
        return self.of(it, here), here

    def of_is(self, it, here):
        raise Unread

    def of_if(self, it, here):
        test, inside = self.test(it[1], here)
        return ("if", test, self.of(it[2], inside), self.of(it[3], here))

    def of_while(self, it, here):
        test, inside = self.test(it[2], here)
        return ("while", it[1], test, self.of(it[3], inside))

    def of_for(self, it, here):
        value, inside = self.of(it[3], here), {**here}
        return ("for", it[1], self.pattern(it[2], inside), value, self.of(it[4], inside))

    def of_arm(self, it, here):
        inside = {**here}
        pattern = self.pattern(it[1], inside)
        guard, inside = self.test(it[2], inside) if it[2] else (None, inside)
        return ("arm", pattern, guard, self.of(it[3], inside))

    def of_closure(self, it, here):
        inside = {**here}
        patterns = tuple((self.pattern(pattern, inside), more) for pattern, more in it[1])
        return ("closure", patterns, self.of(it[2], inside))

    def pattern(self, it, here):
        """A pattern with its names numbered, which are then in scope. Each of several patterns binds the same names."""
        fresh = {}
        made = self.in_pattern(it, fresh)
        here.update(fresh)
        return made

    def in_pattern(self, it, fresh):
        if it[0] == "bind":
            _, name, is_mutable, by_reference, inside = it
            if name not in fresh:
                fresh[name] = self.new(is_mutable)
            return ("bind", fresh[name], is_mutable, by_reference, inside and self.in_pattern(inside, fresh))
        if it[0] in ("any", "rest", "range_of", "value"):
            return it
        if it[0] == "of_fields":
            return ("of_fields", it[1], tuple(("with", name, self.in_pattern(one, fresh)) for _, name, one in it[2]), it[3])
        if it[0] == "lent":
            return ("lent", self.in_pattern(it[1], fresh))
        return (*it[:-1], tuple(self.in_pattern(one, fresh) for one in it[-1]))


def renumbered(it, numbers=None):
    """The tree with its names numbered as they come, but for those that have their numbers."""
    numbers = {} if numbers is None else numbers
    if not isinstance(it, tuple):
        return it
    if it and it[0] in ("local", "bind"):
        return (it[0], numbers.setdefault(it[1], -len(numbers)), *(renumbered(part, numbers) for part in it[2:]))
    return tuple(renumbered(part, numbers) for part in it)


def key(it, called=None):
    """What trees are put in order by: their texts with what their names stand for, and then with the numbers of these."""
    text = repr(it)
    return re.sub(r"\('(?:local|bind)', (\d+)", lambda it: f"('name', {(called or {}).get(int(it[1]), '')}", text), text
