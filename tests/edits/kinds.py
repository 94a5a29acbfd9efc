"""What is known of the parts of a body: their types, whether they have an effect, and whether they can fail.

Where the sources don't say it, nothing is known, and a type is None.
"""
import re

from tree import UNIT

SIGNED = {f"i{it}": it for it in (8, 16, 32, 64, 128)} | {"isize": 64}
UNSIGNED = {f"u{it}": it for it in (8, 16, 32, 64, 128)} | {"usize": 64}
INTEGERS = {*SIGNED, *UNSIGNED}
COMPARES = ("==", "!=", "<", ">", "<=", ">=")
ARITHMETIC = ("+", "-", "*", "/", "%")
SHIFTS = ("<<", ">>")
BITS = ("&", "|", "^")
# Methods of the standard library that compute and never fail, with the type of what they give: "same" is that of what they are called of.
METHODS = {
    **dict.fromkeys(("len", "count_ones", "trailing_zeros", "leading_zeros"), "u32"), "len": "usize",
    **dict.fromkeys(("is_some", "is_none", "is_ok", "is_err", "is_empty", "starts_with", "ends_with", "contains", "is_ascii_digit",
                     "is_ascii_whitespace", "is_ascii_alphabetic"), "bool"),
    **dict.fromkeys(("min", "max", "saturating_sub", "saturating_add", "wrapping_add", "wrapping_sub", "wrapping_mul"), "same"),
}


def bare(type_of_it):
    """A type without what lends it."""
    return re.sub(r"^(?:&(?:mut )?)+", "", type_of_it or "")


class Kinds:
    """`types` and `fixed` are of the numbered names: their types, and those whose types don't depend on how they are used."""

    def __init__(self, about, head, names):
        self.about, self.head, self.names, self.types, self.fixed = about, head, names, {}, set()
        for name, type_of_it, _ in head.parameters if head else ():
            self.types[names.given[name]] = type_of_it
            self.fixed.add(names.given[name])

    def type_of(self, it):
        own = getattr(self, f"type_of_{it[0]}", None)
        return own(it) if own else None

    def type_of_int(self, it):
        return it[2] or None

    def type_of_truth(self, it):
        return "bool"

    def type_of_local(self, it):
        return self.types.get(it[1])

    def type_of_path(self, it):
        return self.about.constants.get(it[1].split("::")[-1]) if re.fullmatch(r"(?:Self::|crate::)?[A-Z][A-Z0-9_]*", it[1]) else None

    def type_of_field(self, it):
        return self.about.field_of(bare(self.type_of(it[1])), it[2])

    def type_of_index(self, it):
        found = re.fullmatch(r"\[(\w+)(?:;\w+)?\]|Vec<(\w+)>", bare(self.type_of(it[1])))
        return found and it[2][0] != "range" and (found[1] or found[2]) or None

    def type_of_as(self, it):
        return it[2]

    def type_of_call(self, it):
        head = self.head_of(it)
        return None if not head or head.is_generic else head.result

    def type_of_method(self, it):
        own = self.about.head(bare(self.type_of(it[1])), it[2])
        if own:
            return None if own.is_generic else own.result
        known = None if it[2] in self.about.names else METHODS.get(it[2])
        found = self.type_of(it[1])
        return known if known != "same" else found if found in INTEGERS else None

    def type_of_un(self, it):
        found = self.type_of(it[2])
        if it[1] == "*":
            return found[1:].removeprefix("mut ") if found and found[0] == "&" else None
        return f"{it[1].replace('&mut', '&mut ')}{found}" if it[1][0] == "&" and found else found if it[1][0] != "&" else None

    def type_of_bin(self, it):
        if it[1] in ("&&", "||", *COMPARES):
            return "bool"
        first = self.type_of(it[2])
        found = first if it[1] in SHIFTS else first or self.type_of(it[3])
        return found if found in INTEGERS or found == "bool" else None

    def type_of_if(self, it):
        return self.type_of(it[2]) or (self.type_of(it[3]) if it[3] else None)

    def type_of_block(self, it):
        return self.type_of(it[2]) if it[2] else None

    def head_of(self, it):
        """The head of the function that is called, where that is one of the crate."""
        if it[1][0] != "path":
            return None
        *owner, name = it[1][1].split("::")
        if owner == ["Self"]:
            owner = [self.head.owner if self.head else ""]
        return self.about.head(owner[0] if owner else "", name) if len(owner) < 2 else None

    # Whether the type of a part is the same however it is used.

    def is_fixed(self, it):
        kind = it[0]
        if kind == "local":
            return it[1] in self.fixed
        if kind in ("field", "index", "try"):
            return self.is_fixed(it[1])
        if kind in ("un", "bin"):
            return self.is_fixed(it[2]) or kind == "bin" and it[1] not in SHIFTS and self.is_fixed(it[3])
        if kind == "method":
            return self.is_plain(self.type_of(it)) and (METHODS.get(it[2]) != "same" or self.is_fixed(it[1]))
        if kind == "call":
            return self.is_plain(self.type_of(it))
        return kind in ("as", "truth") or kind == "path" and self.type_of(it) is not None

    @staticmethod
    def is_plain(known):
        """Whether a type has no parameter."""
        return bool(known) and not re.search(r"\b(?:[A-Z]\w?|Self|_)\b", known)

    def is_integer(self, it):
        if it[0] == "int" or bare(self.type_of(it)) in INTEGERS:
            return True
        return it[0] == "bin" and it[1] in (*ARITHMETIC, *BITS) and (self.is_integer(it[2]) or self.is_integer(it[3]))

    def is_unsigned(self, it):
        return bare(self.type_of(it)) in UNSIGNED

    # Whether a part has no effect, and whether it can't fail either (`is_total`).

    def is_pure(self, it, is_total=False):
        if it is None or not isinstance(it, tuple) or it == UNIT:
            return True
        if not it or not isinstance(it[0], str):
            return all(self.is_pure(part, is_total) for part in it)
        own = getattr(self, f"pure_{it[0]}", None)
        return bool(own) and own(it, is_total)

    def is_total(self, it):
        return self.is_pure(it, is_total=True)

    def pure_all(self, it, is_total):
        return all(self.is_pure(part, is_total) for part in it[1:])

    pure_int = pure_truth = pure_text = pure_local = pure_path = pure_tuple = pure_array = pure_with = pure_as = pure_all
    pure_any = pure_rest = pure_range_of = pure_value = pure_one_of = pure_of = pure_of_tuple = pure_lent = pure_arm = pure_all
    pure_field = pure_range = pure_if = pure_match = pure_struct = pure_all

    def pure_closure(self, it, is_total):
        return True

    def pure_block(self, it, is_total):
        return not it[1] and self.is_pure(it[2], is_total)

    def pure_index(self, it, is_total):
        return not is_total and self.pure_all(it, False)

    def pure_un(self, it, is_total):
        return it[1] != "&mut" and (it[1] != "-" or not is_total) and self.is_pure(it[2], is_total)

    def pure_bin(self, it, is_total):
        can_fail = it[1] in ARITHMETIC or it[1] in SHIFTS
        if it[1] in SHIFTS and it[3][0] == "int" and self.type_of(it[2]) in INTEGERS:
            can_fail = it[3][1] >= {**SIGNED, **UNSIGNED}[self.type_of(it[2])]
        if it[1] in ("/", "%") and it[3][0] == "int" and self.is_unsigned(it[2]):
            can_fail = not it[3][1]
        return not (can_fail and is_total) and self.pure_all(it[1:], is_total)

    def pure_call(self, it, is_total):
        head = self.head_of(it)
        return bool(head) and head.computes() and self.is_pure(it[2], is_total) or self.is_made(it) and self.is_pure(it[2], is_total)

    @staticmethod
    def is_made(it):
        """Whether what looks like a call makes a value: `Some(x)`, `Kind::Text(x)`."""
        return it[1][0] == "path" and bool(re.search(r"(?:^|::)[A-Z][a-z]\w*$|(?:^|::)[A-Z]$", it[1][1]))

    def pure_method(self, it, is_total):
        own = self.about.head(bare(self.type_of(it[1])), it[2])
        is_known = own.computes() if own else it[2] in METHODS and it[2] not in self.about.names
        return is_known and self.is_pure(it[1], is_total) and self.is_pure(it[4], is_total)

    def is_constant(self, it):
        """Whether a part has one value wherever it stands in the body: it can't fail, and rests on nothing that may change."""
        return self.is_total(it) and self.rests(it)

    def rests(self, it):
        if not isinstance(it, tuple) or not it:
            return True
        if it[0] == "local":
            return it[1] not in self.names.mutable
        if it[0] in ("field", "method", "index", "un") and it[1:2] not in (("!",), ("-",), ("&",)):
            return self.rests_below(it)
        if it[0] == "call" and not self.is_made(it):
            return all(self.type_of(part) in (*INTEGERS, "bool") and self.rests(part) for part in it[2])
        return all(self.rests(part) for part in it)

    def rests_below(self, it):
        """Whether what is read below a name can't change: the name is lent to be read, or is not lent."""
        inside = it[2] if it[0] == "un" else it[1]
        if it[0] == "method" and not all(self.rests(part) for part in it[4]):
            return False
        if inside[0] == "field":
            return self.rests_below(inside)
        known = self.type_of(inside)
        if inside[0] == "local" and known and re.fullmatch(r"(?:&(?!mut))?\[?\w+(?:;\w+)?\]?(?:<[\w<>', ]*>)?", known):
            return inside[1] not in self.names.mutable and not self.is_lent_within(inside)
        return inside[0] in ("bin", "as", "int") and self.rests(inside)

    def is_lent_within(self, it):
        """Whether a name that is not lent itself may hold what is lent to be changed: a type with a parameter, or one that isn't known."""
        known = bare(self.type_of(it))
        return not (known in INTEGERS or known == "bool" or self.type_of(it)[0] == "&" or known.startswith("["))
