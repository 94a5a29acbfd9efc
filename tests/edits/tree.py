r"""Reads the body of a function into a tree of tuples: each is a kind, and its parts. What can't be read raises Unread.

Expressions:
    ("int", value, suffix) ("truth", b) ("text", token) ("path", words) ("local", number) ("field", it, name) ("method", it, name, more, args)
    ("call", it, args) ("index", it, at) ("try", it) ("un", sign, it) ("bin", sign, a, b) ("as", it, type) ("range", a, b, sign)
    ("assign", sign, place, it) ("if", test, then, other) ("is", pattern, it) ("match", it, arms) ("arm", pattern, guard, body)
    ("loop", label, body) ("while", label, test, body) ("for", label, pattern, it, body) ("return", it) ("break", label, it)
    ("continue", label) ("closure", patterns, body) ("macro", name, tokens) ("tuple", parts) ("array", parts) ("repeat", it, count)
    ("struct", words, fields, base) ("block", statements, last) ("let", pattern, type, it, otherwise) ("do", it) ("with", name, it)
Patterns:
    ("any",) ("rest",) ("bind", name, is_mutable, by_reference, inside) ("range_of", first, end) ("value", it) ("one_of", patterns)
    ("of", words, patterns) ("of_fields", words, fields, has_more) ("of_tuple", patterns) ("of_slice", patterns) ("lent", pattern)
What isn't there is None.
"""
import re

TOKEN = re.compile(r"""b?"(?:[^"\\]|\\.)*"|b?'(?:\\[^\n]{1,8}?|[^'\\])'|\d\w*(?:\.\d\w*)?|[A-Za-z_]\w*!?(?!=)|[A-Za-z_]\w*|'\w+
    |<<=|>>=|\.\.=|\.\.\.|::|->|=>|==|!=|<=|>=|&&|\|\||<<|>>|\.\.|[-+*/%&|^]=|[^\s\w]""", re.X | re.S)
COMMENT = re.compile(r"""//[^\n]*|/\*.*?\*/|(b?"(?:[^"\\]|\\.)*"|b?'(?:\\[^\n]{1,8}?|[^'\\\n])')""", re.S)
NUMBER = re.compile(r"(0x[0-9a-fA-F_]+?|0b[01_]+|0o[0-7_]+|\d[\d_]*)((?:[iu](?:8|16|32|64|128|size))?)")
NAME = re.compile(r"[A-Za-z_]\w*")
ESCAPES = {"\\n": 10, "\\t": 9, "\\r": 13, "\\0": 0, "\\\\": 92, "\\'": 39, '\\"': 34}
WORDS = {"as", "break", "const", "continue", "crate", "dyn", "else", "enum", "extern", "fn", "for", "ghost", "if", "impl", "in", "let",
         "loop", "match", "mod", "move", "mut", "pub", "ref", "return", "static", "struct", "trait", "type", "unsafe", "use", "where", "while"}
LEVELS = [("||",), ("&&",), ("==", "!=", "<", ">", "<=", ">="), ("|",), ("^",), ("&",), ("<<", ">>"), ("+", "-"), ("*", "/", "%")]
ASSIGNS = {"=", *(f"{it}=" for it in ("+", "-", "*", "/", "%", "&", "|", "^", "<<", ">>"))}
AND = 1
BLOCKS = ("if", "match", "loop", "while", "for", "{")
UNIT = ("tuple", ())


class Unread(Exception):
    """A text that is read no further."""


def tokens_of(text):
    return TOKEN.findall(COMMENT.sub(lambda it: it[1] or " ", text))


def number_of(token):
    """What a token is, if it is a whole number: its value, and the type that it names."""
    found = NUMBER.fullmatch(token)
    if found:
        digits = found[1].replace("_", "")
        return ("int", int(digits, 0) if digits[:2] in ("0x", "0b", "0o") else int(digits), found[2])
    inside = token[2:-1] if token.startswith("b'") else ""
    code = int(inside[2:], 16) if re.fullmatch(r"\\x[0-9a-fA-F]{2}", inside) else ESCAPES.get(inside)
    if len(inside) == 1 and ord(inside) < 128:
        code = ord(inside)
    return None if code is None else ("int", code, "u8")


class Tokens:
    """Tokens that are read one after another."""

    def __init__(self, tokens):
        self.tokens, self.at = tokens, 0

    def here(self, further=0):
        at = self.at + further
        return self.tokens[at] if at < len(self.tokens) else ""

    def next(self):
        self.at += 1
        return self.tokens[self.at - 1] if self.at <= len(self.tokens) else ""

    def has(self, *wanted):
        """Whether the next token is one of these; it is then read."""
        found = self.here() in wanted
        self.at += found
        return found

    def need(self, wanted):
        if not self.has(wanted):
            raise Unread

    def name(self):
        it = self.next()
        if not NAME.fullmatch(it) or it in WORDS:
            raise Unread
        return it

    def listed(self, closes, one):
        """What stands between commas up to a closing bracket, which is read; and whether a comma stands before that."""
        found, has_comma = [], False
        while not self.has(closes):
            found.append(one())
            has_comma = self.has(",")
            if not has_comma:
                self.need(closes)
                break
        return tuple(found), has_comma

    def halved(self):
        """Takes the next token apart, where it is two brackets or two signs in one."""
        it = self.here()
        if it in (">>", ">=", ">>=", "&&", "||"):
            self.tokens[self.at : self.at + 1] = [it[0], it[1:]]

    # Types, as texts.

    def type(self):
        self.halved()
        it = self.here()
        if it == "&":
            self.next()
            lifetime = self.here().startswith("'") and self.next() and ""
            return f"&{lifetime or ''}{'mut ' if self.has('mut') else ''}{self.type()}"
        if it == "(":
            self.next()
            return f"({','.join(self.listed(')', self.type)[0])})"
        if it == "[":
            self.next()
            inside = self.type()
            if self.has(";"):
                inside += ";" + self.next()
            self.need("]")
            return f"[{inside}]"
        return self.words(is_type=True)

    def words(self, is_type=False):
        """A path, with what stands in angle brackets in it."""
        text = self.next()
        if not NAME.fullmatch(text) or text in WORDS - {"crate"}:
            raise Unread
        while True:
            if self.here() == "<" and is_type or self.here() == "::" and self.here(1) == "<":
                self.has("::")
                self.need("<")
                text += f"<{','.join(self.inside_angles())}>"
            elif self.here() == "::":
                self.next()
                text += f"::{self.name()}"
            else:
                return text

    def inside_angles(self):
        found = []
        while True:
            self.halved()
            if self.has(">"):
                return found
            token = self.here()
            found.append(self.next() if token.startswith("'") or token[:1].isdigit() else self.type())
            self.halved()
            if not self.has(",") and self.here() != ">":
                raise Unread


class Patterns(Tokens):
    """Reads patterns."""

    def pattern(self):
        self.has("|")
        found = [self.one()]
        while self.has("|"):
            found.append(self.one())
        return found[0] if len(found) == 1 else ("one_of", tuple(found))

    def one(self):
        self.halved()
        it = self.here()
        if it == "_":
            self.next()
            return ("any",)
        if it == "&":
            self.next()
            self.has("mut")
            return ("lent", self.one())
        if it == "(":
            self.next()
            found, has_comma = self.listed(")", self.pattern)
            return found[0] if len(found) == 1 and not has_comma and found[0] != ("rest",) else ("of_tuple", found)
        if it == "[":
            self.next()
            return ("of_slice", self.listed("]", self.pattern)[0])
        if it in ("..", "..="):
            return self.front()
        return self.named() if NAME.fullmatch(it) and it not in ("true", "false") else self.literal()

    def front(self):
        sign = self.next()
        if not self.starts_literal():
            return ("rest",)
        last = self.bound()
        return ("range_of", None, last + (sign == "..="))

    def starts_literal(self):
        return number_of(self.here()) is not None

    def bound(self):
        found = number_of(self.next())
        if not found:
            raise Unread
        return found[1]

    def literal(self):
        if self.starts_literal():
            first = self.bound()
            if self.here() not in ("..", "..="):
                return ("range_of", first, first + 1)
            sign = self.next()
            if not self.starts_literal():
                return ("range_of", first, None)
            return ("range_of", first, self.bound() + (sign == "..="))
        it = self.next()
        if it in ("true", "false"):
            return ("value", ("truth", it == "true"))
        if it[:1] in ("'", '"', "b") and self.here() not in ("..", "..="):
            return ("value", ("text", it))
        raise Unread

    def named(self):
        by_reference, is_mutable = self.has("ref"), self.has("mut")
        words = self.words()
        if self.here() in ("..", "..="):
            raise Unread
        if self.has("("):
            return ("of", words, self.listed(")", self.pattern)[0])
        if self.has("{"):
            return self.of_fields(words)
        if NAME.fullmatch(words) and (words[0].islower() or words[0] == "_"):
            return ("bind", words, is_mutable, by_reference, self.one() if self.has("@") else None)
        return ("value", ("path", words))

    def of_fields(self, words):
        fields, has_more = [], False
        while not self.has("}"):
            if self.has(".."):
                has_more = True
            elif self.here(1) == ":":
                name = self.name()
                self.need(":")
                fields.append(("with", name, self.pattern()))
            else:
                bound = self.named()
                if bound[0] != "bind":
                    raise Unread
                fields.append(("with", bound[1], bound))
            if not self.has(",") and self.here() != "}":
                raise Unread
        return ("of_fields", words, tuple(sorted(fields, key=lambda it: it[1])), has_more)


class Expressions(Patterns):
    """Reads expressions. `is_head` says that a brace opens the block after the expression, as in the test of an `if`."""

    def expression(self, is_head=False):
        it = self.here()
        if it == "return":
            self.next()
            return ("return", self.maybe(is_head))
        if it == "break":
            self.next()
            label = self.next() if self.here().startswith("'") and self.here()[-1] != "'" else ""
            return ("break", label, self.maybe(is_head))
        if it == "continue":
            self.next()
            return ("continue", self.next() if self.here().startswith("'") else "")
        if it in ("|", "||", "move"):
            return self.closure()
        found = self.ranged(is_head)
        if self.here() in ASSIGNS:
            return ("assign", self.next(), found, self.expression(is_head))
        return found

    def maybe(self, is_head):
        return None if self.here() in (";", "}", ")", ",", "]", "=>", "") else self.expression(is_head)

    def closure(self):
        self.has("move")
        patterns = ()
        if not self.has("||"):
            self.need("|")
            found = []
            while not self.has("|"):
                found.append((self.one(), self.type() if self.has(":") else None))
                self.has(",")
            patterns = tuple(found)
        if self.here() == "->":
            raise Unread
        return ("closure", patterns, self.expression())

    def ranged(self, is_head):
        first = None if self.here() in ("..", "..=") else self.level(0, is_head)
        if self.here() not in ("..", "..="):
            return first
        sign = self.next()
        ends = self.here() in (")", "]", ";", ",", "=>", "}", "") or is_head and self.here() == "{"
        return ("range", first, None if ends else self.level(0, is_head), sign)

    def level(self, number, is_head):
        if number == len(LEVELS):
            return self.cast(is_head)
        if number == AND + 1 and self.here() == "let":
            self.next()
            pattern = self.pattern()
            self.need("=")
            return ("is", pattern, self.level(AND + 1, is_head))
        found, count = self.level(number + 1, is_head), 0
        while self.here() in LEVELS[number]:
            count += 1
            if number == 2 and count > 1:
                raise Unread
            found = ("bin", self.next(), found, self.level(number + 1, is_head))
        return found

    def cast(self, is_head):
        found = self.unary(is_head)
        while self.has("as"):
            found = ("as", found, self.type())
        return found

    def unary(self, is_head):
        if self.here() == "&&":
            self.halved()
        it = self.here()
        if it in ("!", "-", "*"):
            self.next()
            return ("un", it, self.unary(is_head))
        if it == "&":
            self.next()
            return ("un", "&mut" if self.has("mut") else "&", self.unary(is_head))
        return self.postfix(is_head)

    def postfix(self, is_head):
        found = self.primary(is_head)
        while self.here() in (".", "?", "(", "["):
            it = self.next()
            if it == "?":
                found = ("try", found)
            elif it == "(":
                found = ("call", found, self.listed(")", self.expression)[0])
            elif it == "[":
                found = ("index", found, self.expression())
                self.need("]")
            else:
                found = self.member(found)
        return found

    def member(self, found):
        name, more = self.next(), ""
        if re.fullmatch(r"\d+\.\d+", name):
            first, _, second = name.partition(".")
            return ("field", ("field", found, first), second)
        if not re.fullmatch(r"\w+", name) or name == "await":
            raise Unread
        if self.here() == "::":
            self.next()
            self.need("<")
            more = ",".join(self.inside_angles())
        if self.has("("):
            return ("method", found, name, more, self.listed(")", self.expression)[0])
        return ("field", found, name)

    def primary(self, is_head):
        it = self.here()
        number = number_of(it)
        if number:
            self.next()
            return number
        if it in ("true", "false"):
            return ("truth", self.next() == "true")
        if it[:1] in ('"',) or it[:2] in ('b"', "b'") or it[:1] == "'" and it[-1] == "'" and len(it) > 2 or re.match(r"\d+\.\d", it):
            return ("text", self.next())
        if it == "(":
            self.next()
            found, has_comma = self.listed(")", self.expression)
            return found[0] if len(found) == 1 and not has_comma else ("tuple", found)
        if it == "[":
            return self.array()
        if it in BLOCKS or it.startswith("'"):
            return self.blocked()
        if it.endswith("!"):
            return self.macro()
        words = self.words()
        if self.here() == "{" and not is_head and re.search(r"(?:^|::)[A-Z]\w*(?:<[^:]*>)?$", words):
            self.next()
            return self.structure(words)
        return ("path", words)

    def array(self):
        self.need("[")
        if self.has("]"):
            return ("array", ())
        first = self.expression()
        if self.has(";"):
            count = self.expression()
            self.need("]")
            return ("repeat", first, count)
        if self.has("]"):
            return ("array", (first,))
        self.need(",")
        return ("array", (first, *self.listed("]", self.expression)[0]))

    def structure(self, words):
        fields, base = [], None
        while not self.has("}"):
            if self.has(".."):
                base = self.expression()
            else:
                name = self.next()
                if not re.fullmatch(r"\w+", name):
                    raise Unread
                fields.append(("with", name, self.expression() if self.has(":") else ("path", name)))
            if not self.has(",") and self.here() != "}":
                raise Unread
        return ("struct", words, tuple(fields), base)

    def macro(self):
        name = self.next()
        if name != "matches!":
            return ("macro", name, self.group())
        self.need("(")
        it = self.expression()
        self.need(",")
        pattern = self.pattern()
        guard = self.expression() if self.has("if") else None
        self.has(",")
        self.need(")")
        return matching(it, pattern, guard, ("truth", True), ("truth", False))


    def group(self):
        """The tokens in brackets that begin here."""
        start, depth = self.at, 0
        while True:
            it = self.next()
            depth += (it in tuple("([{")) - (it in tuple(")]}"))
            if not it or not depth and self.at == start + 1 and it not in tuple("([{"):
                raise Unread
            if not depth:
                return tuple(self.tokens[start : self.at])


def matching(it, pattern, guard, then, other):
    return ("match", it, (("arm", pattern, guard, then), ("arm", ("any",), None, other)))


class Reader(Expressions):
    """Reads blocks."""

    def blocked(self):
        label = ""
        if self.here().startswith("'"):
            label = self.next()
            self.need(":")
        it = self.here()
        if label and it not in ("loop", "while", "for"):
            raise Unread
        if it == "{":
            return self.block()
        self.next()
        if it == "if":
            return self.test()
        if it == "match":
            return self.choice()
        if it == "loop":
            return ("loop", label, self.block())
        if it == "while":
            return ("while", label, self.expression(is_head=True), self.block())
        if it != "for":
            raise Unread
        pattern = self.pattern()
        self.need("in")
        return ("for", label, pattern, self.expression(is_head=True), self.block())

    def test(self):
        test, then, other = self.expression(is_head=True), self.block(), None
        if self.has("else"):
            if self.has("if"):
                other = ("block", (), self.test())
            else:
                other = self.block()
        return ("if", test, then, other)

    def choice(self):
        it, arms = self.expression(is_head=True), []
        self.need("{")
        while not self.has("}"):
            pattern = self.pattern()
            guard = self.expression() if self.has("if") else None
            self.need("=>")
            body = self.block() if self.here() == "{" else self.expression()
            if self.here() not in (",", "}") and body[0] != "block":
                raise Unread
            arms.append(("arm", pattern, guard, body))
            self.has(",")
        return ("match", it, tuple(arms))

    def block(self):
        self.need("{")
        statements, last = [], None
        while not self.has("}"):
            if self.has(";"):
                continue
            if self.here() == "let":
                statements.append(self.let())
                continue
            begins = self.here() in BLOCKS or self.here().startswith("'") and self.here()[-1] != "'"
            found = self.blocked() if begins else self.expression()
            if begins and self.here() in (".", "?"):
                raise Unread
            if self.has(";"):
                statements.append(("do", found))
            elif self.here() == "}":
                last = found
            elif begins:
                statements.append(("do", found))
            else:
                raise Unread
        return ("block", tuple(statements), last)

    def let(self):
        self.need("let")
        pattern = self.pattern()
        type_of_it = self.type() if self.has(":") else None
        it = self.expression() if self.has("=") else None
        otherwise = self.block() if self.has("else") else None
        self.need(";")
        return ("let", pattern, type_of_it, it, otherwise)


def read(text):
    """The tree of a function's body, which stands in braces."""
    reader = Reader(tokens_of(text))
    found = reader.block()
    if reader.here():
        raise Unread
    return found
