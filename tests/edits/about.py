"""What the sources of a crate say of its names: the types of fields, constants and results, the numbers of constants, and which functions
compute and do no more.

Of a name that has several meanings, or comes from another crate, nothing is known.
"""
import re

from tree import Tokens, Unread, number_of, tokens_of

STRUCT = re.compile(r"\bstruct\s+(\w+)")
CONSTANT = re.compile(r"\b(?:static|const)\s+([A-Z]\w*)\s*:\s*([^=;]*(?:\[[^\]]*\][^=;]*)?)=")
IMPORT = re.compile(r"\buse\s+(?!crate\b|self\b|super\b|Rattle\b)([^;]*);")
FUNCTION = re.compile(r"\bfn\s+(\w+)")
BLOCK = re.compile(r"^[ \t]*impl\b(?P<generics>\s*<(?:[^<>]|<[^<>]*>)*>)?\s+(?:[\w:<>', &\[\]]+?\s+for\s+)?(?P<type>\w+)[^{;]*\{", re.M)
PLAIN = re.compile(r"(?:[iu](?:8|16|32|64|128|size)|bool|char)")


def closing(text, at):
    depth = 0
    for here in range(at, len(text)):
        depth += (text[here] in "([{") - (text[here] in ")]}")
        if not depth:
            return here
    return len(text) - 1


def blocks_of(text):
    """Where each `impl` of a text begins and ends, and its type."""
    return [(it.end(), closing(text, it.end() - 1), it["type"]) for it in BLOCK.finditer(text)]


def owner_at(blocks, at):
    """The type in whose `impl` a place stands, or nothing."""
    return next((name for start, end, name in blocks if start <= at < end), "")


class Head:
    """The head of a function: the names and types of its parameters, and its result. Of one that can't be read, `is_read` is false."""

    def __init__(self, text, place=""):
        self.parameters, self.result, self.owner, self.is_generic, self.is_read = [], None, place, False, False
        self.has_requirement = bool(re.search(r"\brequires\b", text))
        tokens = Tokens(tokens_of(re.split(r"\b(?:requires|ensures|where|ghost)\b", text)[0]))
        try:
            self.read(tokens)
        except Unread:
            self.is_read = False

    def read(self, tokens):
        tokens.next()
        tokens.name()
        if tokens.has("<"):
            self.is_generic = any(not it.startswith("'") for it in tokens.inside_angles())
        tokens.need("(")
        self.parameters = list(tokens.listed(")", lambda: self.parameter(tokens))[0])
        self.result = tokens.type() if tokens.has("->") else "()"
        self.is_read = True

    def parameter(self, tokens):
        sign = ""
        if tokens.has("&"):
            sign = "&"
            if tokens.here().startswith("'"):
                tokens.next()
        is_mutable = tokens.has("mut")
        name = tokens.name()
        if name == "self":
            return name, (f"{sign}mut " if is_mutable and sign else sign) + (self.owner or "Self"), is_mutable and not sign
        tokens.need(":")
        return name, tokens.type(), is_mutable

    def computes(self):
        """Whether the function has no effect and no requirement: it takes numbers, truths and what is lent to be read."""
        if not self.is_read or self.is_generic or self.has_requirement or not self.parameters:
            return False
        return all(PLAIN.fullmatch(it) or it.startswith("&") and not re.search(r"mut\b|dyn\b|impl\b|fn\b|Cell", it)
                   for _, it, _ in self.parameters)


class About:
    """What is known of a crate, by the texts of its sources without comments and strings. Functions are known by their type and name."""

    def __init__(self, texts=()):
        self.fields, self.constants, self.values, self.heads, self.names, self.foreign = {}, {}, {}, {}, set(), set()
        for text in texts:
            self.add(text)
            self.foreign |= {name for it in IMPORT.finditer(text) for name in re.findall(r"\w+", it[1])}
        for table in (self.fields, self.constants, self.values):
            table.update(dict.fromkeys(table.keys() & self.foreign))

    @staticmethod
    def put(table, key, it):
        """Of what has two meanings nothing is known."""
        table[key] = it if table.get(key, it) == it else None

    @staticmethod
    def is_number(text, at):
        return bool(re.match(r"\s*\w+\s*;", text[at:]))

    def add(self, text):
        for it in CONSTANT.finditer(text):
            self.put(self.constants, it[1], re.sub(r"'\w+ |\s", "", it[2]))
            self.put(self.values, it[1], number_of(re.match(r"\s*(\w*)", text[it.end() :])[1]) if self.is_number(text, it.end()) else None)
        for it in STRUCT.finditer(text):
            self.structure(it[1], text, it.end())
        blocks = blocks_of(text)
        for it in FUNCTION.finditer(text):
            owner = owner_at(blocks, it.start())
            self.names.add(it[1])
            key = (owner, it[1])
            self.heads[key] = None if key in self.heads else Head(text[it.start() : self.end_of_head(text, it.end())], owner)

    @staticmethod
    def end_of_head(text, at):
        """Where the body of a function begins, or what has none ends; clauses stand in braces before it."""
        is_clause = False
        while at < len(text) and text[at] != ";":
            word = re.compile(r"\w+").match(text, at)
            if word:
                is_clause = is_clause or word[0] in ("requires", "ensures", "ghost")
                at = word.end()
            elif text[at] in "([" or text[at] == "{" and is_clause:
                is_clause = is_clause and text[at] != "{"
                at = closing(text, at) + 1
            elif text[at] == "{":
                break
            else:
                at += 1
        return at

    def structure(self, name, text, at):
        opens = re.compile(r"[^;{(]*\{").match(text, at)
        if not opens:
            self.put(self.fields, name, None)
            return
        tokens, fields = Tokens(tokens_of(text[opens.end() : closing(text, opens.end() - 1)])), {}
        try:
            while tokens.here():
                self.field(tokens, fields)
        except Unread:
            fields = None
        self.put(self.fields, name, fields)

    @staticmethod
    def field(tokens, fields):
        while tokens.here() == "#":
            tokens.next()
            tokens.need("[")
            while not tokens.has("]"):
                if not tokens.next():
                    raise Unread
        if tokens.here() == "ghost":
            raise Unread
        if tokens.has("pub") and tokens.has("("):
            while not tokens.has(")"):
                if not tokens.next():
                    raise Unread
        name = tokens.name()
        tokens.need(":")
        fields[name] = tokens.type()
        tokens.has(",")

    def field_of(self, type_of_it, name):
        """The type of a field of a type, or None."""
        fields = self.fields.get(re.sub(r"<.*", "", type_of_it or ""))
        return fields.get(name) if fields else None

    def head(self, owner, name):
        """The head of a function of a type (or of none), where it is the only one of that name and can be read."""
        found = self.heads.get((owner, name))
        return found if found and found.is_read and (owner or name) not in self.foreign else None
