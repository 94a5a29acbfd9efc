r"""An edit: a wrong body that the prover must refuse. A file tests/edits/CRATE/MODULE.edits has those of a module, one after another:

    file: src/item.rt            the file that is changed; what stands above the first edit holds for each one that has no such line

    edit: step.takes_none        the edit's name: the function that it changes, and how
    in: step                     the next texts are looked for in the body of this function alone (of an `impl`: `in: U8Field::kind`)
    old: self.left               a text that stands there exactly once
    new: None                    what stands in its place; further pairs apply to what the earlier ones made
    open: says                   the clause (`ensures says { .. }`) or the goal that must stay open
    by: laws::says               of a definition: the function whose proof must be refused

The whole name of that edit is CRATE/MODULE.step.takes_none.

An edit changes the body of one function, or a table (a `static`, a `const`), or a definition that a law holds to account: of specs/,
or of an `impl` for its trait (`ghost says = { .. }`). It changes no clause: an edit of what is promised shows nothing of the code.
"""
import functools
import glob
import os
import re

from about import About, Head, blocks_of, owner_at
from same import is_same

# Comments, strings and characters.
NO_CODE = re.compile(r"""//[^\n]*|/\*.*?\*/|b?"(?:[^"\\]|\\.)*"|b?'(?:\\[^\n]{1,8}?|[^'\\\n])'""", re.S)
CLAUSES = ("requires", "ensures", "ghost")


def read(path):
    with open(path, encoding="utf-8") as it:
        return it.read()


@functools.lru_cache(maxsize=None)
def without_text(text):
    """The source with each letter of its comments and strings blank, so that each place stays where it is."""
    return NO_CODE.sub(lambda it: re.sub(r"[^\n]", " ", it[0]), text)


def closing(text, at):
    """Where the bracket at a place is closed."""
    depth = 0
    for here in range(at, len(text)):
        depth += (text[here] in "([{") - (text[here] in ")]}")
        if not depth:
            return here
    return len(text) - 1


@functools.lru_cache(maxsize=None)
def bodies(text):
    """The name of each function of a source, and the first and the last place of its body."""
    return tuple(found_in(without_text(text)))


def found_in(text):
    """The bodies of a text without its comments and strings. The clauses of a function stand before its body, in braces."""
    for head in re.finditer(r"\bfn\s+(\w+)", text):
        at, is_clause = head.end(), False
        while at < len(text) and text[at] != ";":
            word = re.compile(r"\w+").match(text, at)
            if word:
                is_clause = is_clause or word[0] in CLAUSES
                at = word.end()
            elif text[at] in "([":
                at = closing(text, at) + 1
            elif text[at] == "{" and not is_clause:
                yield head[1], at, closing(text, at)
                break
            elif text[at] == "{":
                at, is_clause = closing(text, at) + 1, False
            else:
                at += 1


def clauses(text, number):
    """The names of what a function ensures, by its number among those of the source; of a clause without a name, nothing."""
    name, opens, _ = list(bodies(text))[number]
    head = [it.end() for it in re.finditer(rf"\bfn\s+{name}\b", without_text(text)[:opens])][-1]
    return re.findall(r"\bensures\*?\s*(\w*)\s*\{", without_text(text)[head:opens])


def definitions(text):
    """The first and the last place of the value of each `static`, `const` and ghost definition of an `impl`."""
    text = without_text(text)
    for head in re.finditer(r"\b(?:static|const)\s+\w+\s*:[^=;]*(?:\[[^\]]*\][^=;]*)?=", text):
        yield head.end(), text.find(";", head.end())
    for head in re.finditer(r"\bghost\s+\w+\s*=\s*\{", text):
        yield head.end() - 1, closing(text, head.end() - 1)


def generics(head):
    """The head of a block without what stands in angle brackets, and the words that stand in each of them."""
    text, depth, words = "", 0, []
    for at, letter in enumerate(head):
        depth += letter == "<"
        if not depth:
            text += letter
        elif letter == "<" and depth == 1:
            words.append("")
        words[-1:] = [words[-1] + letter] if depth else words[-1:]
        depth -= letter == ">" and head[at - 1] != "-"
    return text, [re.findall(r"(?<!')\b[A-Za-z]\w*", it) for it in words]


def parameters(head):
    """The names of the parameters of a block, by what stands after its first word."""
    text, depth = "", 0
    for at, letter in enumerate(head):
        depth += letter == "<"
        text += letter if depth == 1 else ""
        depth -= letter == ">" and head[at - 1] != "-"
        if not depth:
            break
    return re.findall(r"[<,]\s*(?:const\s+)?([A-Z]\w*)", text)


BLOCK = re.compile(r"^[ \t]*(?:pub\s+)?(?:unsafe\s+)?(impl|trait)\b([^{;]*)\{", re.M)
PLAIN = re.compile(r"\s*(?:\w+::)*([A-Z]\w*)\s*")
# Types whose names are no words with a capital, and what a check calls them: `u8` is U8, a tuple of three Tuple3.
NUMBER = re.compile(r"\s*([iuf](?:8|16|32|64|128|size))\s*")
TUPLE = re.compile(r"\s*\((?:\s*[A-Z]\w*\s*,)+(?:\s*[A-Z]\w*\s*)?\)\s*")
OTHERS = {r"\s*[A-Z]\w*\s*": "Any", r"\s*&('\w+ )?mut [A-Z]\w*\s*": "RefMut", r"\s*&('\w+ )?\[u8\]\s*": "RefSliceU8"}


def name_of(text, words, own):
    """What a check calls a type or a trait, by its text without what stands in angle brackets, and the words that do; `own` has the
    parameters of its `impl`. `Vec<u8>` is VecU8. None: that is not known."""
    given = [it for it in words if it not in own]
    plain = NUMBER.fullmatch(text) or PLAIN.fullmatch(text)
    if not plain or plain[1] in own:
        if {*re.findall(r"(?<!')\b[A-Za-z]\w*", text)} - {*own, "mut", "u8"}:
            return None
        if TUPLE.fullmatch(text):
            return f"Tuple{len(re.findall('[A-Z]', text))}"
        return next((name for pattern, name in OTHERS.items() if re.fullmatch(pattern, text)), None)
    if not all(NUMBER.fullmatch(it) or PLAIN.fullmatch(it) for it in given):
        return None
    return "".join(it.capitalize() if NUMBER.fullmatch(it) else it for it in (plain[1], *given))


def block_at(text, at):
    """The type and the trait of the `impl` in which a place of a source stands. Of a trait the first is empty, as the second is of an
    `impl` of a type alone, and both are of a place in no block. None: what a check calls them is not known."""
    text = without_text(text)
    for block in BLOCK.finditer(text):
        if block.end() <= at < closing(text, block.end() - 1):
            head = re.split(r"\bwhere\b", block[2])[0]
            if block[1] == "trait":
                names = PLAIN.fullmatch(generics(head)[0].split(":")[0])
                return names and ("", names[1])
            parts = [generics(it) for it in re.split(r"\bfor\b", head)[::-1]]
            own = parameters(head)
            parts[-1][1][: bool(own)] = []
            names = [name_of(it, [word for some in words for word in some], own) for it, words in parts]
            known = all(names) and (len(parts) == 2 or not {word for some in parts[0][1] for word in some} - {*own})
            return (*names, "")[:2] if known else None
    return "", ""


def module_of(file):
    return [it for it in file[len("src/") : -len(".rt")].split("/") if it not in ("lib", "main", "mod")]


@functools.lru_cache(maxsize=None)
def types_of(folder):
    """The modules in which a crate declares a type of each name."""
    found = {}
    for file in glob.glob(f"{folder}/src/**/*.rt", recursive=True):
        for name in re.findall(r"\b(?:struct|enum)\s+(\w+)", without_text(read(file))):
            found.setdefault(name, []).append(module_of(os.path.relpath(file, folder)))
    return found


class BadEdit(Exception):
    """Why an edit can't be applied, or shows nothing."""


def edits_in(path, crate, folder):
    """The edits of a file."""
    module, head, found = os.path.basename(path).removesuffix(".edits"), [], []
    for line in filter(None, read(path).split("\n")):
        if line.startswith("edit: "):
            found.append((f"{crate}/{module}.{line[6:].strip()}", [*head]))
        else:
            (found[-1][1] if found else head).append(line)
    return [Edit(name, folder, lines) for name, lines in found]


class Edit:
    """A wrong body. `texts` has each changed file before and after; `place` is the file and the function that it changes, or None
    where it changes a definition. `asks` is what a check must judge: a function, its module where its name is not known, or, of a
    definition that names nothing, None. `shown` is the file of the function that is judged, and its number there, where that is known.
    `bad` says why it can't be applied."""

    def __init__(self, name, folder, lines):
        self.name, self.folder, self.lines, self.how, self.crate = name, folder, lines, "", name.split("/")[0]
        self.texts, self.bad, self.place, self.spans, self.by, self.open, self.asks, self.shown = {}, None, None, [], None, None, None, None
        try:
            self.apply(lines)
            self.spans = [self.span(file, *both) for file, both in self.texts.items()]
            self.place = self.changed()
            self.asks = self.asked()
            self.shown = self.judged_at()
        except BadEdit as why:
            self.bad = str(why)

    def apply(self, lines):
        file, function, old = "", None, None
        for line in lines:
            key, _, value = line.partition(": ") if not line.startswith("new:") else ("new", "", line[4:].removeprefix(" "))
            if key == "file":
                file, function = value.strip(), None
            elif key == "in":
                function = value.strip()
            elif key in ("by", "open"):
                setattr(self, key, value.strip())
            elif key == "old":
                old = value
            elif key == "new":
                if not file or not old:
                    raise BadEdit("a 'new:' line stands before any 'file:' or 'old:' line")
                was, now = self.texts[self.file_of(file)]
                self.texts[file] = was, replaced(now, file, function, old, value)
                old = None
            else:
                raise BadEdit(f"it has a line of no known kind: {line}")
        if old or not any(was != now for was, now in self.texts.values()):
            raise BadEdit("it has no 'old:' and 'new:' pair that changes a text")

    def file_of(self, file):
        if os.path.normpath(file) != file or not file.startswith(("src/", "specs/")):
            raise BadEdit("a 'file:' line names no file below src/ or specs/")
        if file not in self.texts:
            text = self.text_of(file)
            if not text:
                raise BadEdit(f"there is no file {file}")
            self.texts[file] = text, text
        return file

    @staticmethod
    def span(file, was, now):
        """The one stretch of a text that is changed, and what stands there then."""
        first = len(os.path.commonprefix([was, now]))
        after = len(os.path.commonprefix([was[first:][::-1], now[first:][::-1]]))
        return file, first, len(was) - after, now[first : len(now) - after]

    def changed(self):
        """The file and the function that is changed, or None for a definition."""
        if len(self.spans) != 1:
            raise BadEdit("it changes more than one file")
        file, first, end, _ = self.spans[0]
        if file.startswith("specs/"):
            return None
        was, now = self.texts[file]
        inside = [it for it in bodies(was) if it[1] < first and end <= it[2]]
        if not inside and not any(opens <= first and end <= closes for opens, closes in definitions(was)):
            raise BadEdit("what it changes is neither the body of one function nor a definition")
        if inside and self.is_harmless(was, now, *inside[0]):
            raise BadEdit("it changes no value: the body comes to the same as before")
        return (file, inside[0][0]) if inside else None

    def is_harmless(self, was, now, name, opens, closes):
        """Whether the body is known to come to the same as before."""
        head = Head(head_of(was, name, opens), owner_at(blocks_of(without_text(was)), opens))
        bodies_of_both = (text[opens : closes + 1 + len(text) - len(was)] for text in (was, now))
        return is_same(*bodies_of_both, about(self.folder), head if head.is_read else None)

    def asked(self):
        """What a check must judge, by the name that it prints."""
        if not self.place:
            return self.by and f"{self.crate}::{self.by}"
        if self.by:
            raise BadEdit("it names a function to be refused, and changes one")
        file, name = self.place
        text, at = self.texts[file][0], self.spans[0][1]
        block = block_at(text, at)
        module = self.home(block[0]) if block and block[0] and not block[1] else module_of(file)
        self.is_function = block is not None and module is not None
        path = [*module, *filter(None, ["".join(block)]), name] if self.is_function else module_of(file)
        return "::".join([self.crate, *path]) if path else None

    def judged_at(self):
        """The file of the function that is judged, and its number among the functions of that file."""
        if self.place:
            text = self.texts[self.place[0]][0]
            return self.place[0], next(at for at, it in enumerate(bodies(text)) if it[1] < self.spans[0][1] <= it[2])
        *module, name = (self.by or "").split("::")
        file = f"src/{'/'.join(module) or 'lib'}.rt"
        found = [at for at, it in enumerate(bodies(self.text_of(file))) if it[0] == name]
        return (file, found[0]) if len(found) == 1 else None

    def text_of(self, file):
        """A file of the crate as it stands, or nothing."""
        path = f"{self.folder}/{file}"
        return read(path) if os.path.isfile(path) else ""

    def asks_for(self, goal):
        """Whether a goal is of the clause that must stay open. With one clause alone, the goals of what is returned don't name it."""
        if not self.open or goal == self.open or re.fullmatch(rf".*-clause-{re.escape(self.open)}(-.*)?", goal):
            return True
        return bool(self.shown) and goal.startswith("returns") and clauses(self.text_of(self.shown[0]), self.shown[1]) == [self.open]

    def home(self, name):
        """The module of a type of the crate, or None where it has none of that name, or several."""
        found = types_of(self.folder).get(name, [])
        return found[0] if len(found) == 1 else None

    def has_answers(self):
        """Whether the function that is changed has hand-written answers; of one whose name is not known, any of its name."""
        path = self.asks.split("::")[1:] if self.is_function else ["**", self.place[1]]
        return bool(glob.glob("/".join([glob.escape(self.folder), "proofs", *path, "Answers.antt"]), recursive=True))

    def names(self):
        """What a check may call the function, and what stands inside it; of one whose name is not known, for any type of its module."""
        if not self.place or self.is_function:
            return re.compile(rf"{re.escape(self.asks)}(::.*)?")
        file, name = self.place
        return re.compile("::".join([self.crate, *module_of(file)]) + rf"(::[^:]+)?::{name}(::.*)?")

    def goes_with(self, other):
        """Whether a round can have both: they change different functions, and what a check says of the one can't be taken for the other."""
        return self.place != other.place or self.is_function and other.is_function and self.asks != other.asks


@functools.lru_cache(maxsize=None)
def about(folder):
    """What the sources of a crate say of its names."""
    files = sorted(glob.glob(f"{folder}/src/**/*.rt", recursive=True))
    return About(without_text(read(it)) for it in files)


def head_of(text, name, opens):
    """The head of the function whose body begins at a place."""
    text = without_text(text)[:opens]
    return text[[it.start() for it in re.finditer(rf"\bfn\s+{re.escape(name)}\b", text)][-1] :]


def is_named(text, name, opens, wanted):
    """Whether the function with this body is the one that is wanted: by its name alone, or with the type and the trait of its `impl`."""
    *block, last = wanted.split("::")
    return name == last and (not block or "".join(block_at(text, opens) or "") == block[0])


def replaced(text, file, function, old, new):
    """The text with the new in place of the old, which stands there once: in the file, or in the body of the function."""
    found = [(0, len(text))]
    if function is not None:
        found = [(opens, closes) for name, opens, closes in bodies(text) if is_named(text, name, opens, function)]
    count = sum(text.count(old, opens, closes) for opens, closes in found)
    if count != 1:
        where = file if function is None else f"the body of {function} in {file}"
        raise BadEdit(f"an 'old:' text is in {where} {count} times, and not once")
    at = max(text.find(old, opens, closes) for opens, closes in found)
    return text[:at] + new + text[at + len(old) :]


def applied(edits):
    """The texts with all these edits, which are of different functions, and which edit a line is of."""
    texts, lines = {}, {}
    for file in {it.spans[0][0] for it in edits}:
        here = sorted((it for it in edits if it.spans[0][0] == file), key=lambda it: it.spans[0][1])
        was, text, at = here[0].texts[file][0], "", 0
        for it in here:
            _, first, end, new = it.spans[0]
            text += was[at:first]
            start = text.count("\n") + 1
            text, at = text + new, end
            lines.update({(file, line): it for line in range(start, text.count("\n") + 2)})
        texts[file] = text + was[at:]
    return texts, lines
