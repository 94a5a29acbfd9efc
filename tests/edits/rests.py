"""What the verdict of an edit rests on: the texts that the proof of the function that it changes can lead to.

A verdict is that of one function: its body and the files of its proof, its clauses, the clauses of what it calls, the definitions and types
that all of these name, and the lemmas that the proof cites. So a source is cut into chunks (a head of a function with its clauses, a type,
a constant, the head of an `impl`), and from the function one goes on by names to every chunk, definition and lemma that a name may mean, in
its crate and those below it. Where a name may mean several things, it means all of them. Bodies and proofs of other functions are left
out: a proof cites of another function the theorem alone.
"""
import functools
import glob
import os
import re
from collections import defaultdict
from typing import NamedTuple

from edit import NO_CODE, bodies, closing, module_of, read, without_text

WORD = re.compile(r"[A-Za-z_]\w*")
CAPITAL = re.compile(r"\b_*[A-Z]\w*")
# A word after `::`, such as a function by its path.
BY_PATH = re.compile(r"::\s*([a-z_]\w*)")
# A module of a crate's specs or proofs, such as `Rattle.sf_base.specs.Sets`, and the names that are taken of it.
MODULE = re.compile(r"Rattle\.(\w+)\.(specs|proofs)((?:\.[\w+'-]+)*)(?:\.\{([^}]*)\})?")
OF_A_FUNCTION = ("Answers.antt", "Invariants.antt", "Proof.antt")
PUBLIC = r"(?:pub(?:\([^)]*\))?\s+)?"
NAMED = re.compile(r"\b(?:fn|struct|enum|union|trait|type|const|static)\s+(\w+)")
IMPORT = re.compile(PUBLIC + r"(?:ghost\s+)?use\b")
BLOCK = re.compile(PUBLIC + r"(?:unsafe\s+)?(impl|trait)\b")
INNER = re.compile(PUBLIC + r"mod\s+\w+\s*\{")
FLAT = re.compile(PUBLIC + r"(?:(?:ghost\s+)?use|ghost|const|static|type)\b(?!\s+fn)")
CLAUSE = re.compile(r"\b(?:requires|ensures|ghost)\*?\s*(?:\w+\s*[:=]?\s*)?(?=\{)")
# In specs/ and proofs/: where a definition begins, and the words of one.
SIGNED = re.compile(r"(?:(?:abbrev|pub|opaque|instance|unfoldable)\s+)*([^\s:()]+)\s+:(?=\s)")
UNFOLDS = re.compile(r"unfolding\b")
GROUP = re.compile(r"(?:(?:abbrev|pub)\s+)*(?:record|data|module|instance)\b")
TERM = re.compile(r"[^\s(){}\[\],.;]+")
USE = re.compile(r"(?:pub\s+)?use\b")
PRIVATE = re.compile(r"(?:#\[[^]]*\]\s*)*(?:pub\([^)]*\)\s+)?(?:const\s+|unsafe\s+)*fn\b")
# What has no name, such as a call of a macro among the items, is always taken.
ALWAYS = ""


class Chunk(NamedTuple):
    """A piece of a source: its file and text, without bodies and comments; the name that it defines, if any; the type and the trait of the
    block in which it stands; the words of its code, those of them that need no import, and those of its clauses."""

    file: str
    text: str
    name: str
    owners: tuple
    words: frozenset
    plain: frozenset
    said: frozenset


@functools.lru_cache(maxsize=None)
def without_comments(text):
    """A source with each letter of its comments blank."""
    return NO_CODE.sub(lambda it: re.sub(r"[^\n]", " ", it[0]) if it[0].startswith(("//", "/*")) else it[0], text)


@functools.lru_cache(maxsize=None)
def without_remarks(text):
    """A file of specs or proofs without its comments."""
    return re.sub(r"--[^\n]*", "", text)


class Module(NamedTuple):
    """A module that an import names: the crate, `specs` or `proofs`, the path from there, and the names that it brings."""

    crate: str
    part: str
    path: tuple
    brought: frozenset
    is_operator: bool


@functools.lru_cache(maxsize=None)
def modules_in(text):
    found = []
    for it in MODULE.finditer(text):
        brought = it[4] if it[4] is not None else text[it.start() :]
        found.append(Module(it[1], it[2], tuple(it[3].split(".")[1:]), frozenset(TERM.findall(brought)), "◌" in brought))
    return tuple(found)


def words_of(text):
    return frozenset(WORD.findall(text))


def parted(text):
    """The code of a text, and what stands in its clauses."""
    code, said, at = "", "", 0
    for head in CLAUSE.finditer(text):
        if head.end() >= at:
            stop = closing(text, head.end()) + 1
            code, said, at = code + text[at : head.end()], f"{said} {text[head.end() : stop]}", stop
    return code + text[at:], said


def chunk(file, text, name, owners):
    text = re.sub(r"\s+", " ", text)
    code, said = parted(without_text(text))
    # (a `?` may call a `from`)
    words = words_of(code) | ({"from"} if {"into", "try_into"} & {*WORD.findall(code)} or "?" in code else set())
    return Chunk(file, text, name, owners, words, frozenset(CAPITAL.findall(code) + BY_PATH.findall(code)), words_of(said))


def end_of(text, at, end, inner):
    """Where the item ends that begins at a place: at its `;`, or where its last bracket is closed; `inner` has the ends of bodies."""
    is_flat, is_function = bool(FLAT.match(text, at, end)), bool(re.compile(r"[\w\s()\"]*\bfn\b").match(text, at, end))
    while at < end:
        if at in inner:
            return inner[at] + 1
        if text[at] == "{" and not is_flat and not is_function:
            return closing(text, at) + 1
        if text[at] in "([{":
            at = closing(text, at)
        elif text[at] == ";":
            return at + 1
        at += 1
    return end


def items(text, at, end, inner):
    """The items between two places: where each begins with its attributes, where without, and where it ends."""
    while True:
        at += len(text[at:end]) - len(text[at:end].lstrip())
        first = at
        if text.startswith("#!", at):
            # (what is said of the whole crate)
            at = closing(text, text.index("[", at)) + 1
            yield first, first, at
            continue
        while text.startswith("#", at):
            at = closing(text, text.index("[", at)) + 1
            at += len(text[at:end]) - len(text[at:end].lstrip())
        if at >= end:
            return
        stop = end_of(text, at, end, inner)
        yield first, at, stop
        at = max(stop, at + 1)


def head_name(text):
    """The name of a type or a trait, without what stands in brackets after it."""
    found = re.search(r"([A-Z]\w*)(?:\s*<|\s*$|\s*:)", re.sub(r"'\w+|\bmut\b|&", " ", text)) or CAPITAL.search(text)
    return found[found.lastindex or 0] if found else ""


def owners_of(head):
    """The trait and the type of an `impl`, by its head."""
    text, depth = "", 0
    for at, letter in enumerate(head):
        depth += letter == "<"
        text += "" if depth else letter
        depth -= letter == ">" and head[at - 1] != "-"
    parts = re.split(r"\bfor\b", re.split(r"\bwhere\b", text)[0])
    return tuple(filter(None, map(head_name, parts)))


def cut(file, source, at, end, inner, owners=()):
    """The chunks of a source between two places."""
    blank, text = without_text(source), without_comments(source)
    for first, begins, stop in items(blank, at, end, inner):
        block = BLOCK.match(blank, begins, stop)
        if block or INNER.match(blank, begins, stop):
            opens = blank.index("{", begins)
            head = blank[block.end() if block else begins : opens]
            own = () if not block else owners_of(head) if block[1] == "impl" else (head_name(head.split(":")[0]),)
            if block:
                yield chunk(file, text[first:opens], own[0] if block[1] == "trait" else "", () if block[1] == "trait" else own)
            yield from cut(file, source, opens + 1, stop - 1, inner, own)
            continue
        body = next((it for it in inner if begins < it < stop), stop)
        name = NAMED.search(blank, begins, body)
        yield chunk(file, text[first:body], name[1] if name else "", owners)


class Definition(NamedTuple):
    """A definition or lemma: its text and its names, of which a record, a module or an operator needs none, and its words."""

    text: str
    names: frozenset
    is_always: bool
    words: frozenset


class Definitions:
    """A file of specs or proofs: its imports, and its definitions."""

    def __init__(self, text):
        self.uses, self.found, block = (), [], []
        for line in without_remarks(text).split("\n"):
            if line.strip() and not line.startswith((" ", "mod ", "pub mod ")) and self.begins(line, block):
                self.add(block)
                block = []
            block.append(line)
        self.add(block)

    @staticmethod
    def head(block):
        """The line with the signature of a block: what it unfolds may stand above that."""
        return next((it for it in block if it.strip() and not UNFOLDS.match(it)), "")

    def begins(self, line, block):
        """Whether a line begins another block, and is no equation of the definition that stands above it."""
        head = self.head(block)
        if not head or USE.match(head):
            return bool(head)
        if any(it.match(line) for it in (USE, GROUP, SIGNED, UNFOLDS)):
            return True
        # (what is neither stands by itself, and is always taken)
        name, first = SIGNED.match(head), TERM.match(line)
        return bool(name) and line[0] not in ")]}" and (not first or first[0] != name[1])

    def add(self, block):
        text = "\n".join(it for it in block if it.strip() and not it.startswith(("mod ", "pub mod ")))
        if USE.match(text):
            self.uses += (text,)
        elif text:
            head = self.head(text.split("\n"))
            first = SIGNED.match(head)
            names = frozenset([first[1]]) if first and not GROUP.match(head) else frozenset()
            is_always = not names or any("◌" in it for it in names)
            self.found.append(Definition(text, names, is_always, frozenset(TERM.findall(text))))


@functools.lru_cache(maxsize=None)
def definitions(text):
    return Definitions(text)


class Sources:
    """A crate's texts: its sources by their chunks, and the files of specs and proofs."""

    def __init__(self, name, folder):
        self.name = name
        files = sorted(it for part in ("src", "specs", "proofs") for it in glob.glob(f"{folder}/{part}/**", recursive=True))
        self.texts = {it[len(folder) + 1 :]: read(it) for it in files if os.path.isfile(it)}
        self.by_name, self.by_owner, self.imports = (defaultdict(list) for _ in range(3))
        self.of_file, self.traits = defaultdict(set), set()
        for file, text in self.texts.items():
            if file.startswith("src/") and file.endswith(".rt"):
                inner = {opens: closes for _, opens, closes in bodies(text)}
                for it in cut(file, text, 0, len(text), inner):
                    self.take(it)
        self.defined = {file: definitions(text) for file, text in self.texts.items() if file.endswith(".antt")}
        self.has_cycle = any("#[cycle(" in text for file, text in self.texts.items() if file.startswith("src/"))

    def take(self, it):
        if IMPORT.match(it.text):
            self.imports[it.file].append(it)
        elif it.owners:
            for owner in it.owners:
                self.by_owner[owner].append(it)
        elif it.name or not re.fullmatch(PUBLIC + r"mod \w+ ?; ?", it.text):
            self.by_name[it.name or ALWAYS].append(it)
            self.of_file[it.file].add(it.name)
            self.traits |= {it.name} if re.search(rf"\btrait {it.name}\b", it.text) else set()

    def module(self, part, path):
        """The file that a path of modules names, and what is left of the path."""
        for count in range(len(path), 0, -1):
            file = f"{part}/{'/'.join(path[:count])}.antt"
            if file in self.texts and os.path.basename(file) not in OF_A_FUNCTION:
                return file, path[count:]
        return None, path


class Reached:
    """What is reached: `names` of types, traits, constants and functions of modules; `called` words that may name a function of a type;
    `said` words of clauses, definitions and proofs, by which those of the `files` are taken; and the chunks and definitions themselves."""

    def __init__(self, every):
        self.every, self.todo = every, []
        self.names, self.called, self.said, self.brought, self.files, self.texts = (set() for _ in range(6))

    def copy(self):
        made = Reached(self.every)
        for it in ("names", "called", "said", "brought", "files", "texts"):
            setattr(made, it, set(getattr(self, it)))
        return made

    def closed(self):
        while self.todo:
            self.todo.pop()()
        return self

    def take(self, names, called):
        """Takes names, and words that may name a function of a type that is reached."""
        names, called = names - self.names, called - self.called
        self.names |= names
        self.called |= called
        for name in names:
            for crate, it in self.every.named.get(name, ()):
                self.chunk(crate, it)
        for word in names | called:
            for crate, it in self.every.members.get(word, ()):
                if self.is_wanted(it):
                    self.chunk(crate, it)

    def is_wanted(self, it):
        """Whether all of the block's type and trait that are ours are reached; and of a type's own block, whether the name is."""
        ours = [owner for owner in it.owners if owner in self.every.types]
        if not ours or not self.names.issuperset(ours):
            return False
        return "from" in self.called if it.owners[0] == "From" else len(it.owners) > 1 or not it.name or it.name in self.called

    def is_new(self, *text):
        there = text in self.texts
        self.texts.add(text)
        return not there

    def chunk(self, crate, it):
        if self.is_new(crate.name, it.file, it.text):
            self.todo.append(lambda: self.code(crate, it))

    def code(self, crate, it):
        """Takes what a chunk names."""
        modules, names = self.every.named_by(crate, it)
        self.modules(modules)
        self.say(it.words | it.said)
        self.take(names, it.words)

    def say(self, words):
        """Takes the definitions of these names, of the files that are reached."""
        words = words - self.said
        self.said |= words
        for word in words:
            for crate, file, it in self.every.definitions.get(word, ()):
                if (crate, file) in self.files:
                    self.definition(crate, file, it)

    def definition(self, crate, file, it):
        if self.is_new(crate, file, it.text):
            self.todo.append(lambda: self.term(crate, file, it.words))

    def term(self, crate, file, words):
        """Takes what a text of specs or proofs names, by its words and the imports of its file."""
        self.modules(self.every.imported(self.every.crates[crate].defined[file].uses, words))
        self.say(words)

    def modules(self, found):
        for it in found:
            if it not in self.brought:
                self.brought.add(it)
                self.module(it)

    def module(self, it):
        crate = self.every.crates.get(it.crate)
        if not crate:
            return
        is_made = it.path[:1] in (("declared",), ("contracts",))
        file, left = (None, it.path) if is_made else crate.module(it.part, it.path)
        # (what is no file is what the kit makes of a function, such as its theorem, or what the root hands on from a crate below)
        if not is_made:
            self.file(crate, file or f"{it.part}/Lib.antt")
        self.say(it.brought | frozenset(left))
        if left:
            self.take(frozenset(left) | it.brought, frozenset(left))

    def file(self, crate, file):
        if (crate.name, file) in self.files or file not in crate.texts:
            return
        self.files.add((crate.name, file))
        for it in crate.defined[file].found:
            if it.is_always or it.names & self.said:
                self.definition(crate.name, file, it)
        # (what a file hands on)
        for use in crate.defined[file].uses:
            if use.startswith("pub"):
                self.is_new(crate.name, file, use)
                self.modules(modules_in(use))


class Rests:
    """What the edits of a crate rest on; `crates` has the sources of the crate and of those below it, by their names."""

    def __init__(self, name, crates):
        self.own, self.crates, self.functions = crates[name], crates, {}
        self.traits = frozenset().union(*(it.traits for it in crates.values()))
        self.types = frozenset(name for it in crates.values() for name in it.by_name if name)
        self.named, self.members, self.definitions = (defaultdict(list) for _ in range(3))
        for crate in crates.values():
            for name, some in crate.by_name.items():
                # (of a crate below no private function can be called)
                self.named[name] = [(crate, it) for it in some if crate is self.own or not PRIVATE.match(it.text)] + self.named[name]
        for crate in crates.values():
            for file, them in crate.defined.items():
                for it in them.found:
                    for name in it.names:
                        self.definitions[name].append((crate.name, file, it))
        for crate in crates.values():
            for owner, some in crate.by_owner.items():
                for it in some:
                    self.members[owner].append((crate, it))
                    self.members["from" if it.owners[0] == "From" else it.name].append((crate, it))
        # (other words, such as names of local variables, lead nowhere)
        self.known = self.types | {it.name for crate in crates.values() for some in crate.by_owner.values() for it in some}

    @functools.lru_cache(maxsize=None)
    def imported(self, uses, words):
        """The modules that imports name, where one of these words may be a name that they bring."""
        return tuple(it for use in uses for it in modules_in(use) if it.is_operator or it.brought & words)

    @functools.lru_cache(maxsize=None)
    def named_by(self, crate, it):
        """What a chunk names, by its words and by what the imports of its file say of them: the modules, and the names of its code."""
        words, names, ghost = it.words | it.said, set(it.plain | it.words & crate.of_file[it.file]), []
        for use in crate.imports[it.file]:
            if use.text.startswith("ghost"):
                ghost.append(use.text)
            elif " as " in use.text and use.words & words:
                names |= use.words
            else:
                names |= use.words & (it.words | self.traits)
        return self.imported(tuple(ghost), words), frozenset(names)

    def of_function(self, file, name, at):
        """What is reached from the function of that name whose body has that place."""
        text = self.own.texts[file]
        opens, closes = next((opens, closes) for found, opens, closes in bodies(text) if found == name and opens < at <= closes)
        key = file, opens
        if key not in self.functions:
            made = Reached(self)
            made.take(frozenset({ALWAYS}), frozenset())
            for some in (self.own.by_name[name], *self.own.by_owner.values()):
                for it in some:
                    if it.file == file and it.name == name:
                        made.take(frozenset(it.owners), frozenset({name}))
                        made.chunk(self.own, it)
            made.chunk(self.own, chunk(file, without_comments(text)[opens : closes + 1], "", ()))
            for path, proof in self.own.texts.items():
                if path.startswith("proofs/") and os.path.basename(path) in OF_A_FUNCTION and name in path.split("/")[:-1]:
                    made.is_new(self.own.name, path, proof)
                    words = frozenset(TERM.findall(without_remarks(proof)))
                    made.todo.append(functools.partial(made.term, self.own.name, path, words))
            self.functions[key] = made.closed()
        return self.functions[key]

    def judged(self, edit):
        """What is reached from the function by which an edit is judged; of a definition that names none, nothing."""
        if edit.place:
            return [self.of_function(*edit.place, edit.spans[0][1])]
        *module, name = (edit.by or "").split("::")
        found = [(file, opens + 1) for file, text in self.own.texts.items() if file.startswith("src/") for it, opens, _ in bodies(text)
                 if it == name and module_of(file) == module[: len(module_of(file))]]
        return [self.of_function(file, name, at) for file, at in found]

    def parts(self, edit):
        """The texts that an edit rests on, in order."""
        found = self.judged(edit)
        if not found or self.own.has_cycle:
            return [it for both in self.own.texts.items() for it in both]
        new = " ".join(it.removeprefix("new:") for it in edit.lines if it.startswith("new:"))
        also = [self.also(it, chunk(edit.spans[0][0], new, "", ())) for it in found]
        texts = {it for one in also for it in one.texts}
        file, old = edit.spans[0][0], next(it.removeprefix("old: ") for it in edit.lines if it.startswith("old: "))
        if not edit.place and not any(it[:2] == (self.own.name, file) and old in it[2] for it in texts):
            texts.add((self.own.name, file, self.own.texts[file]))
        return [text for it in sorted(texts) for text in it]

    def also(self, reached, more):
        """What is reached with what an edit writes as well."""
        if more.words & self.known <= reached.names | reached.called | reached.said:
            return reached
        made = reached.copy()
        made.code(self.own, more)
        return made.closed()
