#!/usr/bin/env python3
"""Checks docs/FSCANF.md against the crates, or quotes their definitions in it anew.

usage: tools/fscanf_page.py [--write]

A block `antt` or `rust` of the page has a file's path in its first line, after `--` or `//`, and then parts of that file:

- each part stands there word for word and whole, whatever its lines; of sources without docstrings. Parts are apart by an
  empty line.
- no two definitions on the page have one name
- what ROOTS rest on is all on the page; so is each word that a definition or a clause on it has of another module, or it
  is in one of the page's tables of words
- each word of these tables is cited on the page, and each module in them has it
- what a row of the table `It rests on` names stands in one of the definitions of that row.

With --write each part `antt` is quoted anew, by the names in it: a part may be such a name alone. Without it, what is wrong
is printed, and the status is 1 if anything is.
"""
import argparse
import glob
import os
import re
import sys

ROOT = os.path.dirname(os.path.dirname(os.path.abspath(__file__)))
PAGE = "docs/FSCANF.md"
COLUMNS = 118
# What the theorem of the scan says, as its calls do.
ROOTS = [("crates/sf_report/specs/Limits.antt", "RunTold"), ("crates/sf_report/specs/Runs.antt", "c_return"), ("crates/sf_report/specs/Laws.antt", "EachHasOneReport")]
RESTS = "| Definition | It says | It rests on |"
BLOCK = re.compile(r"^```(antt|rust)\n(?:--|//) (\S+)\n(.*?)^```$", re.MULTILINE | re.DOTALL)
DEFINITION = re.compile(r"^(?:abbrev pub|unfoldable pub|pub record|pub data) (\w+)", re.MULTILINE)
USE = re.compile(r"^(?:pub )?use (\S+?)(?:\.\{(.*)\}| as (\w+))$", re.MULTILINE)
WORD = re.compile(r"(?<![\w.])([A-Za-z_]\w*ℤ?)(?:\.([A-Za-z_]\w*))?")


def text_of(path):
    with open(os.path.join(ROOT, path), encoding="utf-8") as file:
        return file.read()


def parts_of(text):
    """What is apart by empty lines."""
    return [it.strip("\n") for it in re.split(r"\n[ \t]*\n", text) if it.strip()]


class Module:
    """The definitions of a file of specs/, by their names, and what it has from other modules."""

    def __init__(self, path):
        text = text_of(path)
        self.path, self.parts, self.members, self.imported, self.modules = path, {}, {}, {}, {}
        for module, names, alias in USE.findall(text):
            if alias:
                self.modules[alias] = module
            for name, other in re.findall(r"([^\s,]+)(?: as (\w+))?", names):
                self.imported[other or name] = module, name
        for part in parts_of(text):
            for name in DEFINITION.findall(part):
                self.parts[name] = part
                if f"pub data {name}" in part:
                    self.members.update(dict.fromkeys(re.findall(r"^  (\w+) :", part, re.MULTILINE), name))

    def has(self, name):
        """The definition to which the name belongs, if it is one of this module."""
        return name if name in self.parts else self.members.get(name)


MODULES = {}


def module_at(path):
    if path not in MODULES:
        MODULES[path] = Module(path) if os.path.isfile(os.path.join(ROOT, path)) else None
    return MODULES[path]


def path_of(module):
    """The file of a module such as Rattle.sf_report.specs.Runs."""
    return "crates/" + "/".join(module.split(".")[1:]) + ".antt"


def handed_on(module, name):
    """The module of a crate below that a crate hands on under its own name, as sf_run hands on Limits of sf_report."""
    rest = module.partition(".specs.")[2].replace(".", "/")
    paths = (os.path.relpath(it, ROOT) for it in glob.glob(f"{ROOT}/crates/*/specs/{rest}.antt"))
    return next((module_at(it) for it in paths if module_at(it).has(name)), None)


def found_in(module, name):
    """The file that has a name which is had from a module, and the definition; the name of the module where that is none of specs/."""
    if module.startswith("Rattle.sf_") and ".declared." not in module:
        at = module_at(path_of(module)) or handed_on(module, name)
        if at and at.has(name):
            return at.path, at.has(name)
        if at and name in at.imported:
            return found_in(*at.imported[name])
    return module, name


def cited(path, name):
    """What a definition has from elsewhere and of its own module: a file with a definition, or another module with a name."""
    at = module_at(path)
    for word, field in WORD.findall(re.sub(r'--.*|"[^"]*"', "", at.parts[name])):
        if at.has(word):
            yield path, at.has(word)
        elif word in at.imported:
            yield found_in(*at.imported[word])
        elif word in at.modules and field:
            yield found_in(at.modules[word], field)


def cited_in_clauses(path, part):
    """What the clauses of a call have from elsewhere, as its source imports it."""
    imported = {}
    for module, names in re.findall(r"ghost use ([\w.]+?)\.\{(.*?)\};", text_of(path), re.DOTALL):
        for name, other in re.findall(r"([^\s,]+)(?: as (\w+))?", names):
            imported[other or name] = module, name
    for word, _ in WORD.findall(part.partition("ensures")[2]):
        if word in imported:
            yield found_in(*imported[word])


def resting(roots):
    """The roots and all definitions of specs/ that they rest on."""
    found, left = set(), list(roots)
    while left:
        it = left.pop()
        if it not in found and it[0].endswith(".antt"):
            found.add(it)
            left += cited(*it)
    return found


# ---- the page


def plain(kind, text):
    """A text as it is compared: word for word, without the marks of comments, or without docstrings."""
    text = re.sub(r"^\s*///?.*$", "", text, flags=re.MULTILINE) if kind == "rust" else re.sub(r"(^|\s)-- ", " ", text)
    return " ".join(text.split())


def blocks(page):
    """The blocks of the page: the kind, the path and the parts of each."""
    return [(kind, path, parts_of(body)) for kind, path, body in BLOCK.findall(page)]


def tables(page):
    """The words of the page's tables of words, each with what its second column names: a module, or several."""
    for row in re.findall(r"^\| (`\w+ℤ?`(?:, `\w+ℤ?`)*) \| `([\w.]+)` \|", page, re.MULTILINE):
        for word in re.findall(r"`(\w+ℤ?)`", row[0]):
            yield word, row[1]


def stands(kind, path, part):
    """Whether a part is one of the file: a definition from its comment to its end, a type, or a call with its last clause."""
    if kind == "antt":
        names = DEFINITION.findall(part)
        return bool(names) and all(module_at(path).has(it) and plain(kind, part) == plain(kind, module_at(path).parts[it]) for it in names)
    before, found, after = plain(kind, text_of(path)).partition(plain(kind, part))
    is_whole_call = re.search(r"\bfn\b", part) and "ensures" in part
    return bool(found) and (not is_whole_call or after.startswith(" {"))


def not_quoted(page):
    """What stands on the page and not so in its file."""
    for kind, path, parts in blocks(page):
        if not os.path.isfile(os.path.join(ROOT, path)):
            yield f"{path} is gone"
            continue
        for part in parts:
            if not stands(kind, path, part):
                yield f"{path} hasn't this, word for word and whole: {plain(kind, part)[:100]}"


def quoted(page):
    """The definitions on the page, each with its file."""
    return {(path, name) for kind, path, parts in blocks(page) if kind == "antt" for part in parts for name in DEFINITION.findall(part)}


def types(page):
    """The names of the types that the page shows of sources."""
    return {it for kind, _, parts in blocks(page) if kind == "rust" for part in parts for it in re.findall(r"pub (?:enum|struct) (\w+)", part)}


def type_of(module):
    """The type that a module of declared types is about, as Shape of declared.directive.Shape.TheVariants."""
    return module.removesuffix(".TheVariants").rsplit(".", 1)[1]


def is_there(module, word):
    """Whether a module of a table has the word: a definition, or a type that the crate declares."""
    if ".declared." not in module:
        return found_in(f"Rattle.{module}", word)[0].endswith(".antt")
    sources = glob.glob(f"{ROOT}/crates/{module.partition('.')[0]}/src/**/*.rt", recursive=True)
    return any(re.search(rf"pub (?:enum|struct) {word}\b", text_of(os.path.relpath(it, ROOT))) for it in sources)


def citations(page):
    """What the page has from elsewhere: where it stands, by a name of which definition or call, and the word."""
    for kind, path, parts in blocks(page):
        for part in parts:
            for name in DEFINITION.findall(part) if kind == "antt" else ():
                if module_at(path) and module_at(path).has(name):
                    yield from ((name, *it) for it in cited(path, name))
            if kind == "rust":
                name = (re.findall(r"\bfn (\w+)", part) or [path])[0]
                yield from ((name, *it) for it in cited_in_clauses(path, part))


def missing(page):
    """What the definitions on the page rest on and the page lacks, and what it has and is gone."""
    here, listed, shown, used = quoted(page), dict(tables(page)), types(page), set()
    for path, name in sorted(resting(ROOTS) - here):
        yield f"{name} of {path} is not on the page"
    for name, where, word in citations(page):
        is_type = ".declared." in where
        used.add(type_of(where) if is_type else word)
        if is_type and type_of(where) not in shown and type_of(where) not in listed:
            yield f"{name}: the type {type_of(where)} is not on the page"
        elif where.endswith(".antt") and (where, word) not in here and word not in listed:
            yield f"{name}: {word} of {where} is neither on the page nor in a table"
        elif where.startswith(("Rattle.std.", "Prim.")) and word not in listed:
            yield f"{name}: {word} of {where} is in no table"
    for word, where in sorted(listed.items()):
        if word not in used:
            yield f"{word} is in a table, and nothing on the page has it"
        if where.startswith("sf_") and not is_there(where, word):
            yield f"{where} has no {word}"


def not_rested_on(page):
    """What the table says that a definition rests on, and isn't in it."""
    here, table = quoted(page), page.partition(RESTS)[2].partition("\n\n")[0]
    if not table:
        yield f"the table is gone: {RESTS}"
    for first, last in re.findall(r"^\| (`[^|]*) \| [^|]* \| ([^|]*) \|$", table, re.MULTILINE):
        names = re.findall(r"`(\w+)`", first)
        found = {word for path, name in here if name in names for _, word in cited(path, name)}
        for word in re.findall(r"`(\w+)`", last):
            if word not in found:
                yield f"{', '.join(names)}: no {word} is in it"


def named_twice(page):
    """The names that definitions of two files have."""
    files = {}
    for path, name in sorted(quoted(page)):
        if files.setdefault(name, path) != path:
            yield f"{name} is of {files[name]} and of {path}"


def faults(page):
    """All that is wrong with the page."""
    yield from not_quoted(page)
    yield from named_twice(page)
    yield from dict.fromkeys(missing(page))
    yield from not_rested_on(page)


# ---- quoting anew


def folded(line):
    """The lines of a line that may be too long."""
    indent = re.match(r"\s*", line).group()
    more = indent + ("-- " if line.strip().startswith("--") else "    ")
    while len(line) > COLUMNS:
        at = line.rfind(" ", len(more) + 1, COLUMNS)
        yield line[:at]
        line = more + line[at + 1 :]
    yield line


def quoted_anew(block):
    kind, path, body = block.groups()
    if kind == "rust":
        return block.group()
    at, parts = module_at(path), []
    for part in parts_of(body):
        for name in DEFINITION.findall(part) or part.split():
            if at.parts[name] not in parts:
                parts.append(at.parts[name])
    text = re.sub(r"^( *-- (?!-).*)\n *-- (?!-)", r"\1 ", "\n\n".join(parts), flags=re.MULTILINE)
    lines = re.sub(r"^( *-- (?!-).*)\n *-- (?!-)", r"\1 ", text, flags=re.MULTILINE).split("\n")
    return f"```{kind}\n-- {path}\n" + "\n".join(it for line in lines for it in folded(line)) + "\n```"


def main():
    words = argparse.ArgumentParser(description=__doc__, formatter_class=argparse.RawDescriptionHelpFormatter)
    words.add_argument("--write", action="store_true", help="quote the definitions anew")
    page = text_of(PAGE)
    if words.parse_args().write:
        page = BLOCK.sub(quoted_anew, page)
        with open(os.path.join(ROOT, PAGE), "w", encoding="utf-8") as file:
            file.write(page)
    wrong = list(faults(page))
    print(*wrong, f"{PAGE}: {len(quoted(page))} definitions, {len(wrong)} faults", sep="\n")
    return 1 if wrong else 0


if __name__ == "__main__":
    sys.exit(main())
