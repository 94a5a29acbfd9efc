"""Which wrong edits the definitions of docs/FSCANF.md have.

usage: python3 tests/layout/definitions.py

These definitions are what is to be believed of the theorem. Each has an edit in tests/edits that makes it wrong: it names, in its line
`by:`, a law, a worked example or another function that must not be proved with it (tests/edits/edit.py). UNEDITED, beside this file,
lists those that have none, a line each: the file, the name, and why. It may only shrink: a definition that isn't there has an edit, and
one that has an edit leaves it. This prints each definition with its edits and what refuses them.
"""
import glob
import os
import re
import sys

ROOT = os.path.dirname(os.path.dirname(os.path.dirname(os.path.abspath(__file__))))
LISTED = os.path.join("tests", "layout", "UNEDITED")
sys.path[:0] = [os.path.join(ROOT, "tools"), os.path.join(ROOT, "tests", "edits")]

from edit import edits_in  # noqa: E402
from fscanf_page import DEFINITION, PAGE, quoted, text_of  # noqa: E402


def definition_at(text, at):
    """The definition of a file of specs/ in which a place stands."""
    heads = [it[1] for it in DEFINITION.finditer(text) if it.start() <= at]
    return heads[-1] if heads else None


def edited():
    """The edits of definitions, by the file and the name of what each changes."""
    found = {}
    for path in sorted(glob.glob(f"{ROOT}/tests/edits/*/*.edits")):
        crate = os.path.basename(os.path.dirname(path))
        if re.search(r"^file: specs/", text_of(os.path.relpath(path, ROOT)), re.M):
            for edit in edits_in(path, crate, f"{ROOT}/crates/{crate}"):
                if edit.by and not edit.bad and edit.spans[0][0].startswith("specs/"):
                    file, first = edit.spans[0][:2]
                    name = definition_at(edit.texts[file][0], first)
                    found.setdefault((f"crates/{crate}/{file}", name), []).append(edit)
    return found


def listed():
    """The definitions of UNEDITED, each with the reason."""
    lines = (it.split(" ", 2) for it in text_of(LISTED).split("\n") if it.strip() and not it.startswith("#"))
    return {(path, name): why for path, name, why in lines}


def wrong_definitions():
    """What is wrong with the definitions of the page and with the list, a text each."""
    found, kept, page = edited(), listed(), quoted(text_of(PAGE))
    for path, name in sorted(page - found.keys() - kept.keys()):
        yield f"{path}: no edit makes {name} wrong: see tests/layout/definitions.py"
    for path, name in sorted(kept.keys() & found.keys()):
        yield f"{LISTED}: {name} of {path} has an edit: take it from the list"
    for path, name in sorted(kept.keys() - page):
        yield f"{LISTED}: {name} of {path} is not on {PAGE}"


def main():
    found, kept = edited(), listed()
    for path, name in sorted(quoted(text_of(PAGE))):
        edits = [f"{it.name.partition('/')[2]} (by {it.by})" for it in found.get((path, name), [])]
        print(f"{path} {name}: {'; '.join(edits) or 'none: ' + kept.get((path, name), '?')}")


if __name__ == "__main__":
    main()
