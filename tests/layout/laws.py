"""Which laws no function applies.

usage: python3 tests/layout/laws.py

A law is a public function of a file src/**/laws.rt: it does nothing, and its contract is the law. One whose premises no caller can
meet says nothing, so a function outside such files has to call it: one that imports it from a `laws` module, or names it by its path.
UNCALLED, beside this file, lists those that no function calls yet, a line each: the crate, and the law's path in it. It may only
shrink: a law that isn't there has to have a caller, and one that has a caller leaves it. This prints the laws that have none.
"""
import os
import re

ROOT = os.path.dirname(os.path.dirname(os.path.dirname(os.path.abspath(__file__))))
LISTED = os.path.join("tests", "layout", "UNCALLED")
LAW = re.compile(r"^pub fn (\w+)", re.M)
# (an import from a `laws` module: one name, or several in braces)
IMPORT = re.compile(r"\blaws::(?:\{([^}]*)\}|(\w+))")


def text_of(root, path):
    with open(os.path.join(root, path), encoding="utf-8") as it:
        return it.read()


def sources(root):
    """The sources of the crates, by their paths."""
    for crate in sorted(os.listdir(os.path.join(root, "crates"))):
        for folder, _, names in os.walk(os.path.join(root, "crates", crate, "src")):
            for name in sorted(names):
                if name.endswith(".rt"):
                    yield os.path.relpath(os.path.join(folder, name), root)


def is_laws(path):
    return os.path.basename(path) == "laws.rt"


def laws_of(path, text):
    """The laws of a file: `CRATE path::law`."""
    crate, inside = path.split("/")[1], path.split("/")[3:]
    module = "::".join([*inside[:-1], "laws"])
    return {f"{crate} {module}::{name}": name for name in LAW.findall(text)}


def called_in(text):
    """The names of the laws that a file calls."""
    named = {name for several, one in IMPORT.findall(text) for name in re.findall(r"\w+", several or one)}
    return {name for name in named if re.search(rf"\b{name}(::<[^;]*?>)?\(", text)}


def uncalled(root):
    """The laws that no function calls, outside files of laws."""
    laws, called = {}, set()
    for path in sources(root):
        text = text_of(root, path)
        if is_laws(path):
            laws.update(laws_of(path, text))
        else:
            called |= called_in(text)
    return {law for law, name in laws.items() if name not in called}


def listed(root):
    """The laws of UNCALLED."""
    lines = text_of(root, LISTED).split("\n")
    return {line.strip() for line in lines if line.strip() and not line.startswith("#")}


def wrong_laws(root):
    """What is wrong with the laws and with the list, a text each."""
    found, kept = uncalled(root), listed(root)
    for law in sorted(found - kept):
        yield f"{law}: no function applies this law: see tests/layout/laws.py"
    for law in sorted(kept - found):
        yield f"{LISTED}: {law} is called, or is no law: take it from the list"


if __name__ == "__main__":
    print(*sorted(uncalled(ROOT)), sep="\n")
