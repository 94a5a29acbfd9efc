"""Verdicts that are kept: of which wrong bodies it is known that the prover refuses them.

KEPT has a part for each kit: a line with its name, and then a line `KEY CRATE/MODULE.FUNCTION.WHAT` for each wrong body that was refused
with it. Of the parts of other kits nothing is taken. The key is a sum of all that the verdict rests on: the edit; the texts that the proof
of the function leads to, by which it is judged (rests.py); the lines of crates.txt for its crate and those below; and the files that judge
an edit. A line with another key counts as none. `KEY itself` is the runner's own trial.

A tenth of the edits is tried though their verdicts are kept: whole crates, chosen by the sum of all keys, so that nobody chooses.
"""
import hashlib
import os
import re

from edit import read
from rests import Rests, Sources

# The files that judge; the others print, keep and try the runner.
JUDGES = ("edit.py", "judge.py", "rounds.py", "kit.py")
# What else they import: whether an edit changes a value, which is asked anew in each run.
ANEW = ("about.py", "same.py")
# Those that try the runner, and keep.
OWN = ("about.py", "form.py", "itself.py", "itself_kept.py", "itself_same.py", "kept.py", "kinds.py", "names.py", "rests.py", "same.py",
       "shape.py", "tree.py")
# One edit in so many is tried though its verdict is kept.
SHARE = 10
ITSELF = "itself"
LINE = re.compile(r"[0-9a-f]{32} \S+")


def sum_of(*parts):
    found = hashlib.sha256()
    for it in parts:
        data = it.encode()
        found.update(len(data).to_bytes(8, "big") + data)
    return found.hexdigest()[:32]


HERE = os.path.dirname(os.path.abspath(__file__))


def runner(files, folder=HERE):
    """The sum of some files of the runner."""
    return sum_of(*(read(f"{folder}/{it}") for it in files))


def keys(root, below, found, judges=None):
    """The key of each edit that can be applied, by its name; `below` has the crates below each crate, and `found` its edits."""
    judges = judges or runner(JUDGES)
    listed = (it.partition("#")[0].strip() for it in read(f"{root}/crates.txt").split("\n"))
    lines = {re.split(r"[ :]", it)[0]: it for it in listed if it}
    crates = {it: Sources(it, f"{root}/crates/{it}") for it in {one for name in found for one in (*below[name], name)}}
    made = {ITSELF: sum_of(judges, runner(OWN))}
    for name, edits in found.items():
        seen = {it: crates[it] for it in (*below[name], name)}
        named, rests = [lines[it] for it in sorted(seen)], Rests(name, seen)
        made.update((it.name, sum_of(judges, it.name, *it.lines, *named, *rests.parts(it))) for it in edits if not it.bad)
    return made


def by_kits(text):
    """The keys that a file KEPT has, by the kits and the names of edits."""
    found, kit = {}, ""
    for line in filter(None, text.split("\n")):
        if LINE.fullmatch(line):
            key, name = line.split(" ")
            found.setdefault(kit, {})[name] = key
        else:
            kit = line
    return found


class Kept:
    """The verdicts of a file KEPT that are this kit's, beside the keys that they must have."""

    def __init__(self, path, kit, keys):
        self.path, self.kit, self.keys = path, kit, keys
        self.of_kits = by_kits(read(path)) if os.path.isfile(path) else {}
        self.lines = self.of_kits.get(kit, {})
        self.current = self.current_of(kit)

    def current_of(self, kit):
        """The edits whose lines of a kit have their current key."""
        return {it for it, key in self.of_kits.get(kit, {}).items() if self.keys.get(it) == key}

    def counts(self, names):
        """How many lines of these edits are current, how many are not, and how many edits have none."""
        current = sum(it in self.current for it in names)
        stale = sum(it in self.lines and it not in self.current for it in names)
        return current, stale, len(names) - current - stale

    def share(self, found):
        """The crates that are tried in any case, chosen by what stands in all of them: a tenth of the edits, or somewhat more."""
        whole, chosen = sum_of(*(it for both in sorted(self.keys.items()) for it in both)), set()
        for crate in sorted(found, key=lambda it: sum_of(whole, it)):
            if sum(len(found[it]) for it in chosen) * SHARE >= sum(map(len, found.values())):
                break
            chosen.add(crate)
        return chosen

    def write(self, refused, tried):
        """Keeps what was refused, and what stands there by now with its current key: of this kit what was not tried, and of others all."""
        there = Kept(self.path, self.kit, self.keys)
        kits = {kit: there.current_of(kit) for kit in {*there.of_kits, self.kit}}
        kits[self.kit] = {it for it in kits[self.kit] if it not in tried} | {*refused}
        with open(f"{self.path}.new", "w", encoding="utf-8") as file:
            for kit, names in sorted(kits.items()):
                file.write(f"{kit}\n" + "".join(f"{self.keys[it]} {it}\n" for it in sorted(names)))
        os.replace(f"{self.path}.new", self.path)
