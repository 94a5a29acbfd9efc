"""What the graph of crates.txt costs each command of rt.

usage: python3 tests/layout/ways.py

Before it builds or checks a crate, rt sums it up: its own files, and the sums of the crates that its line of crates.txt names, each
made anew. So one sum reads a crate below as often as there are ways to it, and a name more in crates.txt adds all ways of that name.
Of each crate this prints how many of our crates its line names, the longest chain that ends in it, the ways, and how many files one
sum reads. tests/layout/run has a bound on the files of `sf`.
"""
import os
from collections import namedtuple
from functools import lru_cache

ROOT = os.path.dirname(os.path.dirname(os.path.dirname(os.path.abspath(__file__))))
# The folders of a crate that a sum reads.
PARTS = ("src", "specs", "proofs")
Cost = namedtuple("Cost", "named chain ways files")


def names_of(text):
    """The crates of ours that each line of crates.txt names."""
    lines = [line.partition("#")[0].partition(":") for line in text.split("\n")]
    named = {crate.strip(): names.split() for crate, colon, names in lines if colon}
    return {crate: [it for it in names if it in named] for crate, names in named.items()}


def files_of(root, crate):
    """How many files of a crate by itself a sum reads."""
    return sum(len(names) for part in PARTS for _, _, names in os.walk(os.path.join(root, "crates", crate, part)))


def costs(root):
    """The cost of each crate of a repository."""
    with open(os.path.join(root, "crates.txt"), encoding="utf-8") as it:
        named = names_of(it.read())

    @lru_cache(maxsize=None)
    def cost(crate):
        below = [cost(it) for it in named[crate]]
        chain = 1 + max((it.chain for it in below), default=0)
        return Cost(len(below), chain, 1 + sum(it.ways for it in below), files_of(root, crate) + sum(it.files for it in below))

    return {crate: cost(crate) for crate in named}


def main():
    print(f"{'crate':20}{'named':>7}{'chain':>7}{'ways':>9}{'files of a sum':>16}")
    for crate, it in sorted(costs(ROOT).items(), key=lambda it: it[1].files):
        print(f"{crate:20}{it.named:7}{it.chain:7}{it.ways:9,}{it.files:16,}")


if __name__ == "__main__":
    main()
