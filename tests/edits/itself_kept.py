"""The keeping of verdicts, tried over a crate that is made up, and one below it: which line of KEPT stays current after which change."""
import ast
import os

from edit import edits_in
from kept import ANEW, HERE, ITSELF, JUDGES, OWN, Kept, keys, runner

EDITS = """file: src/lib.rt

edit: next.twice
in: next
old: n + 1
new: n * 1

edit: third.stays
in: third
old: next(following)
new: following

edit: bounded.eleven
file: src/steps.rt
old: return 10;
new: return 11;

edit: widest.eight
file: src/steps.rt
old: u8 = 9;
new: u8 = 8;
by: steps::widest

edit: size.one
file: src/steps.rt
in: Step::size
old: self.width
new: 1

edit: width.two
file: src/steps.rt
in: StepWide::width
old: Step::size(self)
new: 2

edit: IsThird.second
file: specs/Numbers.antt
old: n + 3
new: n + 2
by: third
"""
NAMES = [f"low/lib.{it.removeprefix('edit: ')}" for it in EDITS.split("\n") if it.startswith("edit: ")]
NEXT, THIRD, BOUNDED, WIDEST, SIZE, WIDTH, IS_THIRD = NAMES
SOME = NAMES[:4]
CITED = "use Rattle.low.proofs.Numbers.{at_most}\n"
LEMMAS = """use Rattle.std.proofs.Common.{◌≤◌}
use Rattle.low.proofs.Numbers.Small.{small}

unfolding small
pub at_most : 1 ≤ 2
at_most = small

pub never_cited : 1 ≤ 3
never_cited = search
"""
SMALL = "pub small : 1 ≤ 2\nsmall = search\n"
SPECS = """-- Numbers.
use Rattle.std.specs.Prelude.{◌≡◌, ◌+◌}
use Rattle.base.specs.Numbers.{Is}

abbrev pub IsThird : ℕ → ℕ → Type 0
IsThird n k = Is k (third_after n)

abbrev pub Unnamed : ℕ → Type 0
Unnamed n = Is n n

unfoldable pub third_after : ℕ → ℕ
third_after n = n + 3
"""
BELOW = "abbrev pub Is : ℕ → ℕ → Type 0\nIs n k = n ≡ k\n"
LOW, STEPS = "low/src/lib.rt", "low/src/steps.rt"

# What is changed: the file, a text of it, and what stands in its place (of a file that isn't there: the whole); and whose lines are then of
# other sources. `third` stands on the clause of `after_next` and on a definition, `bounded` cites a lemma, and the `width` of a step calls
# `size`. Two crates have a function `after_next`, which the words of `third` don't tell from one another.
CHANGES = {
    "the body of a function": (LOW, "    n + 1\n", "    let _ = n;\n    n + 1\n", [NEXT]),
    "the body of another function": (LOW, "let following = next(n);", "let following: u8 = next(n);", []),
    "a comment": (LOW, "/// The number after that.", "/// The third number.", []),
    "a clause of what is called": (LOW, "{ result ≡ n + 2 }", "{ result ≡ 2 + n }", [THIRD, IS_THIRD]),
    "its own clause": (STEPS, "{ result ≤ 10 }", "{ result ≤ 5 + 5 }", [BOUNDED]),
    "a word of all that is said of the crate": (LOW, "tactic(auto)", "tactic(none)", NAMES),
    "a constant": (STEPS, "WIDEST: u8 = 9", "WIDEST: u8 = 7 + 2", [WIDEST]),
    "a type": (STEPS, "pub width: u8", "pub width: u16", [SIZE, WIDTH]),
    "a clause of what is called of a type": (STEPS, "Step {\n    /// How wide it is.\n    pub fn size", "Step {\n    #[inline] pub fn size",
                                             [SIZE, WIDTH]),
    "a trait": (STEPS, "fn width(&self) -> u8;", "fn width(&self) -> u8 ensures { result ≤ 255 };", [WIDTH]),
    "an answer": ("low/proofs/steps/bounded/Answers.antt", "omega (arith, c.if-n-gt10.true)", "search", [BOUNDED]),
    "what a loop keeps": ("low/proofs/steps/bounded/Invariants.antt", None, CITED, [BOUNDED]),
    "a lemma that is cited": ("low/proofs/Numbers.antt", "at_most = small", "at_most = search", [BOUNDED]),
    "a lemma under it": ("low/proofs/Numbers/Small.antt", "= search", "= search {1}", [BOUNDED]),
    "a lemma that no proof cites": ("low/proofs/Numbers.antt", "1 ≤ 3", "1 ≤ 4", []),
    "another file of lemmas": ("low/proofs/More.antt", None, LEMMAS, []),
    "a definition": ("low/specs/Numbers.antt", "Is k (third_after n)", "Is k (1 + third_after n)", [THIRD, IS_THIRD]),
    "a definition that isn't unfolded by itself": ("low/specs/Numbers.antt", "third_after n = n", "third_after n = 0 + n", [THIRD, IS_THIRD]),
    "what a lemma unfolds": ("low/proofs/Numbers.antt", "unfolding small", "unfolding large", [BOUNDED]),
    "a definition under it": ("base/specs/Numbers.antt", "n ≡ k", "k ≡ n", [THIRD, IS_THIRD]),
    "a definition that is not named": ("low/specs/Numbers.antt", "Is n n", "Is n 1", []),
    "a cycle of calls": (STEPS, "pub fn widest()", "#[cycle(a)] pub fn widest()", NAMES),
    "a body of the crate below": ("base/src/lib.rt", "    n + 1\n", "    let _ = n;\n    n + 1\n", []),
    "a clause of the crate below": ("base/src/lib.rt", "{ result ≡ n + 2 }", "{ result ≡ 2 + n }", [THIRD, IS_THIRD]),
    "a lemma of the crate below": ("base/proofs/Numbers.antt", None, LEMMAS, []),
    "the crates that are named": ("../crates.txt", "low: base", "low: base io", NAMES),
    "the edit": ("../low/lib.edits", "new: n * 1", "new: n * 2", [NEXT]),
    "a name that the edit writes": ("../low/lib.edits", "new: n * 1", "new: WIDEST", [NEXT]),
}


def written(path, text):
    os.makedirs(os.path.dirname(path), exist_ok=True)
    with open(path, "w", encoding="utf-8") as it:
        it.write(text)


def read(path):
    with open(path, encoding="utf-8") as it:
        return it.read()


def keys_of(root, judges="judges"):
    return keys(root, {"base": [], "low": ["base"]}, {"low": edits_in(f"{root}/low/lib.edits", "low", f"{root}/crates/low")}, judges)


def after(root, file, old, new):
    """The keys after a change, which is taken back; none, where there is nothing to change."""
    path = f"{root}/crates/{file}"
    was = read(path) if old else None
    if old and old not in was:
        return {}
    written(path, was.replace(old, new) if old else new)
    made = keys_of(root)
    if old:
        written(path, was)
    else:
        os.remove(path)
    return made


def tried(root, source, steps, answers):
    """How many of these cases hold, and how many don't; says which."""
    own = source.replace("{ result ≡ n + 3 }", "{ IsThird n result }").replace("pub mod", "ghost use Rattle.low.specs.Numbers.{IsThird};\npub mod")
    files = {LOW: own, "base/src/lib.rt": source, STEPS: steps, "low/specs/Numbers.antt": SPECS, "base/specs/Numbers.antt": BELOW}
    files |= {"low/proofs/Numbers.antt": LEMMAS, "low/proofs/Numbers/Small.antt": SMALL}
    files |= {"low/proofs/steps/bounded/Answers.antt": CITED + answers, "../crates.txt": "base:\nlow: base\n", "../low/lib.edits": EDITS}
    for file, text in files.items():
        written(f"{root}/crates/{file}", text)
    usual, cases = keys_of(root), {}
    for name, (file, old, new, wanted) in CHANGES.items():
        cases[name] = stale(usual, after(root, file, old, new)) == sorted(wanted)
    cases["the runner"] = stale(usual, keys_of(root, "other judges")) == sorted([*NAMES, ITSELF])
    cases |= of_runner(f"{root}/runner")
    cases |= of_file(f"{root}/KEPT", usual)
    failed = [name for name, holds in cases.items() if not holds]
    for it in failed:
        print(f"the runner itself: verdicts are not kept as they must be: {it}")
    return len(cases) - len(failed), len(failed)


def stale(usual, made):
    return sorted(it for it in usual if made.get(it) != usual[it])


def of_runner(folder):
    """The files that judge: a change of each makes their sum another one, and they import no other file that judges."""
    files, cases = {it: read(f"{HERE}/{it}") for it in JUDGES}, {}
    for name, text in files.items():
        written(f"{folder}/{name}", text)
    usual = runner(JUDGES, folder)
    for name, text in files.items():
        written(f"{folder}/{name}", text + "# more\n")
        cases[f"{name} is changed"] = runner(JUDGES, folder) != usual
        written(f"{folder}/{name}", text)
        cases[f"what {name} imports"] = ours_imported(text) <= {*JUDGES, *ANEW}
    cases["the runner as it was"] = runner(JUDGES, folder) == usual == runner(JUDGES)
    every = {it for it in os.listdir(HERE) if it.endswith(".py")}
    cases["each file of the runner is in a sum"] = every == {*JUDGES, *OWN}
    return cases


def ours_imported(text):
    """The files of the runner that a source imports."""
    named = [it for it in ast.walk(ast.parse(text)) if isinstance(it, (ast.Import, ast.ImportFrom))]
    names = [one.name for it in named for one in it.names] + [it.module for it in named if isinstance(it, ast.ImportFrom)]
    return {f"{it}.py" for it in names if it and os.path.isfile(f"{HERE}/{it}.py")}


def of_file(path, made):
    """What stands in a file KEPT, and what is made of it."""
    def again(kit="kit 1"):
        return Kept(path, kit, made)

    cases = {"there is no file": again().counts(SOME) == (0, 0, 4)}
    again().write([NEXT, THIRD, ITSELF], {NEXT, THIRD, ITSELF})
    cases["two verdicts are kept"] = again().counts(SOME) == (2, 0, 2) and ITSELF in again().current
    cases["another kit"] = again("kit 2").counts(SOME) == (0, 0, 4) and not again("kit 2").current
    written(path, read(path).replace(made[THIRD], made[NEXT]))
    cases["a line with another's key"] = again().counts(SOME) == (1, 1, 2)
    again().write([BOUNDED], {BOUNDED, WIDEST})
    cases["what was not tried stays, and a stale line goes"] = again().current == {NEXT, BOUNDED, ITSELF} == {*again().lines}
    again().write([], {NEXT})
    cases["what is no longer refused goes"] = again().current == {BOUNDED, ITSELF}
    again("kit 2").write([NEXT], {NEXT})
    cases["each kit has its own lines"] = (again().current, again("kit 2").current) == ({BOUNDED, ITSELF}, {NEXT})
    again("kit 3").write([], {NEXT})
    cases["what another kit has stays"] = (again().current, again("kit 2").current) == ({BOUNDED, ITSELF}, {NEXT})
    Kept(path, "kit 3", {**made, NEXT: made[THIRD]}).write([], set())
    cases["a stale line of another kit goes"] = not again("kit 2").lines and again().current == {BOUNDED, ITSELF}
    crates = {f"crate{it}": ["an edit"] * it for it in range(1, 12)}
    shares = [Kept(path, "kit 1", {**made, "more": str(it)}).share(crates) for it in range(80)]
    cases["a tenth is tried again"] = all(sum(map(len, map(crates.get, it))) >= 6.6 for it in shares)
    cases["by turns"] = set().union(*shares) == {*crates} and Kept(path, "kit 1", {**made, "more": "0"}).share(crates) == shares[0]
    return cases
