"""What a check says of an edit: whether the function that it changes is refused for what it means.

A function is refused for itself where a goal of its own is open, or where the prover refuses an answer that stands in its proof files.
A name that an answer cites may be made of the source text (`c.if-tens-gt22`): where the edit took such a name away, the refusal says
nothing of the contract. So of a function whose proof files cite what is gone only a goal counts that needed no answer before.
A function that fails only for another one that it calls doesn't count either. Nor does one with hand-written answers in which only steps
of arithmetic are open, such as a sum that must not overflow: the search may not find what is true, and no clause is known to fail.
"""
import re
from typing import NamedTuple

from edit import bodies

PROVED = ("no holes", "proved", "depends on a hole")
# (the prover ran out of memory or steps: that shows nothing of the function)
UNTOLD = "could not tell"
REFUSED = ("not proved", "no proof")
# Lines of `rattle check --allow-holes`, such as
#   fn sf_base::runs::cut: not proved; it stands on `Rattle.sf_base.proofs.runs.cut.Answers.stops`, which antt refuses
#   fn sf_base::runs::cut: no proof: .. `search` did not prove `returns`
#   ./proofs/runs/cut/Answers.antt:26:32: error: `stops`: record `Rattle.sf_base.proofs.runs.cut.Lts.View.In` has no field `if-n-ne0`
#   note: src/runs.rt:45:13: it is not proved that what the function ensures holds when it returns (`returns-then-clause-count`)
FUNCTION = re.compile(r"fn (\S+): (.*)")
DECLARATION = re.compile(r"`Rattle\.(\w+)\.proofs\.([^`]+)`")
CALLED = re.compile(r"(?:calls|passes|a call of|the block|and) `([^`]+)`")
ANSWER = re.compile(r"(?:\./)?(?:proofs|specs)/(\S+?)\.antt:\d+:\d+: error: (?:`([^`]+)`: )?(.*)")
SPEC = re.compile(r"(?:\./)?(specs/\S+?):(\d+):\d+: error: ")
GOAL = re.compile(r"note: (?:\./)?(src/\S+?):(\d+):\d+: .*\(`([^`]+)`\)")
# Errors that say of a name that it isn't there, and errors that follow from others.
GONE = re.compile(r"has no (?:field )?`|is not in scope|can be named from here")
FOLLOWS = re.compile(r"was not admitted")
LOST = re.compile(r"(?:\./)?proofs/\S*/Invariants\.antt:|\.(?:Goals|Given)`|`goal\.")
# Goals that ask whether a step can be taken, and nothing of what a clause says or a loop keeps.
STEP = re.compile(r"(?:overflow_\w+|(?:slice_)?bounds|division\w*|remainder\w*)(?:-.*)?")
# What is said of an answer that is known not to fit, and of a goal that is known to fail.
KNOWN = re.compile(r"the goal fails|does not follow|\bdiffer\b|does not hold")
CITES = "its proof cites what the edit renamed"
UNCLEAR = "it is not clear whether a clause fails"
OF_A_FUNCTION = re.compile(r"(?:.*\.)?(?:Answers|Invariants|Goals|Given|Code|Tie)(?:\..*)?")


class Sign(NamedTuple):
    """A goal that is open, or an answer that is refused, and the line that says so."""

    goal: str
    line: str


def is_own(how, names):
    """Whether what is said of a function says by itself that it is refused for its own proof."""
    if how.startswith(PROVED) or how.startswith(UNTOLD):
        return False
    if "did not prove" in how:
        return True
    cited = ["::".join([crate, *path.split(".")]) for crate, path in DECLARATION.findall(how)]
    return any(names.fullmatch(it) for it in cited) or not (cited or CALLED.search(how))


def stands_on_lemma(how):
    return any(not OF_A_FUNCTION.fullmatch(path) for _, path in DECLARATION.findall(how))


def place(text, number):
    """The first and the last line of a function, by its number among those of the source."""
    found = list(bodies(text))
    if not 0 <= number < len(found):
        return 0, 0
    name, opens, closes = found[number]
    heads = [it.start() for it in re.finditer(rf"\bfn\s+{name}\b", text[:opens])]
    # (what is said of the whole function stands at its first attribute)
    lines, first = text.splitlines(), text.count("\n", 0, heads[-1])
    while first and lines[first - 1].strip().startswith("#["):
        first -= 1
    return first + 1, text.count("\n", 0, closes) + 1


def open_goals(lines, edit, texts):
    """The goals that the notes name at a place of the function."""
    if not edit.shown:
        return []
    file, number = edit.shown
    first, last = place(texts.get(file) or edit.text_of(file), number)
    notes = ((it, line) for line in lines for it in [GOAL.match(line)] if it)
    return [Sign(it[3], line) for it, line in notes if it[1] == file and first <= int(it[2]) <= last]


def answers(lines, edit, names):
    """The answers that are refused, and the lines that name what is gone; of a definition, the lemmas too."""
    found, gone = [], []
    for line in lines:
        it = ANSWER.match(line)
        if it and (not edit.place or names.fullmatch("::".join([edit.crate, *it[1].split("/")]))):
            if GONE.search(it[3]):
                gone.append(line)
            elif not FOLLOWS.search(it[3]):
                found.append(Sign(it[2] or "", line))
    return found, gone


def written_wrong(lines, edit):
    """The error by which the prover refuses the very lines of a definition that an edit writes, if there is one."""
    file, at, _, new = edit.spans[0]
    first = edit.texts[file][0].count("\n", 0, at) + 1
    found = ((it, line) for line in lines for it in [SPEC.match(line)] if it)
    return next((line for it, line in found if it[1] == file and first <= int(it[2]) <= first + new.count("\n")), None)


def is_unclear(signs, edit):
    """Whether all that is open, in a function with hand-written answers, are steps of arithmetic of which none is known to fail."""
    steps = [STEP.fullmatch(it.goal) and not KNOWN.search(it.line) for it in signs]
    return bool(edit.place) and bool(steps) and all(steps) and edit.has_answers()


def joined(lines):
    """The lines, each with those that go on with it."""
    made = []
    for line in lines:
        if line.startswith("  ") and made:
            made[-1] += f" {line.strip()}"
        else:
            made.append(line)
    return made


class Judged:
    """What a check says of an edit. `refused` is the line that refuses its function for what it means; `bad` says why its refusal shows
    nothing, and `said` what else the check says of it."""

    def __init__(self, said, edit, texts):
        self.refused = self.bad = None
        said, names = joined(said), edit.names()
        hows = [(it[0][3:], it[2]) for it in map(FUNCTION.fullmatch, said) if it and names.fullmatch(it[1])]
        self.said = "; ".join(line for line, _ in hows)
        # (of a function whose name is not known: that of the type that is refused)
        hows = [it for it in hows if not it[1].startswith(PROVED)]
        if hows and not any(how.startswith(UNTOLD) for _, how in hows):
            self.judge(said, edit, texts, hows, names)

    def judge(self, said, edit, texts, hows, names):
        refused, gone = answers(said, edit, names)
        goals = open_goals(said, edit, texts)
        signs = [*goals, *(refused if edit.place else [])]
        own = next((line for line, how in hows if is_own(how, names) or not edit.place and stands_on_lemma(how)), None)
        wanted = [it for it in signs if edit.asks_for(it.goal)]
        if gone and edit.place:
            # A goal that had no answer counts all the same, unless goals have other names than before, or what loops keep is not known.
            is_lost = any(LOST.search(it) for it in gone)
            wanted = [it for it in wanted if it in goals and not is_lost and not any(f"`{it.goal}`" in line for line in gone)]
            signs, own = wanted, None
            self.bad = None if wanted else f"{CITES}: {gone[0]}"
        elif written_wrong(said, edit):
            self.bad = f"it is no definition: {written_wrong(said, edit)}"
        elif gone and not refused:
            self.bad = f"{CITES}: {gone[0]}"
        if self.bad:
            return
        if edit.open:
            self.refused = next((f"{hows[0][0]}: {it.line}" for it in wanted), None)
        elif is_unclear(signs, edit):
            self.bad = f"{UNCLEAR}: {signs[0].line}"
        else:
            self.refused = own or next((f"{hows[0][0]}: {it.line}" for it in signs), None)
