"""Wrong bodies tried many at once.

A round is one check of a crate with an edit in each of many functions, past what is refused (`--allow-holes`). Callers see contracts
alone, and an edit changes a body alone, so that the goals of each function are those that it has with its own edit alone. judge.py says
when an edit counts as refused. What a round can't judge is tried alone, and so is an edit of a definition, which names the function that
it shows.

A round asks for the functions that it changes (`--only`), and the prover then reads these and those that they call. So a crate that
`rt ci` has proved isn't proved once more before its rounds. Where earlier checks kept what they proved, each round begins with that;
else each of them keeps for the next what it proved. The whole crate is proved only for an edit of a definition that names no function.
"""
import contextlib
import os
import re
import shutil
import tempfile
import time

from edit import applied
from judge import Judged
from kit import linked

ERROR = re.compile(r"(?:\./)?(src/\S+?):(\d+):\d+: error")
# What it says where `--only` has a name that the crate lacks, or that several functions have.
NO_SUCH = re.compile(r"rattle: error: .*(?:has no function|several functions are named)")


BAD = "BAD EDIT"


def has_ended(said):
    """Whether a check past what is refused came to its end."""
    return any(re.match(r"(?:only=\d+ )?holes=", it) for it in said.lines[-6:])


def together(edits):
    """Those that one round can have, the first ones first."""
    found = []
    for edit in edits:
        if all(map(edit.goes_with, found)):
            found.append(edit)
    return found


class Tries:
    """The tries of one crate's edits, in a folder of this run."""

    def __init__(self, kit, crate, room):
        self.kit, self.crate, self.kept, self.room = kit, crate, f"{room}/kept", room
        self.notes, self.times, self.checks, self.began, self.processor = [], [], 0, time.monotonic(), 0.0
        # (whether the crate was proved as it stands, and its proofs lie in `kept`; and whether earlier checks left proofs there)
        self.is_whole = self.has_kept = False

    def check(self, texts, kept, *flags):
        said = self.kit.check(self.crate, texts, kept, *flags)
        self.checks += 1
        self.processor += said.processor
        self.times = sorted(self.times + said.times, reverse=True)
        return said

    def prepare(self):
        """Takes what earlier checks kept of the crate. Answers whether it is proved as it stands."""
        own = self.kit.kept(self.crate)
        if own:
            linked(own, self.kept)
            self.has_kept = True
        os.makedirs(self.kept, exist_ok=True)
        return self.kit.is_proved(self.crate) or self.proved()

    def proved(self):
        """Proves the crate as it stands, once, and keeps what it proves. Answers whether it is proved."""
        if not self.is_whole:
            said = self.check({}, self.kept)
            self.is_whole = not said.status
            self.notes += ["the crate as it stands is not proved:", *said.lines[-12:]] if said.status else []
        return self.is_whole

    @contextlib.contextmanager
    def over(self):
        """A copy of the kept work, so that it stays as it is. Where there was none: the work itself, to which a check adds its proofs."""
        if not self.is_whole and not self.has_kept:
            yield self.kept
            return
        copy = tempfile.mkdtemp(dir=self.room)
        linked(self.kept, copy)
        yield copy
        shutil.rmtree(copy, ignore_errors=True)

    def asked(self, edits, texts):
        """A check of what the edits ask for, past what is refused; of the whole crate, where it has no function of such a name."""
        names = dict.fromkeys(it.asks for it in edits)
        flags = [] if None in names else [word for name in names for word in ("--only", name)]
        with self.over() as kept:
            said = self.check(texts, kept, "--allow-holes", *flags)
        if said.status == 2 and edits[0].place and flags and any(map(NO_SUCH.match, said.lines)):
            for it in edits:
                it.asks, it.is_function = None, False
            return self.asked(edits, texts) if self.proved() and together(edits) == edits else said
        return said

    def round(self, edits):
        """Tries edits at once. Answers those that are refused, and those to be tried alone."""
        texts, lines = applied(edits)
        said = self.asked(edits, texts)
        first = together(edits)
        if first != edits:
            # Some are called by other names than was thought, so that what is said of one may be of another.
            refused, more = self.round(first)
            others, left = self.round([it for it in edits if it not in first])
            return refused + others, more + left
        if not has_ended(said):
            # What the front end refuses is tried alone, and the others once more without it.
            errors = filter(None, map(ERROR.match, said.lines))
            wrong = {lines.get((it[1], int(it[2]))) for it in errors}
            alone = [it for it in edits if it in wrong] or edits
            refused, more = self.round([it for it in edits if it not in alone]) if len(alone) < len(edits) else ([], [])
            return refused, more + alone
        for edit in edits:
            edit.how = self.verdict(said, edit, texts)
        return [it for it in edits if it.how and not it.how.startswith(BAD)], [it for it in edits if not it.how]

    @staticmethod
    def verdict(said, edit, texts):
        """What refuses an edit, or why its refusal shows nothing; nothing, where the check refuses its function for no own reason."""
        found = Judged(said.lines, edit, texts)
        return f"{BAD}: {found.bad}" if found.bad else found.refused or ""

    def alone(self, edit):
        """Tries an edit by itself, and answers whether it is refused: by the function that it changes or names, or else by the crate."""
        texts = {file: now for file, (_, now) in edit.texts.items()}
        if edit.place or edit.asks:
            return self.alone_by_function(edit, texts)
        if not self.proved():
            edit.how = "the crate as it stands is not proved"
            return False
        with self.over() as kept:
            said = self.check(texts, kept)
        if said.status == 1 and said.last().startswith("logic=not-proved"):
            told = (it for it in said.lines if re.match(r"(note: )?\S+:\d+:\d+:", it))
            edit.how = "alone: " + next(told, said.last())
            return True
        edit.how = f"{BAD}: {said.last()}" if said.status else "NOT REFUSED: the crate is still proved with this edit"
        return False

    def alone_by_function(self, edit, texts):
        said = self.asked([edit], texts)
        found = Judged(said.lines, edit, texts) if has_ended(said) else None
        if found and found.refused:
            edit.how = f"alone: {found.refused}"
            return True
        by = f" by {edit.by}" if edit.by else f" for {edit.open}" if edit.open else ""
        if found and found.bad:
            edit.how = f"{BAD}: {found.bad}"
        elif said.status == 1 and not found and edit.place:
            edit.how = f"{BAD}: {said.last()}"
        else:
            edit.how = f"NOT REFUSED{by}: {found and found.said or said.last()}"
        return False

    def all(self, edits):
        """Tries edits, in as many rounds as one function has edits. Answers those that are refused."""
        refused, left = [], [it for it in edits if it.place]
        alone = [it for it in edits if not it.place]
        while left:
            now = together(left)
            well, more = self.round(now)
            refused, alone = refused + well, alone + more
            left = [it for it in left if it not in now]
        return refused + [it for it in alone if self.alone(it)]
