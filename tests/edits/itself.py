"""The runner itself, tried over a crate that is made up: the wrong bodies are refused, each for its own function, and nothing else is.

The crate is taken as `rt ci` leaves one: proved, with nothing kept of its proof.
"""
import os

import itself_kept
import itself_same
import kit
from edit import edits_in
from judge import CITES, UNCLEAR, Judged, is_own
from rounds import Tries
from same import is_same

SOURCE = """//! Numbers that follow one another.
#![tactic(auto)]

ghost use Rattle.std.specs.Prelude.{◌≡◌, ◌+◌, ◌<◌};

pub mod steps;

/// The next number.
pub fn next(n: u8) -> u8
    requires small { n < 255 }
    ensures { result ≡ n + 1 }
{
    n + 1
}

/// The number after the next one.
pub fn after_next(n: u8) -> u8
    requires small { n < 254 }
    ensures { result ≡ n + 2 }
{
    let following = next(n);
    next(following)
}

/// The number after that.
pub fn third(n: u8) -> u8
    requires small { n < 253 }
    ensures { result ≡ n + 3 }
{
    let following = after_next(n);
    next(following)
}
"""

STEPS = """//! Steps of a width.
ghost use Rattle.std.specs.Prelude.{◌≡◌, ◌≤◌};

/// The widest step.
pub const WIDEST: u8 = 9;

/// The width of the widest step.
pub fn widest() -> u8
    ensures { result ≡ 9 }
{
    WIDEST
}

/// A step.
pub struct Step {
    /// How wide it is.
    pub width: u8,
}

impl Step {
    /// How wide it is.
    pub fn size(&self) -> u8
        ensures { result ≡ self.now.width }
    {
        self.width
    }
}

/// What has a width.
pub trait Wide {
    /// How wide it is.
    fn width(&self) -> u8;
}

impl Wide for Step {
    fn width(&self) -> u8
        ensures { result ≡ self.now.width }
    {
        Step::size(self)
    }
}

impl Wide for u8 {
    fn width(&self) -> u8
        ensures { result ≡ self.now }
    {
        *self
    }
}

/// The number, or the greatest that is let through.
pub fn bounded(n: u8) -> u8
    ensures within { result ≤ 10 }
    ensures own { result ≤ n }
{
    if n > 10 {
        return 10;
    }
    n
}

/// The widths of what is not shown.
pub mod hidden {
    /// The width of a hidden step.
    pub fn width() -> u8
        ensures { result ≡ 3 }
    {
        1 + 2
    }
}
"""

# A proof file whose answers cite names that the kit makes of the source text.
ANSWERS = """use Rattle.std.proofs.Common.{◌≤◌, arith}
use Rattle.low.proofs.steps.bounded.Goals as goal

pub returns-then-n-gt10-clause-own : goal.returns-then-n-gt10-clause-own
returns-then-n-gt10-clause-own c = omega (arith, c.if-n-gt10.true)

pub returns-then-n-gt10-clause-within : goal.returns-then-n-gt10-clause-within
returns-then-n-gt10-clause-within c = omega (arith, c.if-n-gt10.true)

pub returns-clause-within : goal.returns-clause-within
returns-clause-within c = omega (arith, c.if-n-gt10.false)
"""

# Each edit, and how what is said of it must begin. `same` is harmless, in a caller of what `twice` makes wrong. Of the three functions
# `width` one is of a trait for a type, one of that trait for a number, and the last has another name than the runner finds.
EDITS = {
    "lib.next.twice": ("in: next\nold: n + 1\nnew: n * 1", "low::next: "),
    "lib.after_next.same": ("old: let following = next(n);\nnew: let (following, _) = (next(n), 0);", "NOT REFUSED"),
    "lib.after_next.same_by_type": ("old: let following = next(n);\nnew: let following: u8 = next(n);", "BAD EDIT: it changes no value"),
    "lib.third.no_such_name": ("old: let following = after_next(n);\nnew: let following = no_such_name(n);", "BAD EDIT"),
    "lib.third.text_is_gone": ("old: n + 7\nnew: n", "BAD EDIT"),
    "lib.third.text_is_there_twice": ("old: next(following)\nnew: following", "BAD EDIT"),
    "lib.third.clause_changed": ("old: result ≡ n + 3\nnew: result ≡ result", "BAD EDIT"),
    "lib.third.nothing_changed": ("in: third\nold: next(following)\nnew: next(following)", "BAD EDIT"),
    "lib.third.judged_by_another": ("in: third\nold: next(following)\nnew: following\nby: next", "BAD EDIT"),
    "lib.third.stays": ("in: third\nold: next(following)\nnew: following", "low::third: "),
    "steps.size.none_of_a_step": ("in: size\nold: self.width\nnew: 0", "low::steps::Step::size: "),
    "steps.width.none_of_a_wide_step": ("in: width\nold: Step::size(self)\nnew: 0", "low::steps::StepWide::width: "),
    "steps.width.none_of_a_number": ("in: U8Wide::width\nold: *self\nnew: 0", "low::steps::U8Wide::width: "),
    "steps.width.none_of_a_hidden_step": ("in: width\nold: 1 + 2\nnew: 1 + 1", "low::steps::hidden::width: "),
    "steps.widest.eight": ("old: u8 = 9;\nnew: u8 = 8;\nby: steps::widest", "alone: low::steps::widest: "),
    "steps.widest.judged_by_another": ("old: u8 = 9;\nnew: u8 = 8;\nby: steps::Step::size", "NOT REFUSED by"),
    "steps.widest.judged_by_none": ("old: u8 = 9;\nnew: u8 = 8;\nby: steps::narrowest", "NOT REFUSED by"),
}

# Of a function whose proof cites names of the source text. A harmless edit must not count as refused.
EDITS |= {
    f"steps.bounded.{name}": (f"in: bounded\n{lines}", wanted)
    for name, lines, wanted in (
        ("eleven", "old: return 10;\nnew: return 11;\nopen: within", "low::steps::bounded: "),
        ("eleven_for_another", "old: return 10;\nnew: return 11;\nopen: own", "NOT REFUSED for own"),
        ("eleven_for_a_misspelled", "old: return 10;\nnew: return 11;\nopne: within", "BAD EDIT: it has a line of no known kind"),
        ("ten_by_name", "old: return 10;\nnew: let ten = 10; return ten;", "BAD EDIT: it changes no value"),
        ("ten_by_pair", "old: return 10;\nnew: let (ten, _) = (10, 0); return ten;", "NOT REFUSED"),
        ("test_by_name", "old: if n > 10 {\nnew: let is_more = n > 10; if is_more {", "BAD EDIT: it changes no value"),
        ("test_by_pair", "old: if n > 10 {\nnew: let (is_more, _) = (n > 10, 0); if is_more {", "BAD EDIT: its proof cites"),
        ("doubled_before", "old: return 10;\nnew: let _ = n * 2; return 10;", "BAD EDIT: it is not clear whether a clause fails"),
        ("twice", "old: return 10;\nnew: return 20;", "low::steps::bounded: "),
        ("eleven_passes", "old: if n > 10 {\nnew: if n > 11 {", "BAD EDIT: its proof cites what the edit renamed"),
        ("same_value", "old: if n > 10 {\nnew: if !(n < 11) {", "BAD EDIT: it changes no value"),
    )
}

# Two expressions, and whether they are the same whatever their parts are.
SAME = (
    ("x & 1 == 1", "x & 1 != 0", True),
    ("x & 1 == 1", "x & 1 == 0", False),
    ("!found(b)", "found(b) == false", True),
    ("a.min(64)", "a.min(64).min(64)", True),
    ("a.min(64)", "a.min(63)", False),
    ("lanes.simd_lt(u8x16::splat(5))", "lanes.simd_le(u8x16::splat(4))", True),
    ("9 <= b && b <= 13", "(9..=13).contains(&b)", True),
    ("9 <= b && b <= 13", "(9..13).contains(&b)", False),
    ("words | (upto & !below)", "(upto & !below) | words", True),
    ("x + 993 >= 100000", "x + 994 >= 100000", False),
    ("a - b >= c", "a >= b + c", False),
    ("first(a) + second(b)", "second(b) + first(a)", False),
    ("number.max(0)", "number", False),
    ("10 * value + (*b - 48) as u32", "value * 10 + (*b - 48) as u32", True),
)

# So of assignments.
ASSIGNED = (
    ("at += 3;", "at += 1; at += 2;", True),
    ("at += 3;", "at += 1; at += 1;", False),
    ("at = at + 3;", "let next = at + 3; at = next;", True),
    ("at = at + 3;", "let next = at + 3; left = next;", False),
    ("at = from; from = at;", "from = at; at = from;", False),
    ("at += 3;", "at += 3; left = 0;", False),
    ("self.at = at + self.len;", "self.at = self.len + at;", True),
    ("at = 0; left = count(at);", "at = 0; left = count(at) + 0;", True),
    ("left = from;", "let _ = count(at); left = from;", False),
    ("left = twice(at);", "let one = twice(at); left = one;", True),
)

# What is said of the function `low::next`, and whether it is refused by that for its own proof.
SAID = {
    "no holes": False,
    "depends on a hole in `Rattle.low.proofs.next.Answers.returns`": False,
    "could not tell": False,
    "not proved; it calls `low::third`, whose theorem is not proved": False,
    "not proved": True,
    "not proved; it stands on `Rattle.low.proofs.next.Answers.returns`, which antt refuses": True,
    "not proved; it stands on `Rattle.low.proofs.third.Answers.returns`, which antt refuses": False,
    "no proof: expected answers in ./proofs/next/Answers.antt; `search` did not prove `returns`": True,
}


# What a check says of the function `low::steps::bounded`, whose proof has answers, by the goal that stays open: what is made of it, and so
# with that goal as the one that must stay open.
NO_PROOF = "fn low::steps::bounded: no proof: expected answers in ./proofs/steps/bounded/Answers.antt; `search` did not prove `{goal}`"
NOT_PROVED = "note: src/steps.rt:{line}:9: it is not proved that the function can go on here (`{goal}`)"
REFUSES = "./proofs/steps/bounded/Answers.antt:8:1: error: `{goal}`: {why}"
STEPS_SAID = (
    ("overflow_mul-n", [NO_PROOF, NOT_PROVED], UNCLEAR, True),
    ("slice_bounds-n-2", [NO_PROOF, NOT_PROVED], UNCLEAR, True),
    ("returns-then-n-gt10-clause-own", [NO_PROOF, NOT_PROVED], "", True),
    ("loop-at-preserved", [NO_PROOF, NOT_PROVED], "", True),
    ("invariant_of-result", [NO_PROOF, NOT_PROVED], "", True),
    ("following-requires", [NO_PROOF, NOT_PROVED], "", True),
    ("overflow_add-n", [NO_PROOF, REFUSES.replace("{why}", "`search`: no proof was found")], UNCLEAR, True),
    ("overflow_add-n", [NO_PROOF, REFUSES.replace("{why}", "`omega`: the goal does not follow. The goal fails at `n` = 255")], "", True),
    ("overflow_add-n", [NO_PROOF, REFUSES.replace("{why}", "has no field `if-n-gt10`")], CITES, False),
)


def judged_steps(edit):
    """How many of these are judged as they must be, and how many are not; says which."""
    line, failed = STEPS[: STEPS.index("if n > 10")].count("\n") + 1, 0
    for goal, lines, bad, is_refused in STEPS_SAID:
        said = [it.format(goal=goal, line=line) for it in lines]
        for edit.open, wanted in ((None, (bad, not bad)), (goal, ("" if is_refused else bad, is_refused))):
            found = Judged(said, edit, {})
            if not ((found.bad or "").startswith(wanted[0]) and bool(found.bad) == bool(wanted[0]) and bool(found.refused) == wanted[1]):
                failed += 1
                print(f"the runner itself: wanted {wanted} of {goal} for {edit.open}, found: {found.bad}, {found.refused}")
    edit.open = None
    return 2 * len(STEPS_SAID) - failed, failed


def written(path, text):
    os.makedirs(os.path.dirname(path), exist_ok=True)
    with open(path, "w", encoding="utf-8") as it:
        it.write(text)


def made_up(root):
    """Writes the crate and its edits, and answers these."""
    written(f"{root}/crates.txt", "low:\n")
    written(f"{root}/crates/low/src/lib.rt", SOURCE)
    written(f"{root}/crates/low/src/steps.rt", STEPS)
    written(f"{root}/crates/low/proofs/steps/bounded/Answers.antt", ANSWERS)
    for module in ("lib", "steps"):
        own = [f"\nedit: {name.partition('.')[2]}\n{lines}\n" for name, (lines, _) in EDITS.items() if name.startswith(f"{module}.")]
        written(f"{root}/{module}.edits", f"file: src/{module}.rt\n{''.join(own)}")
    made = [it for module in ("lib", "steps") for it in edits_in(f"{root}/{module}.edits", "low", f"{root}/crates/low")]
    return {it.name.removeprefix("low/"): it for it in made}


def tried(room, with_prover=True, by_command=False):
    """How many of these edits were judged as they must be, and how many were not; says which. Without the prover, only those that
    can't be applied are judged."""
    root = f"{room}/itself"
    edits, refused = made_up(root), []
    if with_prover:
        os.makedirs(f"{room}/tries")
        prover = kit.chosen(root, room, by_command=by_command)
        prover.is_proved = lambda crate: True
        tries = Tries(prover, "low", f"{room}/tries")
        refused = tries.all([it for it in edits.values() if not it.bad]) if tries.prepare() else []
        print(f"== the runner itself: {len(edits)} edits of a crate that is made up, {tries.checks} checks", *tries.notes, sep="\n")
    judged, failed = {name: it for name, it in edits.items() if it.bad or with_prover}, 0
    for name, edit in judged.items():
        found, wanted = f"BAD EDIT: {edit.bad}" if edit.bad else edit.how, EDITS[name][1]
        if not found.startswith(wanted) or (edit in refused) != wanted.startswith(("low::", "alone: ")):
            failed += 1
            print(f"the runner itself: {name}: wanted {wanted}.., found: {found[:200]}")
    pairs = [(f"if {was} {{ }}", f"if {now} {{ }}", wanted) for was, now, wanted in SAME] + [*ASSIGNED]
    for was, now, wanted in pairs:
        if is_same(f"{{ {was} }}", f"{{ {now} }}") != wanted:
            failed += 1
            print(f"the runner itself: wanted {wanted} of {was} and {now}")
    others = [itself_kept.tried(f"{root}/kept", SOURCE, STEPS, ANSWERS), itself_same.tried(), judged_steps(edits["steps.bounded.twice"])]
    for how, wanted in SAID.items():
        if is_own(how, edits["lib.next.twice"].names()) != wanted:
            failed += 1
            print(f"the runner itself: wanted {wanted} of what is said: {how}")
    passed, more = map(sum, zip(*others, strict=True))
    return len(judged) + len(SAID) + len(pairs) - failed + passed, failed + more
