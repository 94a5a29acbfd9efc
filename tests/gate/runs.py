"""The commands of a run of the tests: what each of them passed, failed and passed over, and what it took."""
import glob
import os
import re
import resource
import signal
import subprocess
import sys
import threading
import time
from itertools import islice

import needs

TICKS = os.sysconf("SC_CLK_TCK")


def processor_seconds():
    """What the commands that have ended took of the processors, in all."""
    used = resource.getrusage(resource.RUSAGE_CHILDREN)
    return used.ru_utime + used.ru_stime


class Parts:
    """What each part took: seconds by the clock, and of the processors."""

    def __init__(self):
        self.took = {}

    def add(self, part, clock, processor):
        before = self.took.get(part, (0.0, 0.0))
        self.took[part] = before[0] + clock, before[1] + processor

    def print(self):
        clock, processor = (sum(it) for it in zip((0.0, 0.0), *self.took.values()))
        cores = len(os.sched_getaffinity(0))
        print(f"What each part took, in minutes, on {cores} cores (load {os.getloadavg()[2]:.1f} in the last 15 minutes):")
        print(f"  {'':16}{'by the clock':>14}{'of a processor':>16}")
        for part, both in [*self.took.items(), ("in all", (clock, processor))]:
            shown = f"{both[0] / 60:14.1f}" if both[0] else f"{'':14}"
            print(f"  {part:16}{shown}{both[1] / 60:16.1f}")


class Sampled(threading.Thread):
    """Looks every two seconds at what the provers below this process took, apart for those that prove tests."""

    def __init__(self):
        super().__init__(daemon=True)
        self.took, self.ended = {}, threading.Event()

    def run(self):
        while not self.ended.wait(2):
            parents, seen = {}, {}
            for folder in glob.glob("/proc/[0-9]*"):
                self.look(int(folder[6:]), parents, seen)
            for pid, (key, seconds) in seen.items():
                if self.is_ours(pid, parents):
                    self.took[key] = seconds

    @staticmethod
    def look(pid, parents, seen):
        try:
            with open(f"/proc/{pid}/stat") as it:
                fields = it.read().rpartition(")")[2].split()
            with open(f"/proc/{pid}/cmdline") as it:
                words = it.read().split("\0")
        except OSError:
            return
        parents[pid] = int(fields[1])
        if os.path.basename(words[0]) == "rattle":
            # (its place in the process table, its start, and whether it proves tests)
            seen[pid] = (pid, fields[19], "--test" in words), (int(fields[11]) + int(fields[12])) / TICKS

    @staticmethod
    def is_ours(pid, parents):
        while pid > 1 and pid != os.getpid():
            pid = parents.get(pid, 0)
        return pid == os.getpid()

    def share_of_tests(self):
        whole = sum(self.took.values())
        return sum(seconds for key, seconds in self.took.items() if key[2]) / whole if whole else 0.0


MOST_COMPLAINTS = 40
# Lines that say what failed: of `rt ci`, of the wrong bodies, of the other tests. (Wrong bodies and edits that are refused are as they
# should be, and what is passed over has its own lines: so have wrong bodies that show nothing.)
COMPLAINT = re.compile(
    r"the runner itself: |\w+/[\w.]+: (?:NOT REFUSED|BAD EDIT: (?!its proof cites|it is not clear))|"
    r"(?!passed over: )(?!.*\.edit: refused)(?!\w+/[\w.]+: (?:refused|BAD EDIT): )(?!.*: proved$)(?!.* ok$)"
    r".*(?:FAIL|ERROR|\.edit: |no proof:|not proved|not so:|columns, at most|status \d+: |more than|error[:\[]|panicked|"
    r"wrote something else)"
)
# After this line stands what the prover said of a crate, up to its first wrong body or to the next crate.
UNPROVED = "the crate as it stands is not proved:"
NEXT = re.compile(r"== |\w+/[\w.]+: ")
LAST = re.compile(r"(\d+) passed, (\d+) failed(?:, (\d+) skipped)?")
OVER = re.compile(r"passed over: (?P<what>(?:(?P<number>\d+) )?.*?): (?P<why>.*)")


class Outcome:
    """What a command came to. `over` has what it passed over: how many rows, what they are, and why."""

    def __init__(self, passed=0, failed=0, skipped=0, over=(), complaints=()):
        self.passed, self.failed, self.skipped = passed, failed, skipped
        self.over, self.complaints = [*over], [*complaints]


def complaints_in(lines):
    """The lines that say what failed."""
    follows = False
    for line in lines:
        follows = line == UNPROVED or follows and not NEXT.match(line)
        if follows or COMPLAINT.match(line):
            yield line


def read(lines, status):
    """The outcome that a command's lines and status tell. One that ends without counts, or with a status that they don't explain,
    has failed; so has one that passes over more or fewer rows than it gives reasons for, or has no row at all."""
    last = lines[-1] if lines else ""
    counts, found = LAST.fullmatch(last), [it for it in map(OVER.fullmatch, lines) if it]
    if not counts:
        return Outcome(failed=1, complaints=[f"it ended without counts: {last}"])
    it = Outcome(int(counts[1]), int(counts[2]), int(counts[3] or 0))
    it.over = [(int(one["number"] or 1), one["what"], one["why"]) for one in found]
    reasons = sum(number for number, _, _ in it.over)
    if reasons != it.skipped:
        it.complaints.append(f"{it.skipped} are skipped, and {reasons} of them with a reason")
    if not it.passed + it.failed + it.skipped:
        it.complaints.append("it has tested nothing")
    if status and not it.failed:
        it.complaints.append(f"its status is {status}")
    it.failed = it.failed or int(bool(it.complaints))
    return it


class Run:
    """The run so far: the outcomes of each test, what each part took, and what is running."""

    def __init__(self):
        self.outcomes, self.parts, self.running = {}, Parts(), None

    def note(self, name, outcome):
        self.outcomes.setdefault(name, []).append(outcome)

    def command(self, name, *words):
        """Runs a command, shows what it prints, and notes its outcome. Answers the seconds by the clock and of the processors."""
        began, used, lines = time.monotonic(), processor_seconds(), []
        how = {"stdin": subprocess.DEVNULL, "stdout": subprocess.PIPE, "stderr": subprocess.STDOUT, "errors": "replace"}
        try:
            self.running = subprocess.Popen(words, start_new_session=True, **how)
        except OSError as fault:
            print(fault, flush=True)
            self.note(name, Outcome(failed=1, complaints=[str(fault)]))
            return 0.0, 0.0
        for line in self.running.stdout:
            print(line, end="", flush=True)
            lines.append(line.rstrip("\n"))
        outcome = read(lines, self.running.wait())
        if outcome.failed:
            outcome.complaints += islice(complaints_in(lines), MOST_COMPLAINTS)
        self.note(name, outcome)
        return time.monotonic() - began, processor_seconds() - used

    def part(self, part, name, *words):
        self.parts.add(part, *self.command(name, *words))

    def passed_over(self, name, what, why):
        """Notes what isn't even begun."""
        print(f"passed over: {what}: {why}", flush=True)
        self.note(name, Outcome(skipped=1, over=[(1, what, why)]))

    def fails(self, name, why):
        print(f"{name}: {why}", flush=True)
        self.note(name, Outcome(failed=1, complaints=[why]))

    def failed(self):
        return sum(it.failed for outcomes in self.outcomes.values() for it in outcomes)

    def totals(self):
        """What passed, failed and was skipped, over all. What ran twice counts once, and by its last run; but no failure is forgotten."""
        last = [outcomes[-1] for outcomes in self.outcomes.values()]
        return sum(it.passed for it in last), self.failed(), sum(it.skipped for it in last)

    def over(self):
        """What was passed over: of which test, how many rows, what they are, and why."""
        for name, outcomes in self.outcomes.items():
            by_reason = {}
            for number, what, why in outcomes[-1].over:
                by_reason.setdefault(why, []).append((number, what))
            for why, rows in by_reason.items():
                count = sum(number for number, _ in rows)
                yield name, count, rows[0][1] if len(rows) == 1 else f"{count} rows", why

    def forbid(self):
        """What the gate passed over, and may not, has failed. It may be called as often as is wanted."""
        for name, count, what, why in list(self.over()):
            complaint = f"the gate may not pass over {what}: {why}"
            if not needs.is_allowed(why) and all(complaint not in it.complaints for it in self.outcomes[name]):
                self.outcomes[name].insert(0, Outcome(failed=count, complaints=[complaint]))

    def print(self, ending):
        """The report. Its last line has the counts; answers the exit status."""
        print(f"What passed, failed and was skipped:\n  {'':34}{'passed':>8}{'failed':>8}{'skipped':>8}")
        for name, outcomes in self.outcomes.items():
            print(f"  {name:34}{outcomes[-1].passed:8}{sum(it.failed for it in outcomes):8}{outcomes[-1].skipped:8}")
        self.parts.print()
        complaints = [f"{name}: {it}" for name, outcomes in self.outcomes.items() for one in outcomes for it in one.complaints]
        if complaints:
            print("What failed:", *complaints, sep="\n  ")
        over = [f"{name}, {what}: {why}{needs.remedy(why)}" for name, _, what, why in self.over()]
        if over:
            print("What was passed over:", *over, sep="\n  ")
        if ending:
            print(ending)
        passed, failed, skipped = self.totals()
        print(f"{passed} passed, {failed} failed, {skipped} skipped")
        return 0 if passed and not failed else 1

    def stop(self, number, _):
        """Ends what is running, and this run."""
        if self.running and self.running.poll() is None:
            os.killpg(self.running.pid, number)
        sys.exit(128 + number)
