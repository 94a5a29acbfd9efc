"""How the prover is called for a crate that is edited, and for one that is an archive.

`OverLibraries` uses rt's own module `rtlib`, as `rt plant` does: it takes the libraries as `rt ci` has left them, and needs no second
proof of them. That module is no public interface: a kit whose `rtlib` lacks what is wanted gets `ByCommand`, which runs `rt check` in
a copy of the clone, and proves the libraries below once more.
"""
import importlib.machinery
import importlib.util
import os
import re
import shutil
import subprocess
import sys
import tempfile
import time

PARTS = ("src", "specs", "proofs")


def linked(folder, to):
    """Copies a folder by links, or as it is where the file system has none. The prover puts a new file in the place of one that it
    changes, so that the links of the others stay as they are."""
    try:
        shutil.copytree(folder, to, copy_function=os.link, dirs_exist_ok=True)
    except (OSError, shutil.Error):
        shutil.copytree(folder, to, dirs_exist_ok=True)


def sources(folder, to, texts):
    """Copies a crate's sources, with these texts in place of its own."""
    for part in PARTS:
        if os.path.isdir(f"{folder}/{part}"):
            shutil.copytree(f"{folder}/{part}", f"{to}/{part}")
    for file, text in texts.items():
        with open(f"{to}/{file}", "w", encoding="utf-8") as it:
            it.write(text)


class Said:
    """What a check said: its exit status, its lines, the seconds of a processor that it took, and how long it was at each function, the
    longest first."""

    def __init__(self, words, folder):
        self.lines, self.times, last = [], [], time.monotonic()
        how = {"cwd": folder, "stdin": subprocess.DEVNULL, "stdout": subprocess.PIPE, "stderr": subprocess.STDOUT, "errors": "replace"}
        with subprocess.Popen(words, **how) as running:
            for line in running.stdout:
                done = re.match(r"checked (\S+), ", line)
                if done:
                    self.times.append((time.monotonic() - last, done[1]))
                    last = time.monotonic()
                elif line.strip():
                    self.lines.append(line.rstrip("\n"))
            _, status, used = os.wait4(running.pid, 0)
            running.returncode, self.processor = os.waitstatus_to_exitcode(status), used.ru_utime + used.ru_stime
        self.status, self.lines = running.returncode, self.lines or [""]
        self.times.sort(reverse=True)

    def last(self):
        return self.lines[-1]


def crates_of(root):
    """Each crate of crates.txt, with the repository's crates below it, lowest first."""
    named = {}
    with open(f"{root}/crates.txt", encoding="utf-8") as lines:
        for line in lines:
            name, _, below = line.partition("#")[0].partition(":")
            if name.strip():
                named[name.split()[0]] = below.split()

    def below(name, found):
        for it in named[name]:
            if it in named and it not in found:
                below(it, found)
                found.append(it)
        return found

    return {name: below(name, []) for name in named}


class ByCommand:
    """By `rt check`, in a copy of the clone."""

    def __init__(self, root, room):
        self.root, self.room, self.below = root, room, crates_of(root)

    def folder(self, crate):
        return f"{self.root}/crates/{crate}"

    def build(self, crates):
        """Proves the libraries below the crates where that wasn't done before, and answers whether they are there."""
        for crate in dict.fromkeys(it for name in crates for it in self.below[name]):
            said = Said(["rt", "lib", "--jobs", "1"], self.folder(crate))
            if said.status:
                print("\n".join([f"{crate} is not proved:", *said.lines[-12:]]))
                return False
        return True

    def is_proved(self, crate):
        """Whether it is known without a check that the crate is proved as it stands."""
        return False

    def kept(self, crate):
        """What earlier checks of the crate kept, if anything."""
        kept = f"{self.folder(crate)}/out/incremental"
        return kept if os.path.isdir(kept) else None

    def check(self, crate, texts, kept, *flags):
        """Checks the crate with these texts over what `kept` has, and leaves there what it proves."""
        with tempfile.TemporaryDirectory(dir=self.room) as copy:
            shutil.copyfile(f"{self.root}/crates.txt", f"{copy}/crates.txt")
            for name in [*self.below[crate], crate]:
                sources(self.folder(name), f"{copy}/crates/{name}", texts if name == crate else {})
                if name != crate:
                    linked(f"{self.folder(name)}/out", f"{copy}/crates/{name}/out")
            own = f"{copy}/crates/{crate}"
            os.makedirs(f"{own}/out", exist_ok=True)
            os.rename(kept, f"{own}/out/incremental")
            said = Said(["rt", "check", "--jobs", "1", *flags], own)
            os.rename(f"{own}/out/incremental", kept)
            return said

    def archive(self, crate):
        """Proves a crate that is a static library, and builds its archive in its folder out."""
        return Said(["rt", "lib"], self.folder(crate))


def remembered(method):
    """A method of a crate that answers at once what it answered before: a clone's sources stay as they are while its edits are tried."""
    answers = {}

    def call(crate):
        if crate.folder not in answers:
            answers[crate.folder] = method(crate)
        return answers[crate.folder]

    return call


class OverLibraries(ByCommand):
    """By rt's own module."""

    def __init__(self, root, room, rtlib, after_ci):
        super().__init__(root, room)
        self.rtlib, self.after_ci = rtlib, after_ci
        # It sums the sources of a crate once for each path of crates.txt that leads there, which are thousands.
        rtlib.Crate.stamp = remembered(rtlib.Crate.stamp)
        self.crates = {it.name: it for it in rtlib.crates_below(root)}
        # Its first call sets a signal's handler, which only the main thread may.
        rtlib.guarded()

    def build(self, crates):
        below = {it.name: it for name in crates for it in self.crates[name].below()}
        return self.after_ci or not any(it.build_rlib(["--jobs", "1"], anew=False) for it in below.values() if not it.is_built())

    def is_proved(self, crate):
        """`rt ci` has left a library where it proved the crate, without the stamp by which rt tells of what text a library is."""
        made = os.path.dirname(self.crates[crate].rlib)
        return self.after_ci and os.path.isfile(f"{made}/{crate}.rlib/format") and not os.path.isfile(f"{made}/stamp")

    def kept(self, crate):
        is_built = all(it.is_built() for it in self.crates[crate].below())
        return super().kept(crate) if is_built else None

    def check(self, crate, texts, kept, *flags):
        with tempfile.TemporaryDirectory(dir=self.room) as copy:
            sources(self.folder(crate), copy, texts)
            words = self.crates[crate].words(["--jobs", "1"], keeps=False)
            words += ["--incremental", kept, "--progress", *flags]
            return Said([*self.rtlib.guarded(), self.rtlib.RATTLE, "check", *words], copy)

    def archive(self, crate):
        """Over the libraries as they are: `rt lib` would prove those anew that `rt ci` has left, and what stands over one of them and isn't
        below this crate would then be over two builds of it."""
        if not self.after_ci:
            return super().archive(crate)
        words = self.crates[crate].words(["--jobs", str(min(2, len(os.sched_getaffinity(0))))], keeps=False)
        words += ["--toolchain", f"{self.rtlib.KIT}/toolchain", "--backend", "llvm", "-o", f"out/lib{crate}.a"]
        os.makedirs(f"{self.folder(crate)}/out", exist_ok=True)
        return Said([*self.rtlib.guarded(), self.rtlib.RATTLE, "build", *words], self.folder(crate))



NEEDED = ("KIT", "RATTLE", "Crate.below", "Crate.build_rlib", "Crate.is_built", "Crate.stamp", "Crate.words", "crates_below", "guarded")


def rtlib_of(rt):
    """rt's module, where it has all that is wanted of it."""
    path = os.path.join(os.path.dirname(os.path.realpath(rt)), "rtlib.py")
    if not os.path.isfile(path):
        return None
    loader = importlib.machinery.SourceFileLoader("rtlib", path)
    made = importlib.util.module_from_spec(importlib.util.spec_from_loader("rtlib", loader))
    sys.modules["rtlib"] = made
    loader.exec_module(made)
    return made if all(has(made, it.split(".")) for it in NEEDED) else None


def has(it, names):
    return not names or hasattr(it, names[0]) and has(getattr(it, names[0]), names[1:])


def chosen(root, room, after_ci=False, by_command=False):
    rt = shutil.which("rt") or sys.exit("rt is not in the PATH")
    rtlib = None if by_command else rtlib_of(rt)
    return OverLibraries(root, room, rtlib, after_ci) if rtlib else ByCommand(root, room)



def version():
    """The kit's identity, in one line."""
    return subprocess.run(["rt", "version"], check=True, capture_output=True, text=True).stdout.strip()
