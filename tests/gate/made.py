"""Clones that are made up, with scripts for the tests, the launcher and rt, each of which notes how it was called."""
import gzip
import os
import shutil
import subprocess
import sys
import tempfile
import unittest

import needs

HERE = os.path.dirname(os.path.abspath(__file__))
ROOT = os.path.dirname(os.path.dirname(HERE))

# How many seconds a command may take: none should need one, and the machine may be busy.
SECONDS = 60

SUM = "sources 12ab\n"
PROGRAM = "the program"
TOOLS = ("rt", "gcc", "cc", "git", "make", "valgrind", "gzip", "fish", "zsh", "groff", "mandoc", "mlr", "musl-gcc", "parallel", "xxd")
TESTS = ("bench", "c", "cookbook", "edits", "gate", "hostile", "layout", "library", "prebuilt", "program", "python", "refusals")


def written(path, text):
    """Writes a script, which has the system's own commands whatever PATH it is given."""
    os.makedirs(os.path.dirname(path), exist_ok=True)
    with open(path, "w", encoding="utf-8") as file:
        file.write(f"#!/bin/sh\nPATH=/usr/bin:/bin\n{text}\n")
    os.chmod(path, 0o755)


class Clone(unittest.TestCase):
    """A clone in which each test has three rows that pass, and a machine on which nothing is missing."""

    def setUp(self):
        self.room = tempfile.mkdtemp(prefix="sf gate ")
        self.addCleanup(shutil.rmtree, self.room)
        self.clone, self.bin = self.room + "/clone", self.room + "/bin"
        os.makedirs(self.clone + "/tests/gate")
        os.makedirs(self.clone + "/prebuilt")
        shutil.copy(ROOT + "/test", self.clone)
        for name in ("counts.py", "needs.py", "runs.py"):
            shutil.copy(f"{HERE}/{name}", self.clone + "/tests/gate")
        for name in TESTS:
            self.says(name, "3 passed, 0 failed")
        for tool in {*TOOLS, *needs.PACKAGES}:
            written(f"{self.bin}/{tool}", "exit 0")
        self.launcher(f"mkdir -p crates/sf/out; printf '{PROGRAM}' >crates/sf/out/sf; chmod +x crates/sf/out/sf")
        self.rt(PROGRAM)
        written(self.clone + "/prebuilt/sum", "echo 12ab")
        written(self.clone + "/prebuilt/finish", self.noting("finish"))
        self.write("prebuilt/SUM", SUM.encode())
        self.write("prebuilt/sf-x86_64-linux.gz", gzip.compress(PROGRAM.encode()))

    def write(self, name, data):
        with open(f"{self.clone}/{name}", "wb") as file:
            file.write(data)

    def noting(self, name):
        """The line of a script that notes its call."""
        return f"echo {name} \"$@\" >>'{self.room}/calls'"

    def says(self, name, *lines, status=0):
        """A test that prints these lines."""
        said = " ".join(f"'{it}'" for it in lines)
        written(f"{self.clone}/tests/{name}/run", f"{self.noting(name)}\nprintf '%s\\n' {said}\nexit {status}")

    def launcher(self, text):
        written(self.clone + "/sf", f"{self.noting('sf')}\n{text}")

    def rt(self, program, last="5 passed, 0 failed"):
        """An rt whose gate builds this program."""
        out = f"'{self.clone}/crates/sf/out'"
        made = f"mkdir -p {out}; printf '{program}' >{out}/sf; chmod +x {out}/sf"
        written(self.bin + "/rt", f"{self.noting('rt')}\n[ \"$1\" != ci ] || {{ {made}; echo '{last}'; }}\n[ \"$1\" != version ] || echo kit-1")

    def without(self, *tools):
        for tool in tools:
            os.remove(f"{self.bin}/{tool}")

    def calls(self, name):
        """The words of each call of a script."""
        if not os.path.exists(self.room + "/calls"):
            return []
        with open(self.room + "/calls", encoding="utf-8") as file:
            lines = [line.rstrip("\n").partition(" ") for line in file]
        return [words for called, _, words in lines if called == name]

    def ran(self, *words):
        """The status and the lines of a run of ./test."""
        how = {"stdin": subprocess.DEVNULL, "stdout": subprocess.PIPE, "stderr": subprocess.STDOUT, "text": True}
        environment = {"PATH": self.bin, "HOME": self.room}
        done = subprocess.run([sys.executable, self.clone + "/test", *words], env=environment, timeout=SECONDS, check=False, **how)
        self.assertNotIn("Traceback", done.stdout)
        return done.returncode, done.stdout.splitlines()

    def expect(self, status, last, *words):
        """Runs ./test, and answers its lines."""
        got, lines = self.ran(*words)
        self.assertEqual((got, lines[-1]), (status, last), "\n".join(lines))
        return lines
