"""The commands of README.md: what stands below each `$ ..` is what a terminal shows, output and error text in their order.

Each block that begins with `$ ` is one session of sh, and each after the first begins with the first one's commands: they
install the program and go to the data. A session has a new folder, which is as a clone in which the program is current. A
command whose status isn't 0 has to be followed by `$ echo $?`. The first screen says how sf is installed, and shows a float, what
may be missing, and a range.
"""
import os
import pty
import re
import select
import shutil
import tempfile
import unittest

import program
from program import ROOT

# Stands between the outputs of a session's commands.
MARK = "--readme-51c8--"

# How many lines a screen has, and what the first one has to show.
SCREEN, FIRST = 40, ("`awk ", "## Install", "$ make -s install", "| sf scan -lS -p3 --print", "%lf", "%?s", "null", "out of range at")

# What `make install` takes from a clone.
PARTS = ("Makefile", "man", "completions", "crates/sf_words/src", "tests/cookbook/data")

LAUNCHER = """#!/bin/sh
[ "$1" = --build ] || exec "$(dirname -- "$0")/crates/sf/out/sf" "$@"
"""


def sessions():
    """Each block's commands, with the lines below each of them."""
    with open(f"{ROOT}/README.md", encoding="utf-8") as text:
        blocks = re.findall(r"(?ms)^```\n(.*?)^```$", text.read())
    found = [re.findall(r"(?m)^\$ (.*)\n((?:(?!\$ ).*\n)*)", block) for block in blocks if block.startswith("$ ")]
    return found[0], found[1:]


def clone(room):
    """Makes a folder as a clone in which the program is current."""
    for part in PARTS:
        copy = shutil.copytree if os.path.isdir(f"{ROOT}/{part}") else shutil.copyfile
        copy(f"{ROOT}/{part}", f"{room}/{part}")
    os.makedirs(room + "/crates/sf/out")
    os.mkdir(room + "/home")
    shutil.copy(program.path, room + "/crates/sf/out/sf")
    with open(room + "/sf", "w", encoding="ascii") as file:
        file.write(LAUNCHER)
    os.chmod(room + "/sf", 0o755)


def shown(commands, room):
    """What each command of a session writes, and its status."""
    lines = []
    for command in commands:
        lines += [command, f"status=$?; echo '{MARK}' $status; (exit $status)"]
    ours, theirs = pty.openpty()
    environment = {**os.environ, "HOME": room + "/home"}
    running = program.start_command(["sh", "-c", "\n".join(lines)], cwd=room, env=environment, stdout=theirs, stderr=theirs)
    os.close(theirs)
    try:
        out = b"".join(iter(lambda: read_on(ours), b"")).replace(b"\r\n", b"\n")
        running.wait(program.SECONDS)
    finally:
        program.end(running)
        os.close(ours)
    return re.findall(rf"(?s)(.*?){MARK} (\d+)\n", out.decode())


def read_on(terminal):
    """The next bytes that a terminal is to show; none where all that could write to it has ended."""
    ready, _, _ = select.select([terminal], [], [], program.SECONDS)
    try:
        return os.read(ready[0], 65536) if ready else b""
    except OSError:
        return b""


@unittest.skipUnless(shutil.which("make"), "there is no make")
class Readme(unittest.TestCase):
    def check(self, session):
        with tempfile.TemporaryDirectory(prefix="sf-readme-") as room:
            clone(room)
            parts = shown([command for command, _ in session], room)
        self.assertEqual(len(parts), len(session))
        for turn, ((command, below), (out, status)) in enumerate(zip(session, parts)):
            with self.subTest(command):
                self.assertEqual(out, below)
                told = turn + 1 < len(session) and session[turn + 1][0] == "echo $?"
                self.assertTrue(status == "0" or told, f"its status is {status}, which the page doesn't say")

    def test_the_first_screen(self):
        with open(f"{ROOT}/README.md", encoding="utf-8") as text:
            screen = "".join(text.readlines()[:SCREEN])
        self.assertEqual([it for it in FIRST if it not in screen], [])
        self.assertGreaterEqual(len(re.findall(r"(?m)^\$ .*\bsf scan ", screen)), 3)

    def test_each_command_says_what_stands_below_it(self):
        first, found = sessions()
        self.assertGreaterEqual(len(found), 5)
        for session in ([], *found):
            self.check(first + session)
