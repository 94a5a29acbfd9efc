"""The commands and options of the built program, as its help names them."""
import functools
import os
import re
import subprocess

HERE = os.path.dirname(os.path.abspath(__file__))
ROOT = os.path.dirname(os.path.dirname(HERE))

# The program that is tested; `run` sets it where it is given another one.
path = os.path.join(ROOT, "crates", "sf", "out", "sf")

# How many seconds a call may take: none should need one, and the machine may be busy.
SECONDS = 60


def output(*words, **how):
    """What a command writes, which ends with status 0 and without an error text."""
    done = subprocess.run(words, timeout=SECONDS, stdin=subprocess.DEVNULL, capture_output=True, text=True, check=False, **how)
    if done.returncode or done.stderr:
        raise AssertionError(f"{words}: status {done.returncode}\n{done.stdout}{done.stderr}")
    return done.stdout


def section(text, title):
    """The lines of a section of a help text."""
    found = re.search(rf"^{title}:\n((?:[ \t].*\n|\n(?=[ \t]))*)", text, re.MULTILINE)
    return found.group(1) if found else ""


@functools.cache
def help_of(command=None):
    return output(path, "help", command) if command else output(path, "--help")


@functools.cache
def commands():
    return frozenset(re.findall(r"^  (\S+)", section(help_of(), "Commands"), re.MULTILINE))


@functools.cache
def options(command=None):
    """The options of a command, or of the program: short and long ones."""
    lines = re.findall(r"^  (?:(-\w)(?:, | <)|    )(--[\w-]+)?", section(help_of(command), "Options"), re.MULTILINE)
    return frozenset(name for names in lines for name in names if name)


@functools.cache
def arguments(command):
    """The names of a command's arguments, in their order."""
    return tuple(re.findall(r"^  [<\[](\w+)", section(help_of(command), "Arguments"), re.MULTILINE))


@functools.cache
def version():
    return output(path, "--version").strip()


def working():
    """The commands that have a help of their own: all but `help`."""
    return sorted(commands() - {"help"})
