"""What the tests need of the machine beside python3, the Debian package that brings it, and how the gate gets it."""
import os
import re
import shutil
import subprocess

# Without these the gate would pass over what it has to test. (gcc only recommends the headers of the C library.)
NEEDED = {"gcc": "gcc libc6-dev", "cc": "gcc libc6-dev", "git": "git", "make": "make", "valgrind": "valgrind", "gzip": "gzip"}
# Some rows of pages, of the manual, of completions, of the reference and of the wheel are tried with these, which no Debian has from the
# start: the gate installs them where it may, and else passes over their rows.
WANTED = {"fish": "fish", "zsh": "zsh", "groff": "groff-base", "mandoc": "mandoc", "mlr": "miller", "musl-gcc": "musl-tools", "parallel": "parallel", "xxd": "xxd",
          "pip3": "python3-pip"}
PACKAGES = {**NEEDED, **WANTED}
KIT = "the Rattle kit, with its rt in the path"

LACKING = re.compile(r"\bno ([\w-]+)")

# How many seconds apt-get may take.
SECONDS = 600

# What no package brings, and the gate passes over where it is so. Else nothing may be passed over there.
ALLOWED = re.compile(
    r"the prebuilt program was built with (?P<theirs>.+), and the kit here is (?!none\b|(?P=theirs)$).+|"
    r"the prebuilt program was linked with (?P<linker>.+), and the linker here is (?!(?P=linker)$).+|"
    r"no disk may be mounted here|no root may be changed here|"
    r"the page is of (?P<page>.+), and here is (?!(?P=page)$).+|"
    # (edits that show nothing yet: each is to be written anew, with its names kept, or with the goal that must stay open)
    r"their proofs cite what they rename|it is not clear whether a clause of theirs fails"
)


def packages_of(tools):
    """The packages that bring some tools, each once."""
    return list(dict.fromkeys(package for tool in tools for package in PACKAGES[tool].split()))


def lacking_in(why):
    """The tools that a reason names as missing: "there is no make or no gzip", "the kit here is none"."""
    named = LACKING.findall(why.replace("the kit here is none", "there is no rt"))
    return [it for it in named if it in PACKAGES or it == "rt"]


def remedy(why):
    """What would bring what a reason names as missing: a text to put after it, or nothing."""
    tools = lacking_in(why)
    packages = packages_of(it for it in tools if it != "rt")
    said = [f"Debian: {' '.join(packages)}"] * bool(packages) + [KIT] * ("rt" in tools)
    return f" ({'; '.join(said)})" if said else ""


def is_allowed(why):
    """Whether the gate may pass over something for this reason."""
    named = LACKING.findall(why)
    return bool(ALLOWED.fullmatch(why)) or bool(named) and all(it in WANTED for it in named)


def missing(tools):
    return [it for it in tools if not shutil.which(it)]


def installed(packages):
    """Whether apt-get installs these. Where it doesn't know them, its lists may be empty, as they are on a fresh machine."""
    print(f"The gate installs {' '.join(packages)}", flush=True)
    install = ["install", "-y", "--no-install-recommends", *packages]
    return any(all(apt_get(*it) for it in steps) for steps in ([install], [["update"], install]))


def apt_get(*words):
    how = {"stdin": subprocess.DEVNULL, "env": {**os.environ, "DEBIAN_FRONTEND": "noninteractive"}, "timeout": SECONDS}
    try:
        return subprocess.run(["apt-get", "-qq", "-o", "DPkg::Lock::Timeout=120", *words], check=False, **how).returncode == 0
    except (OSError, subprocess.TimeoutExpired) as fault:
        print(f"apt-get: {fault}", flush=True)
        return False


def provided(is_root):
    """Whether all is there that the gate needs; installs what it may, and says what is missing."""
    if missing(["rt"]):
        print(f"The gate needs {KIT}.")
        return False
    may_install = is_root and shutil.which("apt-get")
    if missing(NEEDED) and may_install:
        installed(packages_of(missing(NEEDED)))
    lacks = missing(NEEDED)
    if lacks:
        print(f"The gate needs {', '.join(lacks)}: apt-get install {' '.join(packages_of(lacks))}")
        return False
    if missing(WANTED) and may_install:
        installed(packages_of(missing(WANTED)))
    return True
