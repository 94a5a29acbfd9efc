"""What the timing scripts share: the program, C programs beside it, and their seconds of processor time."""
import os
import random
import shutil
import subprocess
import sys

HERE = os.path.dirname(os.path.abspath(__file__))
LAUNCHER = os.path.join(HERE, "..", "sf")
PROGRAM = os.path.join(HERE, "..", "crates", "sf", "out", "sf")
LETTERS = "abcdefghijklmnopqrstuvwxyz"


def word(rng, least, most, letters=LETTERS):
    return "".join(rng.choices(letters, k=rng.randint(least, most)))


def write_input(path, seed, size, record):
    """Writes records to a file, at least that many bytes; each run has the same."""
    rng = random.Random(seed)
    block = "".join(record(rng) for _ in range(20000)).encode()
    with open(path, "wb") as out:
        written = 0
        while written < size:
            out.write(block)
            written += len(block)


def build(work, name, compiler="gcc"):
    """A C program of this folder, built. None where there is no such compiler."""
    target = os.path.join(work, f"{name}.{compiler}")
    if not shutil.which(compiler):
        return None
    subprocess.run([compiler, "-O2", "-o", target, os.path.join(HERE, name + ".c")], check=True)
    return target


def build_rattle(work, name, libraries, words):
    """A .rattle program of this folder, proved and built over the libraries in a copy of the crates, and run once with the words."""
    top, crate = os.path.join(HERE, ".."), f"bench_{name}"
    shutil.copytree(os.path.join(top, "crates"), os.path.join(work, "crates"), symlinks=True)
    shutil.copy(os.path.join(top, "HANDLES"), work)
    folder = os.path.join(work, "crates", crate)
    os.makedirs(os.path.join(folder, "src"))
    shutil.copy(os.path.join(HERE, name + ".rattle"), os.path.join(folder, "src", "main.rt"))
    with open(os.path.join(top, "crates.txt")) as listed, open(os.path.join(work, "crates.txt"), "w") as out:
        out.write(f"{listed.read()}{crate}: {' '.join(libraries)}\n")
    done = subprocess.run(
        ["rt", "run", "--", *words], cwd=folder, stdin=subprocess.DEVNULL, stdout=subprocess.PIPE, stderr=subprocess.STDOUT, text=True
    )
    if done.returncode:
        sys.exit(done.stdout)
    return os.path.join(folder, "out", crate)


def measure(runner, words, path, out):
    """Seconds of processor time, and the most kilobytes that were resident."""
    done = subprocess.run([runner, path, out, *words], check=True, stdout=subprocess.PIPE, text=True)
    seconds, kilobytes = done.stdout.split()
    return float(seconds), int(kilobytes)


def best_of(rounds, runner, commands, path, outputs):
    """The least seconds of each command, and its most kilobytes, in turn."""
    runs = [[measure(runner, words, path, out) for words, out in zip(commands, outputs)] for _ in range(rounds)]
    return [(min(it[0] for it in of_one), max(it[1] for it in of_one)) for of_one in zip(*runs)]
