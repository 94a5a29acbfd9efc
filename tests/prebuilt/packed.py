"""The prebuilt program of a clone, what it was made of by prebuilt/SUM, and what the clone holds. Nothing here calls a
script of prebuilt/: each sum is computed a second time."""
import gzip
import hashlib
import os
import subprocess

HERE = os.path.dirname(os.path.abspath(__file__))
ROOT = os.path.dirname(os.path.dirname(HERE))

# The program that was built here; `run` sets it where it is given another one.
built = os.path.join(ROOT, "crates", "sf", "out", "sf")

# How many seconds a command may take: none should need one, and the machine may be busy.
SECONDS = 60


def read(path):
    with open(path, "rb") as file:
        return file.read()


def sha256(data):
    return hashlib.sha256(data).hexdigest()


def lines_of_crates(root):
    """The lines of crates.txt that name a crate: the crate, what it stands on, and the line."""
    for line in read(root + "/crates.txt").decode().split("\n"):
        name, _, uses = line.partition("#")[0].partition(":")
        if name.strip():
            yield name.strip(), uses.split(), line


def crates(root):
    """The crates that sf stands on, and sf."""
    below = {name: uses for name, uses, _ in lines_of_crates(root)}
    found, new = set(), {"sf"}
    while new:
        found |= new
        new = {use for name in new for use in below[name] if use in below} - found
    return found


def sources(root):
    """The sum of all that the program is made of."""
    ours, paths = crates(root), []
    for crate in ours:
        for part in ("src", "specs", "proofs"):
            for at, _, names in os.walk(f"{root}/crates/{crate}/{part}"):
                paths += [os.path.relpath(os.path.join(at, name), root) for name in names]
    rows = [f"{line}\n".encode() for name, _, line in lines_of_crates(root) if name in ours]
    rows += [f"{sha256(read(f'{root}/{path}'))}  {path}\n".encode() for path in sorted(paths, key=os.fsencode)]
    return sha256(b"".join(rows))


def lines(path):
    """The lines of a file in the form of prebuilt/SUM: what each says, by its name."""
    return dict(line.split(" ", 1) for line in read(path).decode().splitlines())


def sums(root):
    return lines(root + "/prebuilt/SUM")


def program(root):
    """The prebuilt program."""
    return gzip.decompress(read(root + "/prebuilt/sf-x86_64-linux.gz"))


def kit():
    """The kit that is in the path, or None."""
    how = {"check": True, "capture_output": True, "text": True, "timeout": SECONDS}
    try:
        return subprocess.run(["rt", "version"], **how).stdout.strip()
    except OSError:
        return None


def linker():
    """What a program is linked with here: as prebuilt/link says, or rt alone."""
    how = {"check": False, "capture_output": True, "text": True, "timeout": SECONDS}
    return subprocess.run([ROOT + "/prebuilt/link"], **how).stdout.strip() or "rt"


def comparison(root, path, kit_here, linker_here):
    """Compares the prebuilt program with the one that was built here: None where they are the same byte for byte, what
    is wrong (True, ..), or why they are not compared (False, ..)."""
    why = hindrance(root, path, kit_here)
    if why:
        return False, why
    ours, packed = read(path), program(root)
    if ours == packed:
        return None
    theirs, made = sums(root), os.path.dirname(path) + "/sf.dynamic"
    if theirs["linker"] != linker_here and os.path.exists(made) and sha256(read(made)) == theirs["dynamic"]:
        return False, f"the prebuilt program was linked with {theirs['linker']}, and the linker here is {linker_here}"
    at = next((at for at, (one, other) in enumerate(zip(ours, packed)) if one != other), min(len(ours), len(packed)))
    sizes = f"the prebuilt program has {len(packed)} bytes, the one that was built here {len(ours)}"
    return True, f"{sizes}: they differ at byte {at}"


def hindrance(root, path, kit_here):
    """Why the program can't be compared, if it can't. Where the launcher has built it, it has noted that in out/SUM."""
    theirs, out = sums(root), os.path.dirname(path)
    if kit_here != theirs["kit"]:
        return f"the prebuilt program was built with {theirs['kit']}, and the kit here is {kit_here or 'none'}"
    if not os.access(path, os.X_OK):
        return f"{path} is not built"
    noted = lines(out + "/SUM") if os.path.exists(out + "/SUM") else {}
    if not os.path.exists(out + "/sf.began"):
        return None
    if noted.get("program") != sha256(read(path)):
        return f"{path} was unpacked, and not built here"
    if noted["sources"] != theirs["sources"]:
        return f"{path} was built of other sources"
    return None
