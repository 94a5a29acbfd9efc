"""The built program, as the tests call it."""
import contextlib
import fcntl
import os
import select
import signal
import subprocess
import time

HERE = os.path.dirname(os.path.abspath(__file__))
ROOT = os.path.dirname(os.path.dirname(HERE))

# The program that is tested; `run` sets it where it is given another one.
path = os.path.join(ROOT, "crates", "sf", "out", "sf")

# How many seconds a call may take: none of them should need one, and the machine may be busy.
SECONDS = 20

# What runs after a shell's `&` ignores interrupts, and what runs by nohup hangups; the program would inherit that.
for number in (signal.SIGHUP, signal.SIGINT, signal.SIGTERM):
    signal.signal(number, signal.SIG_DFL)


def run(*words, stdin=b"", **how):
    """The status, output and error text of one call."""
    return run_command([path, *words], stdin, **how)


def run_script(script, stdin=b"", **how):
    """The status, output and error text of a shell's script, which calls the program as "$0"."""
    return run_command(["sh", "-c", script, path], stdin, **how)


# How many bytes any pipe holds, and how many one that was made greater.
HELD, MOST_HELD = 1 << 12, 1 << 20
F_SETPIPE_SZ = 1031


def run_command(command, stdin, **how):
    source = held(stdin) if isinstance(stdin, bytes) and not how else None
    if source is not None:
        return run_held(command, source)
    given = None
    if isinstance(stdin, bytes):
        given, stdin = stdin, subprocess.PIPE
    running = start_command(command, stdin=stdin, **how)
    try:
        out, err = running.communicate(given, timeout=SECONDS)
    finally:
        end(running)
    return running.returncode, out, err


def held(data):
    """A pipe that holds these bytes and ends after them, to be read; None where no pipe holds so many."""
    if len(data) > MOST_HELD:
        return None
    reader, writer = os.pipe()
    try:
        if len(data) > HELD:
            fcntl.fcntl(writer, F_SETPIPE_SZ, len(data))
        os.write(writer, data)
        return reader
    except OSError:
        os.close(reader)
        return None
    finally:
        os.close(writer)


def run_held(command, source):
    """A call whose input was written before, so that there is only output to be read: that takes half the time."""
    try:
        running = start_command(command, stdin=source, bufsize=0)
    finally:
        os.close(source)
    try:
        out, err = read_all(running.stdout, running.stderr)
        running.wait(SECONDS)
    finally:
        end(running)
    return running.returncode, out, err


def read_all(*pipes):
    """What each of these pipes gives up to its end."""
    found, ready, until = {it.fileno(): [] for it in pipes}, select.poll(), time.monotonic() + SECONDS
    for it in found:
        ready.register(it, select.POLLIN)
    left = len(found)
    while left:
        told = ready.poll(max(0, until - time.monotonic()) * 1000)
        if not told:
            raise TimeoutError(f"no answer within {SECONDS} s")
        for handle, _ in told:
            found[handle].append(os.read(handle, 1 << 16))
            if not found[handle][-1]:
                ready.unregister(handle)
                left -= 1
    return [b"".join(it) for it in found.values()]


def start(*words, **how):
    """One call that is left running, with pipes where nothing else is said."""
    return start_command([path, *words], **how)


def start_command(command, **how):
    for name in ("stdin", "stdout", "stderr"):
        how.setdefault(name, subprocess.PIPE)
    return subprocess.Popen(command, start_new_session=True, **how)


def end(running):
    """Ends a call, with all that it started, if it hasn't ended."""
    try:
        os.killpg(running.pid, signal.SIGKILL)
    except OSError:
        pass
    running.wait()
    for pipe in (running.stdin, running.stdout, running.stderr):
        if pipe:
            with contextlib.suppress(OSError):
                pipe.close()


@contextlib.contextmanager
def opened(path, mode):
    """A file that is closed in the end, as the system knows it."""
    handle = os.open(path, mode)
    try:
        yield handle
    finally:
        os.close(handle)


def full():
    """A disk that is full: each write to it fails."""
    return opened("/dev/full", os.O_WRONLY)


def folder():
    """A folder: each read from it fails."""
    return opened("/", os.O_RDONLY)
