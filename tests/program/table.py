r"""The table of cases, cases/*.jsonl: one call of the program a line, and all that it must answer.

    {"args": ["scan", "%d,%d"], "stdin": "1,2\n3;4\n", "stdout": "1 2\n", "stderr": "sf: record 2: ..\n", "status": 1}

Each character of a text stands for one byte, so that \u00ff is the byte 255. What is left out is empty, and the
status 0. A long text may be a list of texts and of [TEXT, TIMES]. A `stdout` or `stderr` of null is some text,
whatever it says. With "input": "folder" standard input is one, so that each read fails; with "output": "full" each
write to standard output fails.
"""
import contextlib
import glob
import json
import os
from concurrent.futures import ThreadPoolExecutor

import program
from program import HERE, ROOT

KEYS = {"args", "stdin", "stdout", "stderr", "status", "input", "output"}


def data(text):
    """The bytes that a text, or a list of its parts, stands for."""
    if isinstance(text, list):
        return b"".join(data(it) if isinstance(it, str) else data(it[0]) * it[1] for it in text)
    return text.encode("latin-1")


def cases(only):
    """The place and the content of each case."""
    for file in sorted(glob.glob(f"{HERE}/cases/*.jsonl")):
        with open(file) as lines:
            for number, line in enumerate(lines, 1):
                place = f"{os.path.relpath(file, ROOT)}:{number}"
                if line.strip() and only in place:
                    case = json.loads(line)
                    assert set(case) <= KEYS, f"{place}: unknown keys {set(case) - KEYS}"
                    yield place, case


def clip(text):
    shown = repr(text)
    return shown if len(shown) < 400 else f"{shown[:400]}.. ({len(text)} bytes)"


def differences(case):
    """How the program's answer differs from what the case says."""
    words, how = [data(it) for it in case["args"]], {"stdin": data(case.get("stdin", ""))}
    try:
        with contextlib.ExitStack() as opened:
            if case.get("input") == "folder":
                how["stdin"] = opened.enter_context(program.folder())
            if case.get("output") == "full":
                how["stdout"] = opened.enter_context(program.full())
            status, out, err = program.run(*words, **how)
    except Exception as fault:  # a call that can't be made is a case that fails
        return [repr(fault)]
    got = {"stdout": out or b"", "stderr": err}
    found = [] if status == case.get("status", 0) else [f"status is {status}, wanted {case.get('status', 0)}"]
    for name in ("stdout", "stderr"):
        wanted = case.get(name, "")
        if wanted is None and not got[name]:
            found.append(f"{name} is empty, wanted some text")
        elif wanted is not None and got[name] != data(wanted):
            found.append(f"{name} is {clip(got[name])}\n        wanted {clip(data(wanted))}")
    return found


def run(only):
    """How many cases passed, and how many failed; says which."""
    chosen, failed = list(cases(only)), 0
    with ThreadPoolExecutor(2 * (os.cpu_count() or 1)) as pool:
        for (place, case), found in zip(chosen, pool.map(lambda it: differences(it[1]), chosen)):
            failed += bool(found)
            if found and failed <= 20:
                print(f"{place}: sf {clip(case['args'])}")
                for it in found:
                    print(f"    {it}")
    print(f"cases: {len(chosen) - failed} of {len(chosen)} as the table says")
    return len(chosen) - failed, failed
