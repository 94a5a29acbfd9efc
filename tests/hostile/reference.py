"""The program beside tools/fscanf.py, which shares nothing with it.

On each case of tests/program that scans or shows and that needs nothing else of the command, and on each row of crates/sf_rows: what
the table says is what the reference gives. On formats and inputs by chance, always the same ones: what the program says is; and --strict is the mark
`!` in each conversion. And the reference beside the C libraries that are there: where these differ from it, docs/LIBCS.md says why.
"""
import ast
import decimal
import os
import random
import re
import shutil
import sys
import tempfile
from unittest import SkipTest

import program
import table
from answers import difference, escaped

sys.path.insert(0, os.path.join(program.ROOT, "tools"))

import fscanf  # noqa: E402
import libcs  # noqa: E402
import scan_formats  # noqa: E402

# ---- the command, as docs/FORMATS.md says, around the reference

ESCAPES = dict(zip(b"\\ntvfr", b"\\\n\t\v\f\r"))
STATUSES = {"InputFailure": "input failure", "MatchingFailure": "matching failure", "OutOfRange": "out of range", "TooLong": "too long"}
LIMIT = 1048576
# The options that are made here: those with a value, and those without.
WITH = {"--profile": "profile", "-p": "profile", "--limit": "limit", "-e": "formats", "--ignore": "ignored", "--skip": "skip", "-s": "skip"}
WITHOUT = {"--lines": "lines", "-l": "lines", "--keep-going": "keep_going", "-k": "keep_going", "--whole": "whole", "-w": "whole", "--quiet": "quiet", "-q": "quiet",
           "--matching": "matching", "--line-buffered": "line_buffered", "--explain": "explain", "--no-explain": "no_explain", "--strict": "strict", "-S": "strict"}


class Elsewhere(Exception):
    """The call is of a part of the command that isn't made here."""


class Refused(Exception):
    """A word of the call is refused, with this line."""


def unescaped(word):
    found, at = bytearray(), 0
    while at < len(word):
        if word[at] != ord("\\"):
            found.append(word[at])
            at += 1
        elif word[at + 1 : at + 2] == b"x" and len(word) >= at + 4 and not word[at + 2 : at + 4].translate(None, b"0123456789abcdefABCDEF"):
            found.append(int(word[at + 2 : at + 4], 16))
            at += 4
        elif word[at + 1 : at + 2] and word[at + 1] in ESCAPES:
            found.append(ESCAPES[word[at + 1]])
            at += 2
        else:
            raise Refused(f"scan format: bad escape at {at}")
    return bytes(found)


def strictly(it):
    """A directive as if it had a `!`, where it can have that."""
    return it._replace(lead=scan_formats.lead_of(it.letter, True)) if isinstance(it, scan_formats.Conversion) else it


def directives_of(word, given):
    try:
        directives = scan_formats.directives_of(unescaped(word), given["profile"])
    except scan_formats.Fault as fault:
        raise Refused(f"scan format: {fault}") from None
    return [strictly(it) for it in directives] if given.get("strict") else directives


def apart(word):
    """The first option of a word of short ones, and the words of what follows it there: of -lp3 `-l` and `-p3`, of -p3 `-p` and `3`."""
    first, more = word[:2], word[2:]
    if not more or word[:1] != b"-" or word[1:2] == b"-":
        return [word]
    if first.decode("latin-1") in WITH:
        return [first, more.removeprefix(b"=")]
    if first.decode("latin-1") not in WITHOUT or more[:1] == b"-":
        raise Elsewhere
    return [first, b"-" + more]


def order_of(args):
    """The verb of a call, its options and its words."""
    verb, rest = args[0].decode("latin-1"), list(args[1:])
    given = {"formats": [], "ignored": [], "profile": 1, "limit": LIMIT, "skip": 0}
    words = []
    while rest:
        word, *others = apart(rest.pop(0))
        rest[:0] = others
        name, equals, value = word.decode("latin-1").partition("=")
        if word == b"--":
            words += rest
            break
        if name in WITH and (equals or rest):
            key, value = WITH[name], value.encode("latin-1") if equals else rest.pop(0)
            if key in ("formats", "ignored"):
                given[key].append(value)
            elif value.isdigit():
                given[key] = int(value)
            else:
                raise Elsewhere
        elif word.decode("latin-1") in WITHOUT:
            given[WITHOUT[word.decode("latin-1")]] = True
        elif word.startswith(b"-"):
            raise Elsewhere
        else:
            words.append(word)
    formats = given["formats"] or words
    if verb not in ("scan", "show") or len(formats) != (len(given["formats"]) or 1) or given["formats"] and words or given["profile"] not in (1, 2, 3):
        raise Elsewhere
    return verb, given, formats


# How many zeros stand after the point at most, and how many digits before it.
PLAIN = {"f32": (5, 13), "f64": (4, 16)}


def float_text(value, kind):
    """The fewest digits that give the same float again."""
    if value != value or value in (float("inf"), float("-inf")):
        return str(value)
    if kind == "f32":
        value = next(it for it in (float(f"{value:.{digits}e}") for digits in range(9)) if fscanf.real("f32", repr(it).encode()) == value)
    sign, digits, exponent = decimal.Decimal(repr(value)).normalize().as_tuple()
    shown = decimal.Decimal((sign, digits, exponent))
    zeros, whole = PLAIN[kind]
    if value == 0 or -zeros <= len(digits) + exponent <= whole:
        return f"{shown:f}" if exponent < 0 else f"{shown:f}.0"
    first, *others = map(str, digits)
    return "-" * sign + first + ("." + "".join(others)) * bool(others) + f"e{len(digits) + exponent - 1}"


def line_of(directives, report):
    """The line of a record."""
    got, shown = dict(report.values), []
    for slot, kind in sorted((it.slot, it.kind) for it in scan_formats.destinations_of(directives)):
        value = got.get(slot)
        shown.append("-" if value is None else scan_formats.quoted(value) if kind == "text" else float_text(value, kind) if kind[0] == "f" else str(value))
    return " ".join(shown) + "\n"


def said_of(report):
    return f"{STATUSES[report.status]} at {report.at}, used {report.used}, assigned {report.assigned}"


def records(directives, text, limit):
    """What `sf scan` writes of records, and what it says at the end."""
    is_optional = any(isinstance(it, scan_formats.Opens) or isinstance(it, scan_formats.Conversion) and it.optional for it in directives)
    written, at, number = [], 0, 0
    while True:
        number += 1
        report = fscanf.run(directives, text[at:], limit)
        if report.met and report.converted == 0 and (report.status == "InputFailure" or report.status == "Done" and is_optional):
            return written, []
        if report.status != "Done":
            return written, [f"sf: record {number}: {said_of(report)}\n"]
        if report.used == 0:
            return written, [f"sf: record {number}: stalled\n"]
        written.append(line_of(directives, report))
        at += report.used


def judged(formats, line, is_whole):
    """The directives and the report that count of a line, and what is wrong with them, if anything is."""
    for directives in formats:
        report = fscanf.run(directives, line)
        if report.status == "Done" and not (is_whole and report.used < len(line)):
            return directives, report, ""
    return directives, report, f"left over at {report.used}" if report.status == "Done" else said_of(report)


def lines(formats, text, given):
    """What `sf scan --lines` writes, and what it says."""
    written, said = [], []
    parts = text.split(b"\n")
    for number, line in enumerate(parts[:-1] + parts[-1:] * bool(parts[-1]), 1):
        if number <= given["skip"]:
            continue
        if len(line) > given["limit"]:
            fault = "too long"
        elif any(judged([it], line, True)[2] == "" for it in given["ignored"]):
            continue
        else:
            directives, report, fault = judged(formats, line, given.get("whole") or given.get("strict"))
            if not fault:
                written.append(line_of(directives, report))
                continue
            if given.get("matching") and report.status != "OutOfRange":
                continue
        said.append(f"sf: line {number}: {fault}\n")
        if not given.get("keep_going"):
            break
    return written, said


def answered(args, text):
    """The status, the output and the error text of a call, by the reference."""
    verb, given, words = order_of(args)
    try:
        given["ignored"] = [directives_of(it, given) for it in given["ignored"]]
        formats = [directives_of(it, given) for it in words]
    except Refused as refused:
        return 2, b"", f"sf: {refused}\n".encode("latin-1")
    if verb == "show":
        return 0, "".join(it + "\n" for it in scan_formats.shown(formats[0])).encode("latin-1"), b""
    written, said = lines(formats, text, given) if given.get("lines") else records(formats[0], text, given["limit"])
    return bool(said) * 1, "".join(written).encode("latin-1"), "".join(said * (not given.get("quiet"))).encode("latin-1")


# ---- the cases of tests/program

# How many of them there are at least: fewer would mean that this file has lost its way.
LEAST_CASES = 2200


def cases():
    """The cases that the reference can answer, with its answer's call."""
    for place, case in table.cases(""):
        words = [table.data(it) for it in case["args"]]
        if case.keys() & {"input", "output"} or None in (case.get("stdout", ""), case.get("stderr", "")):
            continue
        try:
            order_of(words)
        except (Elsewhere, IndexError):
            continue
        yield place, words, case


def of_table(turn, turns):
    """A check that the table says of these cases what the reference gives."""
    def check():
        chosen = list(cases())
        wrong = [f"there are {len(chosen)} cases"] if len(chosen) < LEAST_CASES else []
        for place, words, case in chosen[turn::turns]:
            said = re.sub(rb"(?m)^  .*\n", b"", table.data(case.get("stderr", "")))  # (what --explain says more)
            due = (case.get("status", 0), table.data(case.get("stdout", "")), said)
            found = difference(answered(words, table.data(case.get("stdin", ""))), due)
            if found:
                wrong.append(f"{place}: {found}")
        return "; ".join(wrong[:3])
    return check


# ---- the rows of crates/sf_rows

ROW = re.compile(
    r"ScanRow \{\s*profile: Profile::(\w+),\s*format: (b\".*\"),\s*limit: (\w+),\s*text: (.*),\s*"
    r"told: Told::(\w+)\(((?s:.*?))\),\s*values: &\[((?s:.*?))\],\s*at_once"
)
FAULT = re.compile(r"\((b\".*\"), (\d+), FormatWhy::(\w+)\)")
RETURN = re.compile(r"\((b\"[^\"]*\"), (-?\d+)\)")
PROFILES = {"One": 1, "Two": 2, "Three": 3}
# Which parts of a report a row has, in its order; what else it has of them follows.
TOLD = {
    "Done": ("assigned", "used", "met"),
    "Counted": ("assigned", "converted", "used", "met"),
    "Failed": ("status", "at", "assigned", "used", "met"),
    "FailedAfter": ("status", "at", "assigned", "converted", "used", "met"),
}


def source(name):
    with open(os.path.join(program.ROOT, "crates", "sf_rows", "src", name), encoding="utf-8") as file:
        return file.read()


def bytes_at(text):
    """The bytes of a literal, or of one byte that is repeated."""
    many = re.fullmatch(r"&\[(b'.*'); (\d+)\]", text)
    return ast.literal_eval(many[1]) * int(many[2]) if many else ast.literal_eval(text)


def report_in(row, told, values):
    """The report of a row, with each value at its slot."""
    has = dict(zip(TOLD[row], (it.strip().rpartition(":")[2] for it in told.split(","))))
    shown = [bytes_at(it) if kind == "Text" else int(it) for kind, it in re.findall(r'Value::(\w+)\((b".*?"|-?\d+)\)', values)]
    counts = {it: int(has.get(it, has["assigned"] if it == "converted" else "0")) for it in ("at", "assigned", "converted", "used")}
    met = "End" if has["met"] == "End" else None
    return fscanf.Report(has.get("status", "Done"), met=met, values=dict(enumerate(shown, 1)), **counts)


def rows():
    """What is wrong with a row of a scan, if anything is; and how many rows there are."""
    wrong, count = [], 0
    for name in sorted(os.listdir(os.path.join(program.ROOT, "crates", "sf_rows", "src"))):
        for profile, format_, limit, text, *told, values in ROW.findall(source(name)):
            directives = scan_formats.directives_of(bytes_at(format_), PROFILES[profile])
            report = fscanf.run(directives, bytes_at(text), LIMIT if limit == "LIMIT" else int(limit))
            got, due = report._replace(values=dict(report.values)), report_in(*told, values)
            count += 1
            if got != due:
                wrong.append(f"{name}: {format_} of {text}: {got}, must be {due}")
    return wrong, count


def of_rows():
    wrong, count = rows()
    if count != source_count():
        wrong.append(f"{count} rows were read, and there are {source_count()}")
    return "; ".join(wrong)


def source_count():
    names = os.listdir(os.path.join(program.ROOT, "crates", "sf_rows", "src"))
    return sum(source(it).count("    ScanRow {") for it in names if it.endswith("_scans.rt"))


def of_returns():
    """What C's function returns for texts by `%d %d`."""
    directives, found = scan_formats.directives_of(b"%d %d"), RETURN.findall(source("scan_rows.rt"))
    wrong = [(text, due) for text, due in found if fscanf.c_return(fscanf.run(directives, ast.literal_eval(text))) != int(due)]
    return f"{wrong}" if wrong or len(found) < 5 else ""


def of_faults():
    table_, wrong = source("fault_rows.rt").partition("static PRINT_FAULTS")[0], []
    found = FAULT.findall(table_)
    for text, at, why in found:
        try:
            got = f"no fault: {scan_formats.directives_of(ast.literal_eval(text))}"
        except scan_formats.Fault as fault:
            got = f"{fault.why.split()[1]} at {fault.at}"
        if got != f"{why} at {at}":
            wrong.append(f"{text}: {got}, must be {why} at {at}")
    return "; ".join(wrong) or ("" if len(found) == table_.count("FormatWhy::") else "a row was not read")


# ---- formats and inputs by chance

# How many checks there are, how many formats each has, and on how many lines and how many whole inputs each is tried.
ROUNDS, FORMATS, LINES, WHOLE = 40, 50, 8, 2
LETTERS = {1: "dduioxXscn[", 2: "dduioxXscn[bb", 3: "dduioxscn[bfffaeg"}
SIZES = ("", "", "", "hh", "h", "l", "ll", "j", "z", "t")
SETS = ("a-c", "^,", "0-9", "]a", "^]", "a-", "^ \t", "-+.", "^\n", "A-Za-z_")
LITERALS = (",", ";", ":", "a", "x", "%%", " ", "\n", "  \t", "0", "-")
NUMBERS = ("0", "7", "12", "-3", "+5", "007", "089", "0x1F", "0X", "0xg", "0b101", "0B2", "127", "128", "-129", "255", "65536", "2147483648", "-2147483649",
           "18446744073709551615", "18446744073709551616", "-", "+", "--1", "0-", "9" * 30)
FLOATS = ("1.5", "-.5", "1e5", "1e", "1e+", "1.e-3", ".", "0x1p4", "0x.8p-1", "0x", "0x1p", "inf", "-INFINITY", "infi", "nan", "nan(a_1)", "nan(", "100ergs",
          "1e400", "1e-400", "3.5e38", "1.17549435e-38", "4.9e-324", "2.2250738585072011e-308", "0.1", "16777217", "9007199254740993", "1.5.2", "1e5e5", "-0")
TEXTS = ("abc", "a", "ab,c", "]", "a-c", "_x9", "\0", "\xff", "zz top", "+.-", "cab")
NOISE = (",", ";", " ", "  ", "\t", "a", "x", "0", "-", "%", "\xe9", "\v")


def conversion_of(chance, profile):
    letter = chance.choice(LETTERS[profile])
    is_count, is_column = letter == "n", letter not in "cn" and profile == 3 and chance.random() < 0.3
    star = "*" * (not is_count and chance.random() < 0.15)
    mark = "?" * (not is_count and profile == 3 and chance.random() < 0.2) + "=" * is_column + "!" * (letter not in "cn[" and profile == 3 and chance.random() < 0.3)
    width = str(chance.choice((1, 1, 2, 2, 3, 4, 5, 7, 12, 30))) * (is_column or not is_count and chance.random() < 0.4)
    size = chance.choice(("", "l")) if letter in "faeg" else "" if letter in "sc[" else chance.choice(SIZES)
    return f"%{star}{mark}{width}{size}{letter}" + (chance.choice(SETS) + "]") * (letter == "[")


# What no group begins with: white space, a count, and what may be missing by itself.
NO_OPENER = re.compile(r"\s|%(?:[0-9]+\$)?(?:\*?\?|.*n$)")


def grouped(chance, parts):
    """The parts with marks of groups between them, each before a part with which a group may begin."""
    found, left = [], 0
    for part in parts:
        left -= 1
        if left == 0:
            found.append("%)")
        if left <= 0 and chance.random() < 0.25 and not NO_OPENER.match(part):
            found.append("%?(")
            left = chance.choice((1, 2, 2, 3, 4))
        found.append(part)
    return found + ["%)"] * (left > 0)


def format_of(chance, profile):
    parts = [conversion_of(chance, profile) if chance.random() < 0.65 else chance.choice(LITERALS) for _ in range(chance.randint(1, 6))]
    assigned = [at for at, part in enumerate(parts) if len(part) > 1 and part[0] == "%" and part[1] not in "*%"]
    if chance.random() < 0.1:
        for number, at in enumerate(chance.sample(assigned, len(assigned)), 1):
            parts[at] = f"%{number}${parts[at][1:]}"
    return "".join(grouped(chance, parts) if profile == 3 else parts).encode("latin-1")


def column_of(chance, text, width):
    """A text in a column, which mostly is as wide as it should be, and may be blank."""
    placed = chance.choice((str.ljust, str.rjust, str.center))(text[:width], width)
    return chance.choice((placed, placed, placed, placed, placed, " " * width, placed.replace(" ", "\t"), placed.strip(), text))


def input_of(chance, directives):
    """An input that the directives may take, and that may be none for them; some groups are left out."""
    parts, over = [], 0
    for it in directives:
        more, over = scan_formats.more_of(it), over - 1
        if more is not None and chance.random() < 0.4:
            over = more + 1
        if over > 0:
            continue
        it = it.literal if isinstance(it, scan_formats.Opens) else it
        shape = getattr(it, "shape", type(it).__name__)
        if shape == "Byte":
            parts.append(chr(it.byte))
        elif shape == "Percent":
            parts.append("%")
        elif shape == "Space":
            parts.append(chance.choice(("", " ", "\t ")))
        else:
            parts.append(chance.choice(NUMBERS if shape in ("Int", "Count") else FLOATS if shape == "Float" else TEXTS))
        if getattr(it, "column", False):
            parts[-1] = column_of(chance, parts[-1], it.width)
        if chance.random() < 0.15:
            parts.append(chance.choice(NOISE))
        if chance.random() < 0.3:
            parts.append(" ")
    text = "".join(parts)[: chance.choice((None, None, None, chance.randint(0, 12)))]
    return text.replace("\n", " ").encode("latin-1")


def word_of(text):
    return escaped(text).encode()


def by_chance(seed):
    """The calls of a check: the words, and the input."""
    chance = random.Random(seed)
    for _ in range(FORMATS):
        profile = chance.choice((1, 2, 3, 3))
        text = format_of(chance, profile)
        directives = scan_formats.directives_of(text, profile)
        words = [b"--profile", b"%d" % profile] + [b"--strict"] * (chance.random() < 0.2)
        inputs = [input_of(chance, directives) for _ in range(LINES)]
        yield [b"scan", *words, b"--lines", b"--keep-going", b"--", word_of(text)], b"\n".join(inputs)
        for _ in range(WHOLE):
            limit = [b"--limit", b"%d" % chance.choice((0, 1, 3, 5, 20))] * (chance.random() < 0.2)
            whole = b"".join(input_of(chance, directives) + chance.choice((b"", b"\n")) for _ in range(chance.randint(1, 3)))
            yield [b"scan", *words, *limit, b"--", word_of(text)], whole


def drawn(seed):
    """A check that the program says of these calls what the reference gives."""
    def check():
        for words, text in by_chance(seed):
            found = difference(program.run(*words, stdin=text), answered(words, text))
            if found:
                return f"{words} of {text!r}: {found}"
        return ""
    return check


# What follows the % of a conversion that can have a `!` and has none.
UNMARKED = re.compile(rb"%%|%(?:[0-9]+\$)?\*?\??=?(?=[0-9]*(?:hh|h|ll|l|j|z|t|)[diuoxXbsaAeEfFgG])")


def marked(text):
    """A format of profile 3 with a `!` in each conversion that can have it."""
    return UNMARKED.sub(lambda it: it[0] + b"!" * (it[0] != b"%%"), text)


def with_formats(options, texts):
    """The options, each with a format after it."""
    return [it for option, text in zip(options, texts) for it in (option, word_of(text))]


def strict(seed):
    """A check that --strict is a `!` in each conversion, and --whole where lines are read."""
    def check():
        chance, words = random.Random(f"strict {seed}"), [b"scan", b"--profile", b"3"]
        for _ in range(FORMATS):
            options = [b"-e"] * chance.choice((1, 1, 2)) + [b"--ignore"] * chance.choice((0, 0, 1))
            texts = [format_of(chance, 3) for _ in options]
            inputs = b"\n".join(input_of(chance, scan_formats.directives_of(chance.choice(texts), 3)) for _ in range(LINES))
            plain, written, lines_ = with_formats(options, texts), with_formats(options, map(marked, texts)), [b"--lines", b"--keep-going"]
            for left, right in (([*lines_, b"--strict", *plain], [*lines_, b"--whole", *written]), ([b"--strict", plain[1]], [written[1]])):
                found = difference(program.run(*words, *left, stdin=inputs), program.run(*words, *right, stdin=inputs))
                if found:
                    return f"{texts} of {inputs}: {left}: {found}"
        return ""
    return check


# ---- formats by chance that may be none

# The parts of a conversion, in their order; each may be written.
NONE_OR = (("", "", "", "", "1$", "2$", "33$"), ("*",), ("?",), ("=",), ("!",), ("", "0", "5", "5", "5", "65536"), ("", "", "hh", "l", "j", "L"))
ENDS = (*"diuoxXbscnfae%m", "[a]", "[", "[^]", "[z-a]", "", "\0")


def specification_of(chance):
    if chance.random() < 0.3:
        return chance.choice(("%?(", "%?(", "%)", "%)", "a", "%%", " ", "%?("))
    parts = [chance.choice(them) * (chance.random() < 0.3) for them in NONE_OR]
    if chance.random() < 0.1:
        chance.shuffle(parts)
    return "%" + "".join(parts) + chance.choice(ENDS) + chance.choice(("", "", ",", " "))


def spelled(seed):
    """A check that the program shows these formats, or reports the first fault of each, as the reference does."""
    def check():
        chance = random.Random(f"spelled {seed}")
        for _ in range(3 * FORMATS):
            text = "".join(specification_of(chance) for _ in range(chance.choice((1, 1, 2, 3, 5))))
            words = [b"show", b"--profile", b"%d" % chance.choice((1, 2, 3, 3, 3)), b"--", word_of(text.encode())]
            found = difference(program.run(*words), answered(words, b""))
            if found:
                return f"{words}: {found}"
        return ""
    return check


# ---- beside the C libraries


def beside(name, seed):
    """A check that a C library gives what the reference gives, but where docs/LIBCS.md says why it doesn't."""
    def check():
        compiler = libcs.COMPILERS[name]
        if not shutil.which(compiler):
            raise SkipTest(f"there is no {compiler}")
        pairs = libcs.pairs_of(seed, (), 1500)
        with tempfile.TemporaryDirectory() as room:
            theirs = list(libcs.answers(libcs.built(compiler, room), pairs))
        found, is_left_open = libcs.differences(pairs, [theirs])
        return "" if len(theirs) == len(pairs) and is_left_open < 100 and sum(map(len, found.values())) < 300 else f"{name}: {found}"
    return check


def checks():
    for name in libcs.COMPILERS:
        for seed in (1, 2):
            yield f"beside {name} {seed}", beside(name, seed)
    yield "the rows of scans", of_rows
    yield "the rows of what C returns", of_returns
    yield "the rows of faults", of_faults
    for turn in range(8):
        yield f"cases {turn}", of_table(turn, 8)
    for seed in range(ROUNDS):
        yield f"by chance {seed}", drawn(seed)
    for seed in range(8):
        yield f"strict {seed}", strict(seed)
        yield f"spelled {seed}", spelled(seed)
