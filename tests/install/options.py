"""The table of the options in crates/sf_words/src/options.rt: the help of each command, and the man page, have to say what it says."""
import functools
import os
import re
import unittest
from collections import namedtuple

import manual
import program

TABLE = os.path.join(program.ROOT, "crates", "sf_words", "src", "options.rt")

# The commands that have an option of each kind.
COMMANDS = {
    "All": ("show", "scan", "print", "check", "copy"),
    "Records": ("scan", "copy"),
    "Scan": ("scan",),
    "Lines": ("scan", "copy"),
    "ScanLines": ("scan",),
    "Print": ("print",),
    "Check": ("check",),
}

# What stands after --output, and after --profile: the completions know no other values.
VALUES = {"output": ("plain", "tsv", "json", "csv"), "profile": ("1", "2", "3")}

# An option: its names, the short one first, what stands after it, if anything, its default, and the line of the help.
Option = namedtuple("Option", "name names value default commands help")


def text_of(row, field):
    """What a row of the table has in a field: the text between quotes, if it is one."""
    found = re.search(rf'\b{field}: (?:Some\()?(?:"([^"]*)"|\'(.)\'|(\w[\w:]*))', row)
    return next(it for it in found.groups() if it is not None)


def option_of(row):
    name, kind = text_of(row, "name"), text_of(row, "value").split("::")[1]
    of = text_of(row, "of").split("::")[1]
    short = [] if text_of(row, "short") == "None" else ["-" + text_of(row, "short")]
    names = short + (["--" + name] if text_of(row, "has_long") == "true" else [])
    values = row.split("value:")[1]
    default = text_of(values, "default") if kind in ("Number", "LastText") else "None"
    value = {"Nothing": None, "Number": "N"}.get(kind) if kind in ("Nothing", "Number") else text_of(values, "name")
    return Option(name, tuple(names), value, None if default == "None" else default, COMMANDS[of], text_of(row, "help"))


@functools.cache
def table():
    """The rows of the table, in their order."""
    with open(TABLE, encoding="utf-8") as file:
        text = file.read()
    count, rows = re.search(r"static OPTIONS: \[CommandOption; (\d+)\] = \[\n(.*?)\n\];", text, re.DOTALL).groups()
    found = [option_of(row) for row in rows.split("    CommandOption {\n")[1:]]
    assert len(found) == int(count), f"{len(found)} of {count} rows were read"
    return found


def told(line):
    """What a line of the help says of an option."""
    names, text = re.fullmatch(r" +(-.*?)  +(.*)", line).groups()
    value = re.search(r" <(\w+)>", names)
    default = re.search(r" \[default: (\w+)\]", text)
    return (
        tuple(re.findall(r"--?[\w-]+", names)),
        value and value[1],
        default and default[1],
        text[: default.start()] if default else text,
    )


def paragraphs():
    """The text after each tag of the man page's options, by the tag: the names, and what stands after each."""
    found = {}
    for piece in "\n".join(manual.sections()["OPTIONS"]).split(".TP\n")[1:]:
        tag, _, text = piece.partition("\n")
        tag = re.sub(r"\\f[RP]", "", manual.plain(tag))
        found[re.sub(r" +(?=,)", "", re.sub(r" +", " ", tag)).replace(",", ", ").replace(",  ", ", ")] = text
    return found


class Options(unittest.TestCase):
    def test_the_help_of_each_command_is_that_of_the_table(self):
        for command in program.working():
            with self.subTest(command):
                lines = program.section(program.help_of(command), "Options").splitlines()
                due = [(it.names, it.value, it.default, it.help) for it in table() if command in it.commands]
                self.assertEqual([told(it) for it in lines], [*due, (("-h", "--help"), None, None, "Print help")])

    def test_the_manual_names_each_option_with_its_value(self):
        due = {", ".join(f"{name} {it.value}" if it.value else name for name in it.names) for it in table()}
        self.assertEqual(set(paragraphs()), due | {"-h, --help", "-V, --version"})

    def test_the_manual_tells_each_default(self):
        for it in table():
            if it.default:
                name = f"{it.names[-1]} {it.value}"
                text = next(lines for tag, lines in paragraphs().items() if tag.endswith(name))
                self.assertRegex(text, rf"\b{it.default}\b", name)

    def test_fish_has_the_options_of_the_table(self):
        with open(os.path.join(program.ROOT, "completions", "sf.fish"), encoding="utf-8") as file:
            lines = re.findall(r"complete -c sf -n '__sf_has_command ([^']*)'(.*?) -d ", file.read())
        found = set()
        for commands, words in lines:
            names = [f"-{name}" for name in re.findall(r" -s (\w)", words)] + [f"--{name}" for name in re.findall(r" -l ([\w-]+)", words)]
            found.add((tuple(commands.split()), tuple(names), " -x" in words))
        due = {(it.commands, it.names, it.value is not None) for it in table()}
        self.assertEqual(found - {(COMMANDS["All"], ("-h", "--help"), False)}, due)

    def test_zsh_has_the_options_of_the_table(self):
        with open(os.path.join(program.ROOT, "completions", "_sf"), encoding="utf-8") as file:
            text = file.read()
        found = set()
        for part, commands in (
            (r"options=\((.*?)\n  \)", "All"),
            (r"records=\((.*?)\n  \)", "Records"),
            (r"scan=\((.*?)\n  \)", "Scan"),
            (r"print\) (.*)", "Print"),
            (r"check\) (.*)", "Check"),
        ):
            rows = re.search(part, text, re.DOTALL if r"\n" in part else 0)[1]
            for names, value in re.findall(r"'(?:\*|\([^)]*\))*'?(\{-[^}]*\}|-[\w-]+)'?\[[^]]*\](:[^']*)?'", rows):
                found.add((COMMANDS[commands], tuple(names.strip("{}").split(",")), bool(value)))
        self.assertEqual(found, {(it.commands, it.names, it.value is not None) for it in table()})
