"""The man page: its form, and that it names what the program has."""
import os
import re
import shutil
import unittest

import program

PAGE = os.path.join(program.ROOT, "man", "sf.1")


def plain(line):
    """A line without the requests and signs of fonts."""
    line = re.sub(r"^\.(B|I|BR|RB|RI|IR|BI|IB) ", "", line)
    return line.replace(r"\-", "-").replace('"', "")


def sections():
    """The lines of each section, by its title."""
    found, title = {}, None
    with open(PAGE, encoding="ascii") as file:
        for line in file.read().splitlines():
            if line.startswith(".SH "):
                title = line[4:].strip('"')
                found[title] = []
            elif title:
                found[title].append(line)
    return found


def tags(lines):
    """The tags of a section's paragraphs."""
    return [plain(line) for before, line in zip(lines, lines[1:]) if before == ".TP"]


def synopsis():
    """What the synopsis says of each command: its options, and its arguments in their order, each form of a command alike."""
    told = {}
    for piece in "\n".join(sections()["SYNOPSIS"]).split("\n.br\n"):
        text = " ".join(plain(line) for line in piece.split("\n"))
        words = re.findall(r"[\w-]+", text)
        # (the name of an option's value is no argument)
        arguments = tuple(re.findall(r"\b[A-Z]{2,}\b", re.sub(r"\[ ?-[^]]*\]", "", text)))
        options, known = told.setdefault(words[1], (set(), arguments))
        options.update(it for it in words if it.startswith("-"))
        assert arguments == known, text
    return told


class Manual(unittest.TestCase):
    def test_version(self):
        with open(PAGE, encoding="ascii") as file:
            self.assertIn(f'"{program.version()}"', file.readline())

    def test_synopsis_names_each_command(self):
        told = synopsis()
        self.assertEqual(set(told) - {"--version"}, program.commands())
        for command in program.working():
            with self.subTest(command):
                self.assertEqual(told[command], (program.options(command) - {"-h", "--help"}, program.arguments(command)))

    def test_each_command_is_described(self):
        self.assertEqual(set(tags(sections()["COMMANDS"])), program.commands())

    def test_each_option_is_described(self):
        told = {name for tag in tags(sections()["OPTIONS"]) for name in re.findall(r"--?[\w-]+", tag)}
        known = program.options().union(*(program.options(command) for command in program.working()))
        self.assertEqual(told, known)

    @unittest.skipUnless(shutil.which("groff"), "there is no groff")
    def test_groff_has_nothing_to_say(self):
        self.assertEqual(program.output("groff", "-man", "-ww", "-z", PAGE), "")

    @unittest.skipUnless(shutil.which("mandoc"), "there is no mandoc")
    def test_mandoc_has_nothing_to_say(self):
        self.assertEqual(program.output("mandoc", "-T", "lint", "-W", "all", PAGE), "")
