"""Help, usage and version, and words that are no text."""
import re
import tempfile
import unittest

import program

VERBS = ("show", "scan", "print", "check", "copy")


class Words(unittest.TestCase):
    def asked_for(self, *words):
        """The text of a call that asks for one: on standard output, with status 0."""
        status, out, err = program.run(*words)
        self.assertEqual((status, err), (0, b""), words)
        return out.decode()

    def refused(self, *words):
        """The text of a call that is refused: on standard error, with status 2."""
        status, out, err = program.run(*words)
        self.assertEqual((status, out), (2, b""), words)
        self.assertTrue(err.endswith(b"\n"), err)
        return err.decode()

    def test_help_names_each_subcommand(self):
        text = self.asked_for("--help")
        self.assertIn("Usage: sf ", text)
        for verb in VERBS:
            self.assertRegex(text, rf"(?m)^ +{verb} ")
        self.assertEqual(self.asked_for("help"), text)
        self.assertEqual(self.asked_for("-h"), text)

    def test_help_of_each_subcommand(self):
        for verb in VERBS:
            text = self.asked_for(verb, "--help")
            self.assertRegex(text, rf"Usage: sf {verb} ")
            self.assertEqual(self.asked_for("help", verb), text)
            self.assertEqual(self.asked_for(verb, "-h"), text)
            self.assertEqual("--limit" in text, verb in ("scan", "copy"))

    def test_version(self):
        self.assertRegex(self.asked_for("--version"), r"\Asf [0-9]+\.[0-9]+\.[0-9]+\n\Z")

    def test_a_call_without_words_is_refused_and_shows_the_help(self):
        self.assertEqual(self.refused(), self.asked_for("--help"))

    def test_what_is_wrong_and_how_it_is_called_is_said(self):
        for words, wrong, usage in (
            (["scna", "%d"], "scna", "Usage: sf "),
            (["scan"], "FORMAT", "Usage: sf scan "),
            (["show", "%d", "more"], "more", "Usage: sf show "),
            (["scan", "--limt", "3", "%d"], "--limt", "Usage: sf scan "),
            (["scan", "--limit", "x", "%d"], "x", ""),
            (["scan", "--limit", "2147483648", "%d"], "2147483648", ""),
            (["scan", "--limit", "-1", "%d"], "-1", ""),
            (["check"], "PRINT", "Usage: sf check "),
            (["show", "-%d"], "-%", "Usage: sf show "),
        ):
            text = self.refused(*words)
            self.assertIn(wrong, text)
            self.assertIn(usage, text)

    def test_the_least_and_the_greatest_limit(self):
        self.assertEqual(program.run("scan", "--limit", "0", "%d", stdin=b"1")[:2], (1, b""))
        self.assertEqual(program.run("scan", "--limit", "2147483647", "%d", stdin=b"1"), (0, b"1\n", b""))

    def test_words_that_begin_with_a_dash_stand_after_two(self):
        self.assertEqual(program.run("print", "--", "%d", "-1"), (0, b"-1", b""))
        self.assertEqual(program.run("print", "%d", "--", "-1"), (0, b"-1", b""))
        self.assertEqual(program.run("scan", "--", "-%d", stdin=b"-5"), (0, b"5\n", b""))

    def test_words_that_are_no_text_are_refused_clearly(self):
        for words in ([b"\xff"], [b"scan", b"%[\xe9]"], [b"print", b"%s", b"\xc3"]):
            self.assertRegex(self.refused(*words), r"\Asf: [^\n]*UTF-8[^\n]*\\xHH[^\n]* < FILE [^\n]*\n\Z")

    def test_the_page_on_formats(self):
        """One screen that has each letter of both grammars with its profile; each help ends with its name."""
        text = self.asked_for("help", "formats")
        lines = text.splitlines()
        self.assertLessEqual(len(lines), 45)
        self.assertLessEqual(max(map(len, lines)), 80)
        for said in (
            r"  d +a number of base 10, [^\n]*? +1$",
            r"  o   x   X +a number of base 8, of base 16 +1$",
            r"  b +a number of base 2 +2$",
            r"  f e g a +a float: [^\n]*?; E F G A alike +3 ",
            r"  \[a-z_\] +text of these bytes",
            r"  n +nothing: it counts the bytes",
            r"  N\$ +the place of the value",
            r"  \* +drops what it takes",
            r"  \? +what may be missing: '%d,%\?d' +3 +%\?\(,%d%\): as one$",
            r"  WIDTH +the most bytes",
        ):
            self.assertRegex(text, rf"(?m)^{said}")
        self.refused("help", "formats", "more")

    def test_the_help_is_narrow_and_names_the_page_on_formats(self):
        for words in (["help"], *(["help", verb] for verb in VERBS)):
            lines = self.asked_for(*words).splitlines()
            self.assertLessEqual(max(map(len, lines)), 80, words)
            self.assertIn("'man sf' and 'sf help formats'", lines[-1])


class Examples(unittest.TestCase):
    """The examples in the help run as they stand there, and end as they say."""

    FILES = {"points": "1,2\n3,4\n", "words": "up and away\n", "table": " +7,ab\n08,c\n", "numbers": "1;-2;"}

    def examples(self, *words):
        """Each command of a help's examples, and what stands after it."""
        text = program.run(*words)[1].decode()
        self.assertIn("Examples:\n", text)
        for line in text.split("Examples:\n")[1].split("\n\n")[0].splitlines():
            found = re.fullmatch(r"  (sf .*?)  +(.*)", line) or re.fullmatch(r"  (sf .*')() .*", line)
            self.assertTrue(found, line)
            yield found.groups()

    def run_them(self, *words):
        count = 0
        with tempfile.TemporaryDirectory() as room:
            for name, text in self.FILES.items():
                with open(f"{room}/{name}", "w") as file:
                    file.write(text)
            for count, (command, said) in enumerate(self.examples(*words), 1):
                status, _, err = program.run_script(f'sf() {{ "$0" "$@"; }}; {command}', cwd=room)
                due = int("refused" in said or "report" in said)
                self.assertEqual((status, bool(err)), (due, "report" in said), command)
        return count

    def test_the_help(self):
        self.assertGreaterEqual(self.run_them("--help"), 2)

    def test_the_help_of_each_subcommand(self):
        for verb in VERBS:
            with self.subTest(verb):
                self.assertGreaterEqual(self.run_them(verb, "--help"), 2)

    def test_the_exit_statuses_are_told(self):
        for verb in VERBS:
            text = program.run(verb, "--help")[1].decode()
            told = re.findall(r"(?m)^ +([0-9])  ", text.partition("Exit status:\n")[2])
            self.assertEqual(told, ["0", "2", "3", "4"] if verb in ("show", "print") else ["0", "1", "2", "3", "4"])
