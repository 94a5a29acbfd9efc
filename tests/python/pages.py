"""The docstrings and the page: each has an example, and each example is what it says."""
import doctest
import inspect
import os
import pydoc
import re
import shutil
import tempfile
import typing
import unittest

import sf

ROOT = os.path.dirname(os.path.dirname(os.path.dirname(os.path.abspath(__file__))))
PAGE = "docs/PYTHON.md"
# (a float of a page may be written shorter than it is)
HOW = doctest.ELLIPSIS | doctest.NORMALIZE_WHITESPACE


def public():
    """What is public, by its name: the module, what it hands on, and their methods."""
    yield "sf", sf
    for name in sf.__all__:
        found = getattr(sf, name)
        yield f"sf.{name}", found
        if inspect.isclass(found):
            for method, it in vars(found).items():
                if not method.startswith("_") and inspect.isfunction(it):
                    yield f"sf.{name}.{method}", it


def outcome(test):
    """How many examples of a test fail, and what they say."""
    said = []
    failed, tried = doctest.DocTestRunner(optionflags=HOW).run(test, out=said.append)
    return failed, tried, "".join(said)


class Docstrings(unittest.TestCase):
    def test_each_has_an_example_that_is_so(self):
        finder, count = doctest.DocTestFinder(recurse=False), 0
        for name, it in public():
            with self.subTest(name):
                (test,) = finder.find(it, name, module=False, globs={"sf": sf})
                # (what closes something has its example beside it)
                self.assertTrue(test.examples or name == "sf.Rows.close", "no example")
                failed, tried, said = outcome(test)
                self.assertEqual((failed, said), (0, ""), said)
                count += tried
        self.assertGreater(count, 20)

    def test_help_shows_them(self):
        shown = pydoc.render_doc(sf, renderer=pydoc.plaintext)
        for name in sf.__all__:
            self.assertRegex(shown, rf"(?m)^    (class )?{name}\(")
        self.assertNotIn("_abc_impl", shown)
        self.assertIn("scanf and printf for Python", shown)

    def test_hints_are_right(self):
        for name, it in public():
            if inspect.isfunction(it):
                with self.subTest(name):
                    hints = typing.get_type_hints(it)
                    wanted = {one for one in inspect.signature(it).parameters if one not in ("self", "_")}
                    self.assertEqual(wanted - set(hints), set())

    def test_the_version_is_that_of_the_program(self):
        with open(f"{ROOT}/crates/sf_words/src/line.rt", encoding="utf-8") as file:
            self.assertEqual(sf.__version__, re.search('const VERSION: &str = "(.*)";', file.read())[1])


class Page(unittest.TestCase):
    def test_its_examples_are_so(self):
        with open(f"{ROOT}/{PAGE}", encoding="utf-8") as file:
            page = file.read()
        blocks = re.findall(r"^```python\n(.*?)^```$", page, re.MULTILINE | re.DOTALL)
        self.assertGreater(len(blocks), 5)
        with tempfile.TemporaryDirectory() as room:
            shutil.copytree(f"{ROOT}/tests/cookbook/data", f"{room}/data")
            before = os.getcwd()
            self.addCleanup(os.chdir, before)
            os.chdir(f"{room}/data")
            for number, block in enumerate(blocks, 1):
                with self.subTest(number):
                    test = doctest.DocTestParser().get_doctest(block, {"sf": sf}, f"{PAGE}, block {number}", PAGE, 0)
                    self.assertTrue(test.examples)
                    failed, _, said = outcome(test)
                    self.assertEqual((failed, said), (0, ""), said)
            os.chdir(before)
