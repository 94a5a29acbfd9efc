"""No package is wanted but python3's own library: what the tests, the tools and the package sf import is there, or stands in the repository."""
import ast
import glob
import os
import sys
import tempfile
import unittest

from made import ROOT


def sources():
    """The sources of the tests, the tools and the package in Python, and of ./test."""
    runners = [it for it in glob.glob(f"{ROOT}/tests/*/run") if "python3" in first_line(it)]
    return [f"{ROOT}/test", *runners, *modules(), *glob.glob(f"{ROOT}/python/sf/*.py")]


def modules():
    return glob.glob(f"{ROOT}/tests/**/*.py", recursive=True) + glob.glob(f"{ROOT}/tools/*.py")


def first_line(path):
    with open(path, encoding="utf-8") as file:
        return file.readline()


def imported(path):
    """The packages that a source imports."""
    with open(path, encoding="utf-8") as file:
        tree = ast.parse(file.read(), path)
    for it in ast.walk(tree):
        if isinstance(it, ast.Import):
            yield from (name.name.split(".")[0] for name in it.names)
        elif isinstance(it, ast.ImportFrom) and not it.level:
            yield it.module.split(".")[0]


def foreign(path):
    """Those that are neither python3's own nor of the tests or the tools, nor the package."""
    ours = {"sf", *(os.path.basename(it)[:-3] for it in modules())}
    return sorted(set(imported(path)) - set(sys.stdlib_module_names) - ours)


class Imports(unittest.TestCase):
    def test_there_are_sources(self):
        self.assertGreater(len(sources()), 40)

    def test_nothing_else_is_imported(self):
        for path in sources():
            with self.subTest(os.path.relpath(path, ROOT)):
                self.assertEqual(foreign(path), [])

    def test_a_package_of_others_is_seen(self):
        with tempfile.NamedTemporaryFile("w", suffix=".py") as file:
            file.write("import os, numpy.linalg\nfrom yaml import safe_load\n\n\ndef late():\n    import requests\n    import counts\n")
            file.flush()
            self.assertEqual(foreign(file.name), ["numpy", "requests", "yaml"])
