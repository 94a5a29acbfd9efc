"""What the tests themselves count, where tools are missing or rows are passed over."""
import os
import subprocess
import sys
import tempfile
import unittest

from made import HERE, ROOT, SECONDS

# A module of unittest whose rows end in each way.
ROWS = """
import unittest


class Rows(unittest.TestCase):
    def test_a_row(self):
        pass

    @unittest.skip("there is no fish")
    def test_a_row_that_is_passed_over(self):
        self.fail()

    def test_lines_of_which_one_is_passed_over(self):
        for it in range(2):
            with self.subTest(it):
                if it:
                    self.skipTest("there is no zsh")

    def test_lines_of_which_one_fails(self):
        for it in range(3):
            with self.subTest(it):
                self.assertFalse(it)

    def test_a_fault(self):
        raise OSError


class Unset(unittest.TestCase):
    @classmethod
    def setUpClass(cls):
        raise OSError

    def test_what_is_not_begun(self):
        pass


@unittest.skip("there is no make")
class Over(unittest.TestCase):
    def test_one(self):
        pass

    def test_two(self):
        pass
"""
CALLER = "import sys; sys.path[:0] = sys.argv[1:3]; import counts; sys.exit(counts.ended(*counts.of_modules(['made_up'])))"


def lines_of(*words, path=None):
    """The status and the lines of a command."""
    how = {"stdin": subprocess.DEVNULL, "stdout": subprocess.PIPE, "stderr": subprocess.STDOUT, "text": True, "check": False}
    environment = {"PATH": path if path is not None else os.environ["PATH"], "PYTHONDONTWRITEBYTECODE": "1"}
    done = subprocess.run([sys.executable, *words], env=environment, timeout=SECONDS, **how)
    return done.returncode, done.stdout.splitlines()


class Rows(unittest.TestCase):
    def test_methods_are_counted_as_they_ended(self):
        with tempfile.TemporaryDirectory() as room:
            with open(room + "/made_up.py", "w", encoding="utf-8") as file:
                file.write(ROWS)
            status, lines = lines_of("-c", CALLER, HERE, room)
        self.assertEqual((status, lines[-1]), (1, "1 passed, 3 failed, 4 skipped"))
        over = [line.rpartition(": ")[2] for line in lines if line.startswith("passed over: ")]
        self.assertEqual(sorted(over), ["there is no fish", "there is no make", "there is no make", "there is no zsh"])

    def test_what_a_missing_tool_hinders_is_not_counted_as_passed(self):
        with tempfile.TemporaryDirectory() as empty:
            for words, why in (
                (["bench", "--rows", "sf", "--sf", "/bin/true"], "there is no valgrind"),
                (["bench", "--rows", "libraries"], "there is no valgrind"),
                (["refusals"], "there is no cc"),
                (["layout"], "there is no git"),
            ):
                with self.subTest(words):
                    status, lines = lines_of(f"{ROOT}/tests/{words[0]}/run", *words[1:], path=empty)
                    self.assertEqual(status, 0)
                    self.assertRegex(lines[-1], r"^0 passed, 0 failed, [1-9]\d* skipped$")
                    self.assertTrue(all(line.startswith("passed over: ") and line.endswith(why) for line in lines[:-1]))
