"""prebuilt/sum, over copies of crates that are made up, and beside the sum that is computed a second time."""
import os
import shutil
import subprocess
import tempfile
import time
import unittest

import packed
from packed import ROOT

CRATES = "# some crates\nlow: num_traits\nmiddle: low  # and more\nsf: middle\napart: low\n"
FILES = ("low/src/lib.rt", "low/src/a b.rt", "low/src/B.rt", "low/src/a/deep/er.rt", "low/specs/Lib.antt",
         "middle/src/lib.rt", "middle/proofs/ä/Lib.antt", "sf/src/main.rt",
         "apart/src/lib.rt", "low/must-fail/x.edit", "low/out/rlib/stamp")


def written(path, text):
    os.makedirs(os.path.dirname(path), exist_ok=True)
    with open(path, "w") as file:
        file.write(text)


def printed(root, **environment):
    how = {"cwd": "/", "check": True, "capture_output": True, "text": True, "timeout": packed.SECONDS}
    return subprocess.run([root + "/prebuilt/sum"], env={**os.environ, **environment}, **how).stdout.strip()


class OfThisClone(unittest.TestCase):
    def test_it_is_the_sum_that_is_computed_a_second_time(self):
        self.assertEqual(printed(ROOT), packed.sources(ROOT))

    def test_it_takes_well_under_a_second(self):
        times = []
        for _ in range(3):
            start = time.monotonic()
            printed(ROOT)
            times.append(time.monotonic() - start)
        self.assertLess(min(times), 1)


class OfAClone(unittest.TestCase):
    def setUp(self):
        self.room = tempfile.mkdtemp(prefix="sf sums ")
        self.addCleanup(shutil.rmtree, self.room)
        self.root = self.made("clone")
        self.sum = printed(self.root)

    def made(self, name):
        root = f"{self.room}/{name}"
        written(root + "/crates.txt", CRATES)
        for file in FILES:
            written(f"{root}/crates/{file}", "text of " + file)
        os.mkdir(root + "/prebuilt")
        for name in ("sum", "plan.awk"):
            shutil.copy(f"{ROOT}/prebuilt/{name}", root + "/prebuilt")
        return root

    def write(self, file, text):
        written(f"{self.root}/crates/{file}", text)

    def differs(self):
        """Whether the sum is another one, and as the one that is computed a second time."""
        found = printed(self.root)
        self.assertEqual(found, packed.sources(self.root))
        return found != self.sum

    def test_it_is_the_sum_that_is_computed_a_second_time(self):
        self.assertFalse(self.differs())
        self.assertRegex(self.sum, r"\A[0-9a-f]{64}\Z")

    def test_the_folder_makes_no_difference(self):
        self.assertEqual(printed(self.made("another folder")), self.sum)

    def test_the_locale_makes_no_difference(self):
        for locale in ("C", "en_US.UTF-8", "C.UTF-8", "tr_TR.UTF-8"):
            self.assertEqual(printed(self.root, LC_ALL=locale, LANG=locale), self.sum)

    def test_times_and_modes_make_no_difference(self):
        for file in FILES:
            os.utime(f"{self.root}/crates/{file}", (1, 1))
            os.chmod(f"{self.root}/crates/{file}", 0o755)
        self.assertFalse(self.differs())

    def test_each_file_of_the_program_makes_a_difference(self):
        for file in FILES[:8]:
            with self.subTest(file):
                text = packed.read(f"{self.root}/crates/{file}").decode()
                self.write(file, text + "#")
                self.assertTrue(self.differs())
                self.write(file, text)
                self.assertFalse(self.differs())

    def test_no_other_file_makes_a_difference(self):
        for file in [*FILES[8:], "low/README.md", "../README.md", "../prebuilt/SUM", "new/src/lib.rt"]:
            self.write(file, "another text")
        self.assertFalse(self.differs())

    def test_the_lines_of_the_programs_crates_make_a_difference_and_no_others(self):
        for text in (CRATES.replace("and more", "and less"), CRATES.replace("low: num_traits", "low:")):
            self.write("../crates.txt", text)
            self.assertTrue(self.differs())
        for text in ("# other crates\n" + CRATES, CRATES + "another: low\n", CRATES.replace("apart: low", "apart: middle")):
            self.write("../crates.txt", text)
            self.assertFalse(self.differs())

    def test_a_file_that_is_added_removed_or_renamed_makes_a_difference(self):
        new, folder = self.root + "/crates/sf/specs/Lib.antt", self.root + "/crates/low/src/"
        self.write("sf/specs/Lib.antt", "")
        self.assertTrue(self.differs())
        os.remove(new)
        self.assertFalse(self.differs())
        os.rename(folder + "B.rt", folder + "C.rt")
        self.assertTrue(self.differs())
        os.rename(folder + "C.rt", folder + "B.rt")
        os.rename(folder + "a", folder + "b")
        self.assertTrue(self.differs())
        os.rename(folder + "b", folder + "a")
        self.assertFalse(self.differs())

    def test_two_texts_that_are_exchanged_make_a_difference(self):
        one, other = self.root + "/crates/low/src/lib.rt", self.root + "/crates/low/src/B.rt"
        os.rename(one, one + "x")
        os.rename(other, one)
        os.rename(one + "x", other)
        self.assertTrue(self.differs())

    def test_a_file_that_can_not_be_read_makes_a_difference(self):
        os.symlink("nothing", self.root + "/crates/low/src/link.rt")
        self.assertNotEqual(printed(self.root), self.sum)

    def test_a_crate_that_the_program_comes_to_stand_on_makes_a_difference(self):
        self.write("../crates.txt", CRATES.replace("sf: middle", "sf: middle apart"))
        first = printed(self.root)
        self.write("apart/src/lib.rt", "another text")
        self.assertNotEqual(printed(self.root), first)
        self.assertTrue(self.differs())
