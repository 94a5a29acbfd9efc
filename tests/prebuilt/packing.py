"""prebuilt/pack, which `make prebuilt` calls, in clones made up for it."""
import gzip
import os
import re
import shutil
import subprocess

from launcher import LINKED, PROGRAM, SECONDS, read, write
from launching import Packed


class Packing(Packed):
    def packs(self):
        how = {"env": {"PATH": self.path, "TMPDIR": self.temporary}, "capture_output": True, "timeout": SECONDS}
        done = subprocess.run([self.clone + "/prebuilt/pack"], check=False, **how)
        names = {"build", "finish", "link", "pack", "plan.awk", "sum", "SUM", "sf-x86_64-linux.gz"}
        self.assertLessEqual(set(os.listdir(self.clone + "/prebuilt")), names)
        return done.returncode

    def packed(self):
        with open(self.clone + "/prebuilt/sf-x86_64-linux.gz", "rb") as file:
            return gzip.decompress(file.read()).decode()

    def given_back(self, text=None):
        """Finishes what `rt ci` gives back of an earlier run: the program as rt linked it, without its object. Answers what it says."""
        out = self.clone + "/crates/sf/out"
        os.replace(out + "/sf.dynamic", out + "/sf")
        for name in ("sf.o", "SUM"):
            os.remove(f"{out}/{name}")
        if text:
            write(out + "/sf", text)
        how = {"env": {"PATH": self.path, "TMPDIR": self.temporary}, "capture_output": True, "timeout": SECONDS}
        done = subprocess.run([self.clone + "/prebuilt/finish", "12ab"], check=True, **how)
        return done.stderr.decode()

    def test_what_rt_gives_back_without_its_object_is_taken_as_it_was_packed(self):
        self.assertEqual(self.packs(), 0)
        self.assertEqual(self.given_back(), "")
        self.assertEqual(read(self.clone + "/crates/sf/out/sf"), self.packed())
        noted = re.sub("(?m)^sources .*", "sources 12ab", read(self.clone + "/prebuilt/SUM"))
        self.assertEqual(read(self.clone + "/crates/sf/out/SUM"), noted)

    def test_what_rt_gives_back_and_is_not_what_was_packed_stays_as_it_is(self):
        self.assertEqual(self.packs(), 0)
        self.assertIn("rt kept the program without its object", self.given_back("another program"))
        self.assertEqual(read(self.clone + "/crates/sf/out/sf"), "another program")
        self.assertIn("linker rt\n", read(self.clone + "/crates/sf/out/SUM"))

    def test_it_packs_what_is_built_here_and_the_launcher_takes_it(self):
        self.assertEqual(self.packs(), 0)
        self.assertEqual(self.builds(), 1)
        self.assertEqual(self.packed(), PROGRAM.replace("{text}", "first") + LINKED)
        names = re.findall(r"(?m)^([a-z]+) ", read(self.clone + "/prebuilt/SUM"))
        self.assertEqual(names, ["program", "dynamic", "sources", "kit", "linker"])
        shutil.rmtree(self.clone + "/crates/sf/out")
        self.without_rt()
        self.expect("first", builds=1)

    def test_it_only_packs_what_is_current(self):
        self.build(1)
        self.assertEqual((self.packs(), self.builds()), (0, 1))
        first = os.stat(self.clone + "/prebuilt/sf-x86_64-linux.gz").st_ino
        with open(self.clone + "/prebuilt/sf-x86_64-linux.gz", "rb") as file:
            before = file.read()
        self.assertEqual((self.packs(), self.builds()), (0, 1))
        with open(self.clone + "/prebuilt/sf-x86_64-linux.gz", "rb") as file:
            self.assertEqual(file.read(), before)
        self.assertNotEqual(os.stat(self.clone + "/prebuilt/sf-x86_64-linux.gz").st_ino, first)

    def test_what_was_unpacked_or_is_older_than_an_edit_is_built_first(self):
        self.pack("another")
        self.expect("another", builds=0)
        self.assertEqual((self.packs(), self.builds()), (0, 1))
        self.assertIn("made of first,", self.packed())
        self.edit("low/src/lib.rt")
        self.assertEqual((self.packs(), self.builds()), (0, 2))
        self.assertIn("made of second,", self.packed())

    def test_what_another_kit_built_is_built_anew(self):
        self.build(1)
        self.say("kit", "kit-2 logic 34cd\n")
        self.assertEqual((self.packs(), self.builds()), (0, 2))
        self.assertIn("kit kit-2 logic 34cd\n", read(self.clone + "/prebuilt/SUM"))

    def test_where_the_build_fails_nothing_is_packed(self):
        self.pack("another")
        before = read(self.clone + "/prebuilt/SUM")
        self.say("fails", "low")
        self.assertEqual(self.packs(), 1)
        self.assertEqual(read(self.clone + "/prebuilt/SUM"), before)
        self.assertIn("made of another,", self.packed())

    def test_where_the_build_after_an_edit_fails_nothing_old_is_packed(self):
        self.assertEqual(self.packs(), 0)
        before = read(self.clone + "/prebuilt/SUM")
        os.remove(self.clone + "/prebuilt/sf-x86_64-linux.gz")
        self.edit("low/src/lib.rt")
        self.say("fails", "low")
        self.assertEqual(self.packs(), 1)
        self.assertEqual(read(self.clone + "/prebuilt/SUM"), before)
        self.assertFalse(os.path.exists(self.clone + "/prebuilt/sf-x86_64-linux.gz"))

    def test_what_is_not_linked_statically_is_not_packed(self):
        self.pack("another")
        self.only_tools()
        self.take_back("libc.a")
        self.assertEqual(self.packs(), 1)
        self.assertIn("made of another,", self.packed())

    def test_what_another_linker_linked_is_built_anew(self):
        self.build(1)
        self.say("libc.a", "another library")
        self.assertEqual((self.packs(), self.builds()), (0, 2))
