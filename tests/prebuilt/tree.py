"""The prebuilt program of this clone."""
import os
import shutil
import struct
import subprocess
import tempfile
import unittest

import packed
from packed import ROOT


# The kinds of an ELF program's parts that are loaded, and that name a loader.
LOADED, LOADER = 1, 3


def ended(change, room, *words):
    """The status, output and error text of a command in another root, with no environment."""
    how = {"input": b"12,-7\n", "capture_output": True, "check": False, "timeout": packed.SECONDS}
    first = shutil.which(change[0]) or change[0]
    done = subprocess.run([first, *change[1:], room, *words], env={"PATH": os.environ["PATH"]}, **how)
    return done.returncode, done.stdout, done.stderr


class Prebuilt(unittest.TestCase):
    def test_its_sum_has_both_programs_the_sources_the_kit_and_the_linker(self):
        text, sum256 = packed.read(ROOT + "/prebuilt/SUM").decode(), "[0-9a-f]{64}"
        lines = rf"program {sum256}\ndynamic {sum256}\nsources {sum256}\nkit \S[^\n]*\nlinker \S[^\n]*\n"
        self.assertRegex(text, rf"\A{lines}\Z")

    def test_it_is_of_the_sources_that_stand_here(self):
        self.assertEqual(packed.sums(ROOT)["sources"], packed.sources(ROOT), "they were edited: make prebuilt")

    def test_it_is_the_program_of_its_sum(self):
        self.assertEqual(packed.sums(ROOT)["program"], packed.sha256(packed.program(ROOT)))

    def test_it_is_the_program_that_was_built_here(self):
        found = packed.comparison(ROOT, packed.built, packed.kit(), packed.linker())
        if found and not found[0]:
            self.skipTest(found[1])
        self.assertIsNone(found, found and found[1])

    def test_it_needs_no_library_of_the_system(self):
        """No part of it names a loader, which would bring the C library."""
        data = packed.program(ROOT)
        start, size, count = struct.unpack_from("<Q", data, 32)[0], *struct.unpack_from("<HH", data, 54)
        kinds = [struct.unpack_from("<I", data, start + at * size)[0] for at in range(count)]
        self.assertIn(LOADED, kinds)
        self.assertNotIn(LOADER, kinds)

    def test_it_runs_in_an_empty_root(self):
        change = ["chroot"] if os.geteuid() == 0 else ["unshare", "--map-root-user", "chroot"]
        with tempfile.TemporaryDirectory(prefix="sf empty root ") as room:
            shutil.copy("/bin/true", room)
            if not shutil.which(change[0]) or b"ermitted" in ended(change, room, "/true")[2]:
                self.skipTest("no root may be changed here")
            os.remove(room + "/true")
            with open(room + "/sf", "wb") as file:
                file.write(packed.program(ROOT))
            os.chmod(room + "/sf", 0o755)
            self.assertEqual(ended(change, room, "/sf", "scan", "--lines", "%d,%d"), (0, b"12 -7\n", b""))
            self.assertEqual(ended(change, room, "/sf", "print", "-p3", "%.3f", "2.5"), (0, b"2.500", b""))

    def test_no_other_file_lies_beside_it(self):
        names = {"COPYING.LIB", "README.dist", "README.library", "README.md", "SUM", "build", "finish", "link", "pack", "plan.awk", "sf-x86_64-linux.gz", "sum"}
        self.assertEqual(set(os.listdir(ROOT + "/prebuilt")), names)
