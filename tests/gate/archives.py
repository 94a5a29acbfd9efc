"""The archive for C, over a kit that is made up: after `rt ci` it is built over the libraries that are there, and none is proved anew."""
import os
import shutil
import sys
import tempfile
import unittest
from unittest import mock

from made import ROOT, written

sys.path.insert(0, os.path.join(ROOT, "tests", "edits"))

import kit  # noqa: E402

RTLIB = """
import os
KIT = os.path.dirname(os.path.abspath(__file__))
RATTLE = KIT + "/rattle"


class Crate:
    name = "ffi"
    stamp = below = is_built = build_rlib = None

    def words(self, flags, keeps=True):
        return ["--crate-name", self.name, *flags, *["kept"] * keeps]


def crates_below(root):
    return [Crate()]


def guarded():
    return []
"""


class Archives(unittest.TestCase):
    def setUp(self):
        self.room = tempfile.mkdtemp(prefix="sf archive ")
        self.addCleanup(shutil.rmtree, self.room)
        self.bin = self.room + "/bin"
        for name in ("rt", "rattle"):
            written(f"{self.bin}/{name}", f"echo {name} \"$@\" >>'{self.room}/calls'")
        with open(self.bin + "/rtlib.py", "w", encoding="utf-8") as file:
            file.write(RTLIB)
        with open(self.room + "/crates.txt", "w", encoding="utf-8") as file:
            file.write("ffi staticlib:\n")
        os.makedirs(self.room + "/crates/ffi")

    def calls(self, **how):
        """How the kit was called for an archive, and the status."""
        with mock.patch.dict(os.environ, {"PATH": f"{self.bin}:/usr/bin:/bin"}):
            said = kit.chosen(self.room, self.room, **how).archive("ffi")
        with open(self.room + "/calls", encoding="utf-8") as file:
            return said.status, file.read().splitlines()

    def test_after_ci_no_library_is_proved_anew(self):
        status, (call,) = self.calls(after_ci=True)
        self.assertEqual(status, 0)
        self.assertRegex(call, r"^rattle build --crate-name ffi --jobs [12] --toolchain \S.*/toolchain --backend llvm -o out/libffi\.a$")

    def test_else_rt_proves_what_is_missing(self):
        self.assertEqual(self.calls(), (0, ["rt lib"]))

    def test_a_kit_of_other_parts_has_rt_prove_it(self):
        os.remove(self.bin + "/rtlib.py")
        self.assertEqual(self.calls(after_ci=True), (0, ["rt lib"]))

    def test_what_fails_has_a_status(self):
        written(self.bin + "/rattle", f"echo no >>'{self.room}/calls'; exit 3")
        self.assertEqual(self.calls(after_ci=True)[0], 3)
