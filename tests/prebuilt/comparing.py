"""What `comparison` finds, in clones made up for it."""
import gzip
import os
import shutil
import tempfile
import unittest

import packed

KIT = "kit-1 logic 12ab"
LINKER = "gcc 1, ld 2, libc.a 34cd"
PROGRAM, DYNAMIC = b"a program", b"what rt made"


def write(path, data):
    os.makedirs(os.path.dirname(path), exist_ok=True)
    with open(path, "wb") as file:
        file.write(data)
    os.chmod(path, 0o755)


class Comparison(unittest.TestCase):
    def setUp(self):
        self.root = tempfile.mkdtemp(prefix="sf prebuilt ")
        self.addCleanup(shutil.rmtree, self.root)
        self.built = self.root + "/crates/sf/out/sf"
        write(self.root + "/prebuilt/sf-x86_64-linux.gz", gzip.compress(PROGRAM))
        write(self.root + "/prebuilt/SUM", self.lines(PROGRAM))
        write(self.root + "/crates/sf/out/sf.dynamic", DYNAMIC)

    def lines(self, program, sources=0):
        sums = f"program {packed.sha256(program)}\ndynamic {packed.sha256(DYNAMIC)}\nsources {sources}\n"
        return f"{sums}kit {KIT}\nlinker {LINKER}\n".encode()

    def found(self, data, kit=KIT, linker=LINKER):
        if data is not None:
            write(self.built, data)
        return packed.comparison(self.root, self.built, kit, linker)

    def test_the_same_bytes_are_the_same(self):
        self.assertIsNone(self.found(PROGRAM))

    def test_each_other_program_differs(self):
        for data in (b"a pr0gram", PROGRAM + b"s", PROGRAM[:-1], b""):
            self.assertTrue(self.found(data)[0])

    def test_it_says_where_they_differ(self):
        self.assertTrue(self.found(b"a pr0gram")[1].endswith("differ at byte 4"))
        self.assertTrue(self.found(PROGRAM[:-1])[1].endswith("differ at byte 8"))

    def test_programs_of_two_kits_are_not_compared(self):
        for kit in ("kit-2 logic 12ab", None):
            self.assertFalse(self.found(b"another", kit)[0])

    def test_by_another_linker_what_rt_made_has_to_be_the_same(self):
        self.assertIsNone(self.found(PROGRAM, linker="rt"))
        self.assertEqual(self.found(b"another", linker="rt"),
                         (False, f"the prebuilt program was linked with {LINKER}, and the linker here is rt"))
        write(self.root + "/crates/sf/out/sf.dynamic", b"what another rt made")
        self.assertTrue(self.found(b"another", linker="rt")[0])
        os.remove(self.root + "/crates/sf/out/sf.dynamic")
        self.assertTrue(self.found(b"another", linker="rt")[0])

    def test_without_a_program_nothing_is_compared(self):
        self.assertFalse(self.found(None)[0])

    def test_what_was_unpacked_is_not_compared_with_itself(self):
        write(self.root + "/crates/sf/out/sf.began", b"")
        self.assertFalse(self.found(PROGRAM)[0])

    def test_what_the_launcher_has_built_of_these_sources_is_compared(self):
        write(self.root + "/crates/sf/out/sf.began", b"")
        self.note(PROGRAM)
        self.assertIsNone(self.found(PROGRAM))
        self.note(b"another")
        self.assertTrue(self.found(b"another")[0])
        self.assertFalse(self.found(PROGRAM)[0])
        self.note(b"another", sources=1)
        self.assertFalse(self.found(b"another")[0])

    def note(self, program, sources=0):
        write(self.root + "/crates/sf/out/SUM", self.lines(program, sources))

    def test_a_clone_without_a_prebuilt_program_is_a_fault(self):
        for name in ("SUM", "sf-x86_64-linux.gz"):
            os.remove(f"{self.root}/prebuilt/{name}")
            with self.assertRaises(OSError):
                self.found(PROGRAM)
            write(self.root + "/prebuilt/SUM", f"kit {KIT}\n".encode())
