"""The launcher `sf` in clones made up for it that have a prebuilt program, and `./sf --prove`."""
import gzip
import os
import re
import shutil
import signal
import time

from launcher import CRATES, KIT, LINKED, OLDER, PROGRAM, Launcher, answer, read, write
from packed import sha256, sources

LINKER = f"gcc 1, ld 2, libc.a {sha256(b'a library')[:16]}"


def change_byte(path):
    with open(path, "r+b") as file:
        file.seek(os.path.getsize(path) // 2)
        byte = file.read(1)
        file.seek(-1, os.SEEK_CUR)
        file.write(bytes([byte[0] ^ 1]))


class Packed(Launcher):
    def pack(self, text, template=PROGRAM, **lines):
        """Packs a program of this text, as it is when it was linked."""
        made = template.replace("{text}", text)
        program = (made + LINKED).encode()
        with open(self.clone + "/prebuilt/sf-x86_64-linux.gz", "wb") as file:
            file.write(gzip.compress(program))
        sums = {"program": sha256(program), "dynamic": sha256(made.encode()), "sources": sources(self.clone)}
        lines = {**sums, "kit": KIT.strip(), "linker": LINKER, **lines}
        write(self.clone + "/prebuilt/SUM", "".join(f"{name} {value}\n" for name, value in lines.items()))

    def unbuild(self):
        shutil.rmtree(self.clone + "/crates/sf/out")


class Prebuilt(Packed):
    """With a prebuilt program of another text, so that it can't be taken for one that was built."""

    def setUp(self):
        super().setUp()
        self.pack("prebuilt")

    def test_it_is_taken_at_once_where_there_is_no_rt(self):
        self.without_rt()
        start = time.monotonic()
        self.assertEqual(self.expect("prebuilt", "scan", "%d  %d"), "")
        self.assertLess(time.monotonic() - start, 2)

    def test_it_is_what_build_makes_where_it_is_current(self):
        self.without_rt()
        self.assertEqual(self.expect_built("prebuilt"), "")

    def test_later_calls_look_at_times_alone(self):
        self.expect("prebuilt")
        for name in ("SUM", "sum", "build", "sf-x86_64-linux.gz"):
            os.remove(f"{self.clone}/prebuilt/{name}")
        self.expect("prebuilt")

    def test_a_terminal_is_shown_once_that_it_was_built_elsewhere(self):
        self.assertRegex(self.shown()[1], r"\Asf: [^\n]*elsewhere[^\n]*\./sf --prove[^\n]*\nan error text\r\n\Z")
        self.assertEqual(self.shown()[1], "an error text\r\n")

    def test_one_that_is_damaged_is_not_run(self):
        change_byte(self.clone + "/prebuilt/sf-x86_64-linux.gz")
        self.expect_fault(r"not built \(the prebuilt one is damaged\): make builds it")
        self.assertIn("here (the prebuilt one is damaged): 4 crates\n", self.build(1))
        self.assertEqual(self.expect("first", builds=1), "")
        self.unbuild()
        self.pack("prebuilt", program="0" * 64)
        self.expect_fault(r"not built \(the prebuilt one is damaged\): make builds it")

    def test_one_of_other_sources_is_older_than_its_source(self):
        edits = {"low/specs/Lib.antt": "more specs", "../crates.txt": CRATES.replace("middle other", "other middle")}
        for builds, (name, text) in enumerate(edits.items(), 1):
            with self.subTest(name):
                self.pack("prebuilt")
                self.edit(name, text)
                for _ in range(2):
                    self.expect_older("prebuilt", builds=builds - 1)
                self.assertIn("here (the prebuilt one is of other sources): 4 crates\n", self.build(builds))
                self.assertEqual(self.expect("first", builds=builds), "")
                self.unbuild()

    def test_a_changed_sum_of_sources_is_noticed(self):
        self.pack("prebuilt", sources="0" * 64)
        self.expect_older("prebuilt")
        self.assertIn("(the prebuilt one is of other sources): 4 crates\n", self.expect_built("first", builds=1))

    def test_a_file_that_is_added_removed_or_renamed_is_noticed(self):
        folder = self.clone + "/crates/low/proofs/"
        write(folder + "New.antt", "")
        self.expect_older("prebuilt")
        self.expect_built("first", builds=1)
        os.remove(folder + "New.antt")
        self.expect("prebuilt", builds=1)
        os.rename(folder + "part/Lib.antt", folder + "part/Other.antt")
        self.expect_older("prebuilt", builds=1)

    def test_what_the_program_is_not_made_of_may_change(self):
        for file in ("apart/src/lib.rt", "low/must-fail/some.edit", "../README.md", "low/out/made"):
            self.edit(file)
        self.assertEqual(self.expect("prebuilt"), "")

    def test_what_another_command_has_built_is_it_where_it_is_the_same(self):
        """As the merge gate builds it, which makes the folder anew: as it was linked, or as rt made it."""
        self.command("gzip", "#!/bin/sh\nexit 1\n")
        for more in (LINKED, ""):
            self.put("prebuilt", more)
            self.assertEqual(self.expect("prebuilt"), "")
        self.put("another")
        self.expect_fault("not built")

    def test_an_edit_while_the_sum_is_made_is_noticed(self):
        source = self.clone + "/crates/low/src/lib.rt"
        os.rename(self.clone + "/prebuilt/sum", self.clone + "/prebuilt/sum itself")
        write(self.clone + "/prebuilt/sum", f"#!/bin/sh\n\"$0 itself\" && printf second >'{source}'\n")
        os.chmod(self.clone + "/prebuilt/sum", 0o755)
        self.expect("prebuilt")
        os.rename(self.clone + "/prebuilt/sum itself", self.clone + "/prebuilt/sum")
        self.expect_older("prebuilt")
        self.expect_built("second", builds=1)

    def test_an_edit_makes_it_older_and_one_that_is_taken_back_does_not(self):
        self.expect("prebuilt")
        self.edit("low/src/lib.rt")
        self.expect_older("prebuilt")
        self.expect_built("second", builds=1)
        self.edit("low/src/lib.rt", "first")
        os.utime(self.clone + "/crates/low/src/lib.rt", (1e9, 1e9))
        self.assertEqual(self.expect("prebuilt", builds=1), "")
        self.edit("low/src/lib.rt")
        self.expect_older("prebuilt", builds=1)
        self.edit("low/src/lib.rt", "first")
        os.remove(self.clone + "/prebuilt/sf-x86_64-linux.gz")
        self.assertEqual(self.expect("prebuilt", builds=1), "")

    def test_times_and_modes_may_change(self):
        """As those of a checkout may, in any way."""
        self.expect("prebuilt")
        self.without_rt()
        for when in (1, time.time() + 1000, 1e9):
            for at, _, names in os.walk(self.clone + "/crates/low"):
                for name in names:
                    os.utime(os.path.join(at, name), (when, when))
                    os.chmod(os.path.join(at, name), 0o600 if when == 1 else 0o755)
            self.assertEqual(self.expect("prebuilt"), "")

    def test_a_program_that_was_built_here_stays_where_only_times_change(self):
        self.call("--prove")
        self.expect("first", builds=1)
        self.edit("low/src/lib.rt", "first")
        self.assertEqual(self.expect("first", builds=1), "")

    def test_what_hinders_is_said_and_build_builds(self):
        hindered = {
            "uname": ("echo Linux aarch64", "is for Linux on x86_64"),
            "gzip": ("exit 1", "is damaged"),
            "sha256sum": ("exit 127", "can't be checked without sha256sum"),
        }
        for builds, (name, (text, why)) in enumerate(hindered.items(), 1):
            with self.subTest(name):
                self.command(name, f"#!/bin/sh\n{text}\n")
                self.expect_fault(rf"not built \(the prebuilt one {why}\): make builds it")
                self.assertIn(f"the program here (the prebuilt one {why}): 4 crates", self.expect_built("first", builds=builds))
                self.unbuild()
                self.take_back(name)
        self.expect("prebuilt", builds=3)

    def test_without_gzip_it_is_built_or_that_is_said(self):
        self.only_tools("gzip")
        self.assertIn("(the prebuilt one can't be unpacked without gzip): 4 crates", self.expect_built("first", builds=1))
        self.unbuild()
        self.take_back("rt")
        self.assertEqual(self.expect_fault("without gzip").count("\n"), 1)
        self.assertEqual(self.expect_fault(r"without gzip[^\n]*\brt\b", "--build").count("\n"), 1)

    def test_without_sha256sum_and_rt_that_is_said(self):
        self.take_back("rt")
        self.only_tools("sha256sum")
        self.assertEqual(self.expect_fault("without sha256sum").count("\n"), 1)
        self.assertEqual(self.expect_fault(r"without sha256sum[^\n]*\brt\b", "--build").count("\n"), 1)

    def test_a_program_that_does_not_run_here_is_not_taken(self):
        self.pack("prebuilt", template="#!/no/such/interpreter\n")
        self.expect_fault(r"not built \(the prebuilt one doesn't run here\): make builds it")
        self.assertIn("(the prebuilt one doesn't run here): 4 crates", self.expect_built("first", builds=1))

    def test_what_a_processor_lacks_is_said_in_one_line(self):
        lacks = "this machine lacks a feature of x86-64-v2, which this program was built for"
        self.pack("prebuilt", template=f"#!/bin/sh\necho '{lacks}' >&2\nexit 1\n")
        said = self.expect_fault(rf"the program is not built \(the prebuilt one doesn't run here: {lacks}\): make builds it")
        self.assertEqual(said.count("\n"), 1)

    def test_an_interrupted_unpacking_leaves_nothing(self):
        self.command("gzip", f"#!/bin/sh\nhead -c 20 \"$2\"\n>'{self.bin}/unpacks'\nexec sleep 2\n")
        running = self.started()
        self.wait_for(lambda: os.path.exists(self.bin + "/unpacks"), "it isn't unpacked")
        running.terminate()
        self.assertEqual(self.ended(running)[:2], (143, ""))
        self.assertEqual(os.listdir(self.clone + "/crates/sf/out"), [])
        self.take_back("gzip")
        self.expect("prebuilt")

    def test_calls_at_once_all_run_it(self):
        """One of them puts it in its place; others don't wait, and unpack it for themselves."""
        self.command("gzip", f"#!/bin/sh\nsleep 0.3\nexec {shutil.which('gzip')} \"$@\"\n")
        running = [self.started(str(it)) for it in range(4)]
        for at, it in enumerate(running):
            self.assertEqual(self.ended(it), (3, answer("prebuilt", str(at)), "an error text\n"))
        self.expect_nothing_left()

    def test_in_a_folder_that_cannot_be_written_it_runs_too(self):
        self.without_rt()
        how = self.closed()
        for word in ("a", "b"):
            self.assertEqual(self.expect("prebuilt", word, **how), "")
        self.assertFalse(os.path.exists(self.clone + "/crates/sf/out"))

    def test_in_a_folder_that_cannot_be_written_one_of_other_sources_is_older(self):
        self.edit("low/src/lib.rt")
        said = self.expect("prebuilt", **self.closed())
        self.assertRegex(said, r"\Asf: this program is older than its source, and [^\n]*can't be written\n\Z")

    def test_in_a_folder_that_cannot_be_written_what_hinders_is_said(self):
        change_byte(self.clone + "/prebuilt/sf-x86_64-linux.gz")
        why = r"\(the prebuilt one is damaged\), and [^\n]*can't be written"
        self.expect_fault("not built " + why, **self.closed())

    def test_in_a_folder_that_cannot_be_written_it_is_better_than_one_that_is_older(self):
        self.edit("low/src/lib.rt")
        self.expect_built("second", builds=1)
        self.edit("low/src/lib.rt", "first")
        self.assertEqual(self.expect("prebuilt", builds=1, **self.closed()), "")

    def test_during_a_build_it_is_run(self):
        self.edit("low/src/lib.rt")
        self.say("endless", "low")
        building = self.started("--build")
        self.endless("low")
        status, out, err = self.call("a")
        self.assertEqual((status, out), (3, answer("prebuilt", "a")))
        self.assertEqual(err, "sf: this program is older than its source, and another call builds it\nan error text\n")
        building.send_signal(signal.SIGTERM)
        self.ended(building)
        self.expect_nothing_left()


class Proved(Packed):
    """`./sf --prove`, where the prebuilt program is the one that is built here."""

    def setUp(self):
        super().setUp()
        self.pack("first")

    def expect_result(self, status, pattern):
        ended, out, _ = self.call("--prove")
        self.assertEqual(ended, status)
        self.assertRegex(out, rf"\Asf: proved and built here with kit-1 logic 12ab[;,] [^\n]*{pattern}[^\n]*\n\Z")
        self.expect_nothing_left()

    def test_it_builds_and_finds_the_prebuilt_program_the_same(self):
        self.expect_result(0, "the same, byte for byte")
        self.expect("first", builds=1)

    def test_it_builds_also_where_the_prebuilt_program_was_taken(self):
        self.expect("first", builds=0)
        self.expect_result(0, "the same, byte for byte")
        self.assertEqual(self.builds(), 1)

    def test_a_difference_is_a_fault_and_the_program_that_was_built_here_runs(self):
        self.pack("another")
        self.expect_result(1, "differs")
        self.expect("first", builds=1)

    def test_by_another_linker_what_rt_made_is_compared(self):
        theirs = "gcc 0, ld 1, libc.a 56ef"
        made = PROGRAM.replace("{text}", "first") + "# linked by another\n"
        self.pack("first", linker=theirs)
        self.repack(made)
        self.expect_result(0, f"linked with {theirs}, and this one with {LINKER}: what rt made is the same")
        self.pack("another", linker=theirs)
        self.expect_result(1, "differs")
        self.pack("first")
        self.repack(made)
        self.expect_result(1, "differs")

    def repack(self, program):
        """Packs another program in place of the one that is packed, which stays what rt made of it."""
        with open(self.clone + "/prebuilt/sf-x86_64-linux.gz", "wb") as file:
            file.write(gzip.compress(program.encode()))
        text = read(self.clone + "/prebuilt/SUM")
        write(self.clone + "/prebuilt/SUM", re.sub("^program .*", f"program {sha256(program.encode())}", text))

    def test_a_damaged_prebuilt_program_is_a_fault(self):
        change_byte(self.clone + "/prebuilt/sf-x86_64-linux.gz")
        self.expect_result(1, "the prebuilt one is damaged")

    def test_without_gzip_or_sha256sum_the_fault_is_that_it_cannot_be_compared(self):
        for name in ("gzip", "sha256sum"):
            with self.subTest(name):
                self.only_tools(name)
                self.expect_result(1, f"can't be [a-z]+ without {name}")
                shutil.rmtree(self.room + "/tools")

    def test_programs_of_two_kits_are_not_compared(self):
        self.pack("another", kit="kit-0 logic 00aa")
        self.expect_result(0, "was built with kit-0 logic 00aa, so that bytes are not compared")

    def test_programs_of_other_sources_are_not_compared(self):
        self.edit("low/src/lib.rt")
        self.expect_result(0, "is of other sources, so that bytes are not compared")
        self.expect("second", builds=1)

    def test_without_a_prebuilt_program_it_only_builds(self):
        os.remove(self.clone + "/prebuilt/SUM")
        self.expect_result(0, "there is no prebuilt program")

    def test_an_edit_during_the_build_is_a_fault(self):
        self.say("slow", "0.4")
        running = self.started("--prove")
        self.wait_for(self.calls, "no build began")
        self.edit("low/specs/Lib.antt")
        status, out, _ = self.ended(running)
        self.assertEqual((status, out.count("the sources have changed meanwhile")), (1, 1))
        self.expect_older("first", builds=1)
        self.expect_built("first", builds=2)

    def test_a_failing_build_is_a_fault(self):
        self.say("fails", "low")
        self.expect_fault("could not be built: low failed", "--prove")

    def test_without_rt_it_says_so(self):
        self.without_rt()
        self.expect_fault(r"\brt\b", "--prove")

    def test_it_is_a_word_of_the_launcher_only_alone(self):
        for words in (("--prove", "a"), ("a", "--prove"), ("--proved",), ()):
            self.expect("first", *words, builds=0)
