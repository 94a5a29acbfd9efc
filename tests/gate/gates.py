"""./test --prove, over clones that are made up: what is cheap comes first, and nothing may be passed over."""
import os
import subprocess

from made import ROOT, SECONDS, Clone, written

ALL = "54 passed, 0 failed, 0 skipped"
SAME = "The program that was proved and built here is the prebuilt one, byte for byte: its tests have run, and count once."


class Gate(Clone):
    def proofs(self):
        """The calls of rt that prove."""
        return [it for it in self.calls("rt") if it != "version"]

    def test_all_is_run_and_proved(self):
        lines = self.expect(0, ALL, "--prove")
        self.assertIn(SAME, lines)
        self.assertEqual((self.proofs(), self.calls("sf"), self.calls("refusals")), (["ci"], [], [""]))
        self.assertEqual(self.calls("edits"), ["--list", "--after-ci --kept"])
        self.assertEqual([it.split(" --sf")[0] for it in self.calls("bench")], ["--rows sf", "--rows libraries"])
        self.assertEqual((self.calls("c"), self.calls("python")), (["--after-ci"], [""]))

    def test_the_program_that_was_built_is_linked_and_noted_as_the_launcher_does(self):
        self.expect(0, ALL, "--prove")
        self.assertEqual(self.calls("finish"), ["12ab"])

    def test_a_program_that_can_not_be_linked_is_a_failure(self):
        written(self.clone + "/prebuilt/finish", "exit 1")
        lines = self.expect(1, "54 passed, 1 failed, 0 skipped", "--prove")
        self.assertIn("  prebuilt/finish: crates/sf/out/sf could not be linked", lines)

    def test_an_object_that_an_earlier_build_left_is_not_linked(self):
        os.makedirs(self.clone + "/crates/sf/out")
        self.write("crates/sf/out/sf.o", b"an old object")
        self.expect(0, ALL, "--prove")
        self.assertFalse(os.path.exists(self.clone + "/crates/sf/out/sf.o"))

    def test_each_wrong_body_is_tried_where_that_is_asked_for(self):
        self.expect(0, ALL, "--prove", "--all")
        self.assertEqual(self.calls("edits"), ["--list", "--after-ci"])

    def test_what_ran_over_the_same_program_runs_once(self):
        self.expect(0, ALL, "--prove")
        self.assertEqual(len(self.calls("program")), 1)

    def test_what_wants_the_program_that_rt_made_runs_over_what_was_built(self):
        self.expect(0, ALL, "--prove")
        first, second = self.calls("hostile")
        self.assertTrue(first.endswith("/sf --but refusals: "), first)
        self.assertEqual(second, "--only refusals:  --sf crates/sf/out/sf")
        os.remove(self.room + "/calls")
        self.rt("another program")
        self.ran("--prove")
        self.assertEqual(self.calls("hostile")[1], "--sf crates/sf/out/sf")

    def test_what_ran_over_another_program_runs_again_and_counts_once(self):
        self.rt("another program")
        lines = self.expect(0, "51 passed, 0 failed, 0 skipped", "--prove")
        self.assertNotIn(SAME, lines)
        first, second = self.calls("program")
        self.assertNotEqual(first, second)
        self.assertEqual(second, "--sf crates/sf/out/sf")

    def test_a_failure_that_is_cheap_to_see_ends_it_before_the_proofs(self):
        for name in ("layout", "library", "gate", "prebuilt", "program", "cookbook", "bench", "edits"):
            with self.subTest(name):
                self.says(name, "not so: a page", "2 passed, 1 failed", status=1)
                status, lines = self.ran("--prove")
                self.assertEqual((status, self.proofs()), (1, []))
                self.assertIn("Nothing was proved, since something failed that is cheap to see (--keep-going goes on).", lines)
                self.assertRegex(lines[-1], r"^\d+ passed, 1 failed, 0 skipped$")
                self.says(name, "3 passed, 0 failed")

    def test_texts_that_fail_end_it_before_the_program_is_tested(self):
        self.says("library", "not so: a page", "2 passed, 1 failed", status=1)
        self.assertEqual((self.ran("--prove")[0], self.calls("program"), self.calls("edits")), (1, [], ["--list"]))

    def test_a_row_that_may_not_be_passed_over_ends_it_too(self):
        self.says("program", "passed over: a row: it is late", "2 passed, 0 failed, 1 skipped")
        status, lines = self.ran("--prove")
        self.assertEqual((status, self.proofs(), lines[-1].split(", ")[1:]), (1, [], ["1 failed", "1 skipped"]))

    def test_it_goes_on_where_that_is_asked_for_and_forgets_no_failure(self):
        self.says("library", "2 passed, 1 failed", status=1)
        self.expect(1, "53 passed, 1 failed, 0 skipped", "--prove", "--keep-going")
        self.assertEqual(self.proofs(), ["ci"])

    def test_a_prebuilt_program_of_other_sources_ends_it_before_the_proofs(self):
        written(self.clone + "/prebuilt/sum", "echo 34cd")
        status, _ = self.ran("--prove")
        self.assertEqual((status, self.proofs(), self.calls("program")), (1, [], []))
        self.assertEqual(self.ran("--prove", "--keep-going")[0], 1)
        self.assertEqual((self.proofs(), self.calls("program")), (["ci"], ["--sf crates/sf/out/sf"]))

    def test_a_prebuilt_program_that_is_damaged_or_gone_ends_it_too(self):
        self.write("prebuilt/sf-x86_64-linux.gz", b"no archive")
        self.assertEqual((self.ran("--prove")[0], self.proofs()), (1, []))
        for name in ("sf-x86_64-linux.gz", "SUM"):
            os.remove(f"{self.clone}/prebuilt/{name}")
            self.assertEqual((self.ran("--prove")[0], self.proofs()), (1, []))

    def test_a_test_that_is_gone_has_failed(self):
        os.remove(self.clone + "/tests/library/run")
        self.assertEqual((self.ran("--prove")[0], self.proofs()), (1, []))

    def test_a_sum_that_can_not_be_made_is_of_no_sources(self):
        written(self.clone + "/prebuilt/sum", "exit 1")
        self.write("prebuilt/SUM", b"sources \n")
        self.assertEqual((self.ran("--prove")[0], self.proofs()), (1, []))

    def test_proofs_that_fail_are_a_failure(self):
        self.rt("another program", last="4 passed, 1 failed")
        self.expect(1, "50 passed, 1 failed, 0 skipped", "--prove")

    def test_a_program_that_is_not_built_is_a_failure(self):
        written(self.bin + "/rt", "echo '5 passed, 0 failed'")
        self.assertEqual(self.ran("--prove")[0], 1)

    def test_nothing_may_be_passed_over(self):
        for why in ("there is no valgrind", "there is no rt", "it is late", "there is no fish, no valgrind",
                    "the prebuilt program was built with a kit, and the kit here is none",
                    "the page is of glibc 2.36, and here is glibc 2.36"):
            with self.subTest(why):
                self.says("program", f"passed over: a row: {why}", "2 passed, 0 failed, 1 skipped")
                lines = self.expect(1, "53 passed, 1 failed, 1 skipped", "--prove", "--keep-going")
                self.assertIn(f"  tests/program: the gate may not pass over a row: {why}", lines)

    def test_what_no_base_has_and_what_the_machine_forbids_may_be_and_is_counted(self):
        for why in ("there is no fish", "there is no mlr, no parallel", "no disk may be mounted here", "their proofs cite what they rename",
                    "the prebuilt program was built with kit-1 logic 12ab, and the kit here is kit-2 logic 34cd",
                    "the prebuilt program was linked with gcc 1, libc.a 12ab, and the linker here is rt",
                    "the page is of glibc 2.36 and musl 1.2.3, and here is glibc 2.41 and musl 1.2.3"):
            with self.subTest(why):
                self.says("refusals", f"passed over: a row: {why}", "2 passed, 0 failed, 1 skipped")
                lines = self.expect(0, "53 passed, 0 failed, 1 skipped", "--prove")
                self.assertTrue(any(line.startswith(f"  tests/refusals, a row: {why}") for line in lines))

    def test_ci_runs_the_gate(self):
        os.mkdir(self.clone + "/.ci")
        with open(ROOT + "/.ci/run", encoding="utf-8") as file:
            written(self.clone + "/.ci/run", file.read())
        written(self.clone + "/test", f"{self.noting('test')}\nexit 7")
        done = subprocess.run(["/bin/sh", self.clone + "/.ci/run"], cwd="/", timeout=SECONDS, check=False)
        self.assertEqual((done.returncode, self.calls("test")), (7, ["--prove"]))
