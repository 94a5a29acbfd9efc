"""./test, over clones that are made up: what it runs, and how it counts what is passed over."""
from made import Clone

# What passes in a clone as it is made: three rows of each test, but of tests/refusals, and twice of tests/bench and the like.
ALL = "33 passed, 0 failed, 2 skipped"


class People(Clone):
    def test_all_that_is_there_is_run_and_nothing_is_proved(self):
        lines = self.expect(0, ALL)
        self.assertIn("Nothing was proved: ./test --prove is the gate.", lines)
        self.assertEqual((self.calls("rt"), self.calls("refusals"), self.calls("sf")), ([], [], ["--version"]))
        self.assertEqual(self.calls("edits"), ["--list"])
        self.assertEqual(self.calls("bench"), ["--rows sf --sf crates/sf/out/sf"])
        self.assertEqual(self.calls("program"), ["--sf crates/sf/out/sf"])
        self.assertEqual(self.calls("c"), [""])

    def test_it_needs_none_of_the_tools(self):
        self.without("rt", "gcc", "cc", "git", "make", "valgrind", "gzip")
        self.expect(0, ALL)

    def test_what_only_the_gate_builds_is_skipped(self):
        lines = self.expect(0, ALL)
        for name in ("tests/refusals, the calls of the libraries", "tests/bench of the libraries, their instructions"):
            self.assertIn(f"  {name}: only ./test --prove builds what they run", lines)

    def test_a_row_that_is_passed_over_is_counted_as_skipped(self):
        self.says("program", "passed over: a row: there is no valgrind", "2 passed, 0 failed, 1 skipped")
        lines = self.expect(0, "32 passed, 0 failed, 3 skipped")
        self.assertIn("  tests/program, a row: there is no valgrind (Debian: valgrind)", lines)

    def test_several_rows_can_have_one_line(self):
        self.says("layout", "passed over: 9 crates, by rt fmt: there is no rt", "2 passed, 0 failed, 9 skipped")
        lines = self.expect(0, "32 passed, 0 failed, 11 skipped")
        self.assertIn("  tests/layout, 9 crates, by rt fmt: there is no rt (the Rattle kit, with its rt in the path)", lines)

    def test_rows_of_one_reason_are_said_once(self):
        rows = [f"passed over: row {it}: there is no make or no gzip" for it in "abc"]
        self.says("program", *rows, "2 passed, 0 failed, 3 skipped")
        lines = self.expect(0, "32 passed, 0 failed, 5 skipped")
        self.assertIn("  tests/program, 3 rows: there is no make or no gzip (Debian: make gzip)", lines)

    def test_a_test_of_which_all_is_passed_over_passes_nothing(self):
        self.says("program", "passed over: all: there is no valgrind", "0 passed, 0 failed, 1 skipped")
        self.expect(0, "30 passed, 0 failed, 3 skipped")

    def test_a_test_that_ends_without_counts_has_failed(self):
        for last in ("all is well", "3 passed", "3 passed, 0 failed, and more", ""):
            with self.subTest(last):
                self.says("program", last)
                self.expect(1, "30 passed, 1 failed, 2 skipped")

    def test_rows_that_are_skipped_without_a_reason_have_failed(self):
        self.says("program", "3 passed, 0 failed, 1 skipped")
        self.expect(1, "33 passed, 1 failed, 3 skipped")
        self.says("program", "passed over: a row: there is no fish", "3 passed, 0 failed")
        self.expect(1, "33 passed, 1 failed, 2 skipped")

    def test_a_test_of_nothing_has_failed(self):
        self.says("program", "0 passed, 0 failed")
        self.expect(1, "30 passed, 1 failed, 2 skipped")

    def test_a_status_that_the_counts_do_not_explain_is_a_failure(self):
        self.says("program", "3 passed, 0 failed", status=3)
        self.expect(1, "33 passed, 1 failed, 2 skipped")

    def test_what_failed_is_said_at_the_end(self):
        self.says("program", "FAIL: a row", "2 passed, 1 failed", status=1)
        lines = self.expect(1, "32 passed, 1 failed, 2 skipped")
        self.assertIn("  tests/program: FAIL: a row", lines[lines.index("What failed:"):])

    def failures(self, name, *said):
        """What the report shows as failed, where a test says this, of which some row has failed."""
        self.says(name, *said, "2 passed, 1 failed", status=1)
        lines = self.expect(1, "32 passed, 1 failed, 2 skipped")
        begun = f"  tests/{name}"
        listed = lines[lines.index("What failed:") + 1 : lines.index("What was passed over:")]
        self.assertTrue(all(it.startswith(begun) for it in listed), listed)
        return [it.removeprefix(begun).partition(": ")[2] for it in listed]

    def test_wrong_bodies_that_are_refused_hide_none_that_is_not(self):
        why = "sf_low::one: no proof: expected answers a, b; `search` did not prove `returns`"
        refused = [f"sf_low/lib.one.as_{it}: refused: {why}" for it in range(60)]
        refused += [f"sf/lib.two.alone: refused: alone: {why}", "sf/lib.three: refused: fn sf::three: not proved"]
        failed = ["sf_low/lib.one.same: NOT REFUSED: the crate is still proved with this edit",
                  "sf_low/lib.two.same: NOT REFUSED by laws::two: logic=proved",
                  "sf_low/lib.one.gone: BAD EDIT: its text stands 0 times in src/lib.rt",
                  "the runner itself: lib.one: wanted low::one.., found: NOT REFUSED"]
        self.assertEqual(self.failures("edits", *refused, *failed), failed)

    def test_wrong_bodies_that_show_nothing_are_no_failures(self):
        said = ["sf_low/lib.one.named: BAD EDIT: its proof cites what the edit renamed: no proof: src/lib.rt",
                "sf_low/lib.one.doubled: BAD EDIT: it is not clear whether a clause fails: not proved"]
        failed = "sf_low/lib.one.same: NOT REFUSED: fn sf_low::one: proved"
        self.assertEqual(self.failures("edits", *said, failed), [failed])

    def test_of_a_crate_that_is_not_proved_all_is_shown_that_is_said(self):
        said = ["the crate as it stands is not proved:", "src/lib.rt:3:4: it is not known that", "note: by which it follows"]
        others = ["sf_low/lib.one: ", "== sf: 1 of 1 refused, 2 checks", "   1.0 s sf::two", "sf/lib.two: refused: no proof: a"]
        self.assertEqual(self.failures("edits", "== sf_low: 0 of 1 refused, 1 checks", *said, *others), said)
        self.assertEqual(self.failures("edits", *said, *others[1:]), said)

    def test_without_a_program_nothing_is_tested_with_it(self):
        self.launcher("exit 1")
        lines = self.expect(1, "21 passed, 1 failed, 6 skipped")
        self.assertIn("  tests/program, all of it: the program could not be made", lines)
        self.assertEqual((self.calls("program"), self.calls("layout")), ([], [""]))

    def test_the_gates_words_are_refused_without_it(self):
        for word in ("--all", "--keep-going", "--quick"):
            self.assertEqual(self.ran(word)[0], 2)
        self.assertEqual(self.calls("layout"), [])
