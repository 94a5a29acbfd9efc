"""What the gate needs of the machine, with tools and an apt-get that are made up."""
import contextlib
import io
import os
import shutil
from unittest import mock

import needs
from made import Clone, written

# An apt-get that finds packages once its lists were fetched.
APT = """echo "$@" >>'{room}/apt'
case "$*" in
    *update*) touch '{room}/lists' ;;
    *install*) [ -e '{room}/lists' ] || exit 100; {then} ;;
esac"""


class Machine(Clone):
    def apt(self, then):
        written(self.bin + "/apt-get", APT.format(room=self.room, then=then))

    def brings(self, tool):
        return f"cp '{self.bin}/rt' '{self.bin}/{tool}'"

    def asked(self):
        """What apt-get was asked for, without its options."""
        if not os.path.exists(self.room + "/apt"):
            return []
        with open(self.room + "/apt", encoding="utf-8") as file:
            return [" ".join(it for it in line.split() if not it.startswith(("-", "DPkg"))) for line in file]

    def provided(self, is_root):
        """Whether all was provided, and what was said."""
        said = io.StringIO()
        with mock.patch.dict(os.environ, {"PATH": self.bin}), contextlib.redirect_stdout(said):
            return needs.provided(is_root), said.getvalue()

    def test_where_nothing_is_missing_nothing_is_installed(self):
        self.apt("exit 0")
        self.assertEqual((self.provided(is_root=True), self.asked()), ((True, ""), []))

    def test_root_installs_what_is_missing_and_fetches_empty_lists_first(self):
        self.without("valgrind")
        self.apt(self.brings("valgrind"))
        self.assertTrue(self.provided(is_root=True)[0])
        self.assertEqual(self.asked(), ["install valgrind", "update", "install valgrind"])

    def test_lists_that_are_there_are_not_fetched(self):
        self.without("gcc", "cc")
        written(self.room + "/lists", "")
        self.apt(f"{self.brings('gcc')}; {self.brings('cc')}")
        self.assertTrue(self.provided(is_root=True)[0])
        self.assertEqual(self.asked(), ["install gcc libc6-dev"])

    def test_what_only_some_rows_need_is_installed_or_else_left_out(self):
        self.without("fish", "mlr")
        self.apt(self.brings("fish"))
        self.assertTrue(self.provided(is_root=True)[0])
        self.assertEqual(self.asked()[0], "install fish miller")
        self.without("fish")
        self.apt("exit 100")
        self.assertTrue(self.provided(is_root=True)[0])

    def test_who_is_not_root_is_told_the_packages(self):
        self.without("valgrind", "gzip")
        self.apt("exit 0")
        said = "The gate needs valgrind, gzip: apt-get install valgrind gzip\n"
        self.assertEqual((self.provided(is_root=False), self.asked()), ((False, said), []))

    def test_root_is_told_them_where_apt_get_brings_nothing(self):
        self.without("valgrind")
        self.apt("exit 100")
        is_there, said = self.provided(is_root=True)
        self.assertFalse(is_there)
        self.assertTrue(said.endswith("The gate needs valgrind: apt-get install valgrind\n"), said)

    def test_the_kit_can_not_be_installed(self):
        self.without("rt", "valgrind")
        self.apt("exit 0")
        is_there, said = self.provided(is_root=True)
        self.assertEqual((is_there, self.asked()), (False, []))
        self.assertIn("the Rattle kit", said)

    def test_each_tool_is_asked_for(self):
        for tool in needs.NEEDED:
            shutil.move(f"{self.bin}/{tool}", self.room + "/away")
            is_there, said = self.provided(is_root=False)
            self.assertEqual((is_there, tool in said), (False, True))
            shutil.move(self.room + "/away", f"{self.bin}/{tool}")

    def test_the_gate_ends_at_once(self):
        """Without apt-get nobody may install, be it root."""
        self.without("valgrind")
        lines = self.expect(1, "0 passed, 1 failed, 0 skipped", "--prove")
        self.assertIn("The gate needs valgrind: apt-get install valgrind", lines)
        self.assertIn("Nothing was tested and nothing proved.", lines)
        self.assertEqual([self.calls(name) for name in ("rt", "layout", "program", "edits")], [[], [], [], []])
