"""`make install`, `make uninstall`, `make dist` and `make library`."""
import gzip
import io
import os
import shutil
import subprocess
import tarfile
import tempfile
import unittest

import program

FILES = {
    "bin/sf": 0o755,
    "share/man/man1/sf.1": 0o644,
    "share/bash-completion/completions/sf": 0o644,
    "share/zsh/site-functions/_sf": 0o644,
    "share/fish/vendor_completions.d/sf.fish": 0o644,
}

# The variables of the Makefile that name a folder, and how the file that is put there ends.
FOLDERS = {"BINDIR": "bin/sf", "MANDIR": "sf.1", "BASHDIR": "completions/sf", "ZSHDIR": "_sf", "FISHDIR": "sf.fish"}

# Stands for the launcher: where there is no program it builds one, which says what it was called with.
LAUNCHER = """#!/bin/sh
if [ ! -x crates/sf/out/sf ]; then
    mkdir -p crates/sf/out
    printf '#!/bin/sh\\necho "called with $*"\\n' >crates/sf/out/sf
    chmod +x crates/sf/out/sf
fi
echo sf 1.2.3
"""

LINE = """/// The version that `sf --version` prints.
const VERSION: &str = "1.2.3";
const OTHER: &str = "4.5.6";
"""


def found(folder):
    """The files below a folder, with their modes."""
    paths = (os.path.join(at, name) for at, _, names in os.walk(folder) for name in names)
    return {os.path.relpath(path, folder): os.stat(path).st_mode & 0o777 for path in paths}


class Clone(unittest.TestCase):
    def setUp(self):
        room = tempfile.mkdtemp(prefix="sf install ")
        self.addCleanup(shutil.rmtree, room)
        self.clone, self.place = room + "/clone", room + "/a place"
        os.mkdir(self.clone)
        for name in ("man", "completions"):
            shutil.copytree(f"{program.ROOT}/{name}", f"{self.clone}/{name}")
        os.makedirs(self.clone + "/prebuilt")
        for name in ("Makefile", "LICENSE", "NOTICE", "prebuilt/COPYING.LIB", "prebuilt/README.dist"):
            shutil.copy(f"{program.ROOT}/{name}", f"{self.clone}/{name}")
        os.makedirs(self.clone + "/crates/sf_words/src")
        self.write("sf", LAUNCHER)
        self.write("crates/sf_words/src/line.rt", LINE)

    def write(self, name, text):
        with open(f"{self.clone}/{name}", "w", encoding="ascii") as file:
            file.write(text)
        os.chmod(f"{self.clone}/{name}", 0o755)

    def make(self, *words):
        return program.output("make", "--silent", "-C", self.clone, *words)


@unittest.skipUnless(shutil.which("make"), "there is no make")
class Make(Clone):
    def test_it_installs_what_is_built(self):
        os.makedirs(self.clone + "/crates/sf/out")
        shutil.copy(program.path, self.clone + "/crates/sf/out/sf")
        self.make("install", f"PREFIX={self.place}")
        self.assertEqual(found(self.place), FILES)
        self.assertEqual(program.output(self.place + "/bin/sf", "print", "%d", "7"), "7")
        self.make("uninstall", f"PREFIX={self.place}")
        self.assertEqual(found(self.place), {})

    def test_it_builds_what_is_not_there(self):
        self.make("install", f"PREFIX={self.place}")
        self.assertEqual(program.output(self.place + "/bin/sf", "scan"), "called with scan\n")

    def test_the_system_is_below_destdir(self):
        self.make("install", f"DESTDIR={self.place}")
        self.assertEqual(found(self.place + "/usr/local"), FILES)
        self.assertEqual(os.listdir(self.place), ["usr"])

    def test_each_folder_can_be_given(self):
        """The file that it is for goes there, and the others stay where PREFIX has them."""
        for name, file in FOLDERS.items():
            with self.subTest(name):
                words = [f"PREFIX={self.place}", f"{name}={self.place}/given"]
                self.make("install", *words)
                folder = os.path.dirname(next(it for it in FILES if it.endswith(file)))
                given = "given/man1/" if name == "MANDIR" else "given/"
                due = {it.replace(folder + "/", given): mode for it, mode in FILES.items()}
                self.assertEqual(found(self.place), due)
                self.make("uninstall", *words)
                self.assertEqual(found(self.place), {})

    def test_a_package_has_its_zsh_completions_where_debian_looks(self):
        self.make("install", f"DESTDIR={self.place}", "PREFIX=/usr")
        self.assertIn("share/zsh/vendor-completions/_sf", found(self.place + "/usr"))
        self.make("uninstall", f"DESTDIR={self.place}", "PREFIX=/usr")
        self.assertEqual(found(self.place), {})


@unittest.skipUnless(shutil.which("make") and shutil.which("gzip"), "there is no make or no gzip")
class Dist(Clone):
    NAME = "sf-1.2.3-x86_64-linux"

    def archive(self):
        self.make("dist")
        self.assertEqual(os.listdir(self.clone + "/dist"), [self.NAME + ".tar.gz"])
        with open(f"{self.clone}/dist/{self.NAME}.tar.gz", "rb") as file:
            return gzip.decompress(file.read())

    def members(self):
        with tarfile.open(fileobj=io.BytesIO(self.archive())) as archive:
            return archive.getmembers()

    def test_it_holds_what_is_installed_and_the_terms(self):
        files = {**FILES, "COPYING.LIB": 0o644, "LICENSE": 0o644, "NOTICE": 0o644, "README": 0o644}
        found = {it.name: it.mode for it in self.members() if it.isfile()}
        self.assertEqual(found, {f"{self.NAME}/{name}": mode for name, mode in files.items()})

    def test_its_entries_are_in_order_and_of_nobody_and_of_one_time(self):
        members = self.members()
        self.assertEqual([it.name for it in members], sorted(it.name for it in members))
        marks = {(it.uid, it.gid, it.uname, it.gname, it.mtime) for it in members}
        self.assertEqual(marks, {(0, 0, "", "", 1767225600)})
        self.assertEqual({it.mode for it in members if it.isdir()}, {0o755})

    def test_it_is_always_the_same(self):
        first = self.archive()
        for name in ("man/sf.1", "LICENSE", "crates/sf/out/sf"):
            os.utime(f"{self.clone}/{name}", (1, 1))
        self.addCleanup(os.umask, os.umask(0o077))
        moved = self.clone + " that has moved"
        os.rename(self.clone, moved)
        self.clone = moved
        self.assertEqual(self.archive(), first)

    def test_its_time_can_be_given(self):
        self.make("dist", "SOURCE_DATE_EPOCH=86400")
        with tarfile.open(f"{self.clone}/dist/{self.NAME}.tar.gz") as archive:
            self.assertEqual({it.mtime for it in archive.getmembers()}, {86400})

    def test_the_program_in_it_is_the_one_that_is_built(self):
        os.makedirs(self.clone + "/crates/sf/out")
        shutil.copy(program.path, self.clone + "/crates/sf/out/sf")
        with tarfile.open(fileobj=io.BytesIO(self.archive())) as archive:
            packed = archive.extractfile(f"{self.NAME}/bin/sf").read()
        with open(program.path, "rb") as file:
            self.assertEqual(packed, file.read())

    def test_what_its_page_says_puts_all_in_place(self):
        os.mkdir(self.place)
        self.make("dist")
        folder = f"{self.clone}/dist/{self.NAME}"
        program.output("tar", "-C", self.clone + "/dist", "-xzf", folder + ".tar.gz")
        with open(folder + "/README", encoding="ascii") as page:
            lines = [line.split() for line in page]
        named = {line[0] for line in lines if line and line[0].startswith(("bin/", "share/"))}
        self.assertEqual(named, set(FILES))
        commands = [line[:4] for line in lines if line[:2] == ["cp", "-R"]]
        self.assertEqual(commands, [["cp", "-R", "bin", "share"]])
        program.output(*commands[0], self.place, cwd=folder)
        self.assertEqual(found(self.place), FILES)

    def test_a_program_of_another_version_is_not_packed(self):
        self.write("sf", LAUNCHER.replace("1.2.3", "1.2.2"))
        how = {"capture_output": True, "check": False, "timeout": program.SECONDS}
        self.assertNotEqual(subprocess.run(["make", "-C", self.clone, "dist"], **how).returncode, 0)
        self.assertFalse(os.path.exists(self.clone + "/dist"))

    def test_the_version_is_that_of_the_program(self):
        """The one place where it stands is found in the clone itself, too."""
        shutil.copy(program.ROOT + "/crates/sf_words/src/line.rt", self.clone + "/crates/sf_words/src")
        self.write("sf", LAUNCHER.replace("sf 1.2.3", program.version()))
        self.make("dist")
        name = program.version().replace(" ", "-")
        self.assertEqual(os.listdir(self.clone + "/dist"), [name + "-x86_64-linux.tar.gz"])


@unittest.skipUnless(all(map(shutil.which, ("make", "gzip", "git"))), "there is no make or no gzip or no git")
class Library(Clone):
    NAME = "sf-library-1.2.3"
    CRATES = "# crates\nsf_base: num_traits\nsf_scanf: sf_base\nsf_more: sf_base\nexample_sum: sf_scanf anyhow\n"
    # What a crate has, of which the archive holds the first three.
    PARTS = ("src/lib.rt", "specs/Lib.antt", "proofs/Lib.antt", "out/rlib/stamp", "must-fail/x.edit")

    def setUp(self):
        super().setUp()
        for name in ("tools/vendor", "prebuilt/README.library", "HANDLES"):
            os.makedirs(os.path.dirname(f"{self.clone}/{name}"), exist_ok=True)
            shutil.copy(f"{program.ROOT}/{name}", f"{self.clone}/{name}")
        self.write("crates.txt", self.CRATES)
        for crate in ("sf_base", "sf_scanf", "sf_more"):
            for part in self.PARTS:
                os.makedirs(os.path.dirname(f"{self.clone}/crates/{crate}/{part}"), exist_ok=True)
                self.write(f"crates/{crate}/{part}", part)
        shutil.copytree(program.ROOT + "/crates/example_sum", self.clone + "/crates/example_sum", ignore=shutil.ignore_patterns("out"))

    def archive(self):
        self.make("library")
        self.assertEqual(os.listdir(self.clone + "/dist"), [self.NAME + ".tar.gz"])
        with open(f"{self.clone}/dist/{self.NAME}.tar.gz", "rb") as file:
            return gzip.decompress(file.read())

    def test_it_holds_what_a_program_stands_on_and_no_more(self):
        with tarfile.open(fileobj=io.BytesIO(self.archive())) as archive:
            found = {it.name.removeprefix(self.NAME + "/") for it in archive.getmembers() if it.isfile()}
            lines = archive.extractfile(f"{self.NAME}/crates.txt").read().decode()
        crates = {f"crates/{crate}/{part}" for crate in ("sf_base", "sf_scanf") for part in self.PARTS[:3]}
        example = {f"crates/example_sum/{it}" for it in ("src/main.rt", "stdin", "stdout")}
        self.assertEqual(found, {"HANDLES", "LICENSE", "README", "crates.txt", "tools/vendor", *crates, *example})
        self.assertEqual(lines, "sf_base: num_traits\nsf_scanf: sf_base\nexample_sum: sf_scanf anyhow\n")

    def test_it_is_always_the_same(self):
        first = self.archive()
        os.utime(self.clone + "/crates/sf_base/src/lib.rt", (1, 1))
        self.addCleanup(os.umask, os.umask(0o077))
        self.assertEqual(self.archive(), first)

    def test_a_second_call_of_vendor_puts_newer_crates_in_place_and_keeps_the_rest(self):
        program.output(self.clone + "/tools/vendor", self.place, "mine")
        with open(self.place + "/crates.txt", "a", encoding="ascii") as file:
            file.write("other: sf_base\n")
        self.write("crates/sf_base/src/lib.rt", "newer")
        os.remove(self.clone + "/crates/sf_base/specs/Lib.antt")
        program.output(self.clone + "/tools/vendor", self.place, "mine")
        with open(self.place + "/crates.txt", encoding="ascii") as file:
            self.assertEqual(sorted(file), sorted(["sf_base: num_traits\n", "sf_scanf: sf_base\n", "mine: sf_scanf anyhow\n", "other: sf_base\n"]))
        with open(self.place + "/crates/sf_base/src/lib.rt", encoding="ascii") as file:
            self.assertEqual(file.read(), "newer")
        self.assertFalse(os.path.exists(self.place + "/crates/sf_base/specs/Lib.antt"))

    def test_vendor_refuses_what_is_no_crate(self):
        for words in ((), (self.place,), (self.place, "mine", "sf_none")):
            how = {"capture_output": True, "check": False, "timeout": program.SECONDS}
            self.assertEqual(subprocess.run([self.clone + "/tools/vendor", *words], **how).returncode, 2)
        self.assertFalse(os.path.exists(self.place))
