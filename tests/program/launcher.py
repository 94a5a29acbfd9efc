"""The launcher `sf` in clones made up for it, with stand-ins for `rt`, which notes its calls and builds at once, and for gcc."""
import contextlib
import hashlib
import os
import pty
import re
import select
import shutil
import signal
import subprocess
import tempfile
import time
import unittest

from program import ROOT, SECONDS

# The program that is built of a text: it says so and what it was called with, copies its input, says something of an
# error too, and ends with status 3.
PROGRAM = """#!/bin/sh
[ "$*" = --version ] && exit
[ "$1" = long ] && exec sleep 1000
echo "made of {text}, called with: $*"
cat
echo "an error text" >&2
exit 3
"""

# What the linker adds to such a program.
LINKED = "# linked\n"

# Notes the crate that it is called in, and what with. It builds a program of the text of the lowest crate. Files beside
# it say what else it does, and name the crate in which.
RT = """#!/bin/sh
room=$(dirname -- "$0")
[ "$1" = version ] && exec cat "$room/kit"
[ "$1" = doc ] && echo "$room/the kit/START-HERE.md" && exit
crate=${PWD##*/}
is() { [ "$(cat "$room/$1" 2>/dev/null)" = "$crate" ]; }
echo "begins $crate: $*" >>"$room/calls"
echo "fn $crate::one: proved"
is fails && { echo "error: something is not proved"; exit 1; }
is waits && { echo "rt: waiting for another rt to finish in $crate"; sleep 2.5; }
[ -e "$room/slow" ] && sleep "$(cat "$room/slow")"
# (its file appears whole, or, when it is stopped before, not at all)
is endless && { echo $$ >"$room/new of $crate"; mv "$room/new of $crate" "$room/process of $crate"; exec sleep 1000; }
mkdir -p out/incremental out/rlib
if [ "$*" = lib ]; then
    touch out/rlib/stamp
else
    touch out/sf.stamp
    sed "s/{text}/$(cat ../low/src/lib.rt)/" "$room/program" >out/new
    chmod +x out/new
    mv out/new out/sf
    { cat out/sf; echo "# linked"; } >out/sf.o
fi
echo "ends $crate" >>"$room/calls"
"""

# Links an object by copying it, and notes its words.
GCC = """#!/bin/sh
room=$(dirname -- "$0")
case $1 in
    --version) echo "gcc 1" ;;
    -print-file-name=libc.a) echo "$room/libc.a" ;;
    -print-prog-name=ld) echo "$room/ld" ;;
    *)
        echo "$*" >>"$room/links"
        [ "$4" = -o ] && cp "$6" "$5" && chmod +x "$5"
        ;;
esac
"""

CRATES = """# some crates
other: num_traits
low: num_traits
middle: low
sf: middle other
apart: low
"""

KIT = "kit-1 logic 12ab\n"

# The commands of the system that the launcher uses.
TOOLS = """awk cat chmod cmp cp cut date dirname find flock grep gzip head ls mkdir mkfifo mktemp mv readlink rm sed sh sha256sum
    sleep sort tail touch tr uname wc xargs""".split()

OLDER = r"\Asf: this program is older than its source: make builds it, or \./sf --prove\n\Z"


def write(path, text):
    os.makedirs(os.path.dirname(path), exist_ok=True)
    with open(path, "w") as file:
        file.write(text)


def read(path):
    with open(path) as file:
        return file.read()


def answer(text, *words):
    return f"made of {text}, called with: {' '.join(words)}\nsome input\n"


class Launcher(unittest.TestCase):
    def setUp(self):
        self.room = tempfile.mkdtemp(prefix="sf launcher ")
        os.chmod(self.room, 0o755)
        self.addCleanup(shutil.rmtree, self.room)
        self.clone = self.room + "/a clone"
        self.bin = self.room + "/bin"
        self.temporary = self.room + "/temporary"
        os.mkdir(self.temporary)
        os.chmod(self.temporary, 0o777)
        for crate in ("other", "low", "middle", "sf", "apart"):
            write(f"{self.clone}/crates/{crate}/src/lib.rt", "first")
        write(self.clone + "/crates.txt", CRATES)
        write(self.clone + "/crates/low/specs/Lib.antt", "specs")
        write(self.clone + "/crates/low/proofs/part/Lib.antt", "proofs")
        write(self.clone + "/crates/low/must-fail/some.edit", "edit")
        shutil.copy(ROOT + "/sf", self.clone + "/sf")
        os.mkdir(self.clone + "/prebuilt")
        for name in ("build", "finish", "link", "pack", "plan.awk", "sum"):
            shutil.copy(f"{ROOT}/prebuilt/{name}", self.clone + "/prebuilt")
        self.command("rt", RT)
        self.command("gcc", GCC)
        self.command("ld", "#!/bin/sh\necho ld 2\n")
        self.say("libc.a", "a library")
        self.say("kit", KIT)
        self.say("program", PROGRAM)
        self.age()
        self.path = f"{self.bin}:{os.environ['PATH']}"

    def command(self, name, text):
        write(f"{self.bin}/{name}", text)
        os.chmod(f"{self.bin}/{name}", 0o755)

    def age(self):
        """As if all of the clone was written some time ago."""
        for at, _, names in os.walk(self.clone):
            for name in [".", *names]:
                os.utime(os.path.join(at, name), (1e9, 1e9))

    def only_tools(self, *left_out):
        """Leaves no other commands in the path than those that the launcher uses, but for some of them."""
        tools = self.room + "/tools"
        os.mkdir(tools)
        for name in set(TOOLS) - set(left_out):
            os.symlink(shutil.which(name), f"{tools}/{name}")
        self.path = f"{self.bin}:{tools}"

    def without_rt(self):
        os.remove(self.bin + "/rt")
        self.only_tools()

    def started(self, *words, file=None, **how):
        how = {"cwd": self.clone, "stdin": subprocess.PIPE, "stdout": subprocess.PIPE, "stderr": subprocess.PIPE, **how}
        environment = {"PATH": self.path, "TMPDIR": self.temporary}
        command = [file or self.clone + "/sf", *words]
        started = subprocess.Popen(command, env=environment, text=True, start_new_session=True, **how)
        self.addCleanup(self.end, started)
        return started

    def end(self, started):
        """Ends a call that is left, with all that it has started, and closes its pipes."""
        with contextlib.suppress(OSError):
            os.killpg(started.pid, signal.SIGKILL)
        started.wait(timeout=SECONDS)
        for pipe in (started.stdin, started.stdout, started.stderr):
            if pipe:
                with contextlib.suppress(OSError):
                    pipe.close()

    def ended(self, started):
        """The status, output and error text of a call, which is given some input."""
        try:
            out, err = started.communicate("some input\n", timeout=SECONDS)
        except subprocess.TimeoutExpired:
            self.fail("the launcher did not end")
        return started.returncode, out, err

    def call(self, *words, **how):
        return self.ended(self.started(*words, **how))

    def calls(self):
        return read(self.bin + "/calls").splitlines() if os.path.exists(self.bin + "/calls") else []

    def builds(self):
        """How often the program was built."""
        return self.calls().count("begins sf: run -- scan %d")

    def say(self, what, text=""):
        write(f"{self.bin}/{what}", text)

    def take_back(self, *names):
        for name in names:
            os.remove(f"{self.bin}/{name}")

    def edit(self, file, text="second"):
        write(f"{self.clone}/crates/{file}", text)

    def put(self, text, more=""):
        """Puts a program of this text in its place, as another command than the launcher would."""
        new = self.clone + "/crates/sf/out/new"
        write(new, PROGRAM.replace("{text}", text) + more)
        os.chmod(new, 0o755)
        os.rename(new, self.clone + "/crates/sf/out/sf")

    def other_clone(self):
        """Another clone, of other sources, of which nothing is built."""
        other = self.room + "/another clone"
        shutil.copytree(self.clone, other, ignore=shutil.ignore_patterns("out"))
        write(other + "/crates/low/src/lib.rt", "second")
        return other

    def wait_for(self, holds, why):
        for _ in range(SECONDS * 20):
            if holds():
                return
            time.sleep(0.05)
        self.fail(why)

    def endless(self, crate):
        """The process that builds this crate without end, once it does."""
        file = f"{self.bin}/process of {crate}"
        self.wait_for(lambda: os.path.exists(file) and read(file).endswith("\n"), "no build began")
        return int(read(file))

    def is_gone(self, process):
        with contextlib.suppress(ProcessLookupError):
            os.kill(process, 0)
            return False
        return True

    def build(self, builds, **how):
        """`./sf --build`, after which there were that many builds in all: what it says."""
        status, out, err = self.call("--build", **how)
        self.assertEqual((status, out, self.builds()), (0, "", builds), err)
        self.expect_nothing_left()
        return err

    def expect_built(self, text, *words, builds=0, **how):
        """A call after `./sf --build`, which runs the program made of this text and says nothing more."""
        said = self.build(builds)
        self.assertEqual(self.expect(text, *words, builds=builds, **how), "")
        return said

    def expect_older(self, text, *words, builds=0, **how):
        """A call that runs the program made of this text, and says that it is older than its source."""
        self.assertRegex(self.expect(text, *words, builds=builds, **how), OLDER)

    def expect(self, text, *words, builds=0, **how):
        """A call that runs the program made of this text, after that many builds in all."""
        status, out, err = self.call(*words, **how)
        self.assertEqual((status, out), (3, answer(text, *words)))
        self.assertTrue(err.endswith("an error text\n"), err)
        self.assertEqual(self.builds(), builds)
        self.expect_nothing_left()
        return err.removesuffix("an error text\n")

    def expect_fault(self, pattern, *words, **how):
        """A call that runs no program, and says so on the last line of the error text."""
        status, out, err = self.call(*words, **how)
        self.assertEqual((status, out), (1, ""))
        self.assertRegex(err, rf"(?:\A|\n)sf: [^\n]*{pattern}[^\n]*\n\Z")
        self.expect_nothing_left()
        return err

    def expect_nothing_left(self):
        out = self.clone + "/crates/sf/out"
        known = {"sf", "sf.dynamic", "sf.o", "SUM", "build", "incremental", "rlib", "sf.stamp", "sf.began", "sf.noted"}
        self.assertLessEqual(set(os.listdir(out) if os.path.exists(out) else ()), known)
        self.assertEqual(os.listdir(self.temporary), [])

    def closed(self):
        """Lets nobody write to the clone from now on; how the caller is to be called then."""
        if os.geteuid() == 0:
            return {"user": 65534, "group": 65534, "extra_groups": []}
        for at, _, _ in os.walk(self.clone):
            os.chmod(at, 0o555)
            self.addCleanup(os.chmod, at, 0o755)
        return {}

    def piece(self, file):
        """What can be read next."""
        self.assertTrue(select.select([file], [], [], SECONDS)[0], "nothing more is said")
        return os.read(file, 4096)

    def shown(self, *words):
        """The output of a call, and what a terminal shows as its error text."""
        ours, theirs = pty.openpty()
        self.addCleanup(os.close, ours)
        running = self.started(*words, stdin=subprocess.DEVNULL, stderr=theirs)
        os.close(theirs)
        shown = b""
        with contextlib.suppress(OSError):
            while piece := self.piece(ours):
                shown += piece
        return running.communicate(timeout=SECONDS)[0], shown.decode()


class Builds(Launcher):
    def test_it_builds_once_and_hands_its_words_on(self):
        self.build(1)
        self.assertEqual(self.call("scan", "%d  %d"), (3, answer("first", "scan", "%d  %d"), "an error text\n"))
        self.assertEqual(self.call("x"), (3, answer("first", "x"), "an error text\n"))
        self.assertEqual(self.build(1), "")

    def test_it_builds_nothing_unasked(self):
        err = self.expect_fault(r"the program is not built: make builds it, or \./sf --prove", "a")
        self.assertEqual((err.count("\n"), self.calls()), (1, []))
        self.expect_built("first", builds=1)
        self.edit("low/src/lib.rt")
        for _ in range(2):
            self.expect_older("first", "a", builds=1)
        self.expect_built("second", "a", builds=2)

    def test_low_crates_come_first_and_those_that_share_none_side_by_side(self):
        self.say("slow", "0.4")
        self.build(1)
        calls = self.calls()
        self.assertEqual(set(calls[:2]), {"begins other: lib", "begins low: lib"})
        self.assertEqual(set(calls[2:5]), {"ends other", "ends low", "begins middle: lib"})
        self.assertLess(calls.index("ends low"), calls.index("begins middle: lib"))
        self.assertEqual(calls[5:], ["ends middle", "begins sf: run -- scan %d", "ends sf"])

    def test_the_order_of_the_list_of_crates_is_free(self):
        self.say("slow", "0.4")
        write(self.clone + "/crates.txt", "sf: middle other\nmiddle: low\nother:\nlow:\n")
        self.expect_built("first", builds=1)
        begun = [it.split(" ")[1] for it in self.calls() if it.startswith("begins ")]
        self.assertEqual((begun[-2:], set(begun[:2])), (["middle:", "sf:"], {"low:", "other:"}))

    def test_a_crate_waits_for_one_that_shares_another_with_it(self):
        """rt would have it wait too, and one that only waits would be said to be proved."""
        write(self.clone + "/crates.txt", "low:\nmiddle: low\nother: low\nsf: middle other\n")
        self.say("slow", "0.4")
        self.expect_built("first", builds=1)
        self.assertEqual([it.split(" ")[0] for it in self.calls()], ["begins", "ends"] * 4)

    def test_it_says_how_many_crates_it_builds_and_each_that_is_built(self):
        lines = self.build(1).splitlines()
        self.assertEqual(lines[0], "sf: proving and building the program here: 4 crates")
        said = [re.sub(r"\d+:\d\d", "TIME", it) for it in lines[1:]]
        self.assertEqual([it.split(" ", 4)[4] for it in said], [f"{it} of 4 crates (TIME)" for it in range(1, 5)])
        # (on a busy machine the one that shares none with it may end after `middle`)
        names = [it.split(" ")[1] for it in said]
        self.assertEqual(sorted(names[:3]), ["low", "middle", "other"])
        self.assertLess(names.index("low"), names.index("middle"))
        self.assertEqual(said[3], "sf: sf is built, 4 of 4 crates (TIME)")

    def test_it_is_older_after_an_edit_of_what_the_program_is_made_of(self):
        self.build(1)
        edits = ["low/src/lib.rt", "low/specs/Lib.antt", "low/proofs/part/Lib.antt", "low/proofs/New.antt"]
        edits += ["middle/src/lib.rt", "middle/specs/New.antt", "other/src/lib.rt", "sf/src/lib.rt", "../crates.txt"]
        for builds, file in enumerate(edits, 2):
            with self.subTest(file):
                self.edit(file, CRATES.replace("middle other", "other middle") if "crates.txt" in file else "second")
                self.expect_older("first" if builds == 2 else "second", builds=builds - 1)
                self.expect_built("second", builds=builds)

    def test_it_is_older_after_an_edit_that_keeps_an_old_time(self):
        self.build(1)
        for builds, (before, text) in enumerate((("first", "second"), ("second", "first")), 2):
            self.edit("low/src/lib.rt", text)
            os.utime(self.clone + "/crates/low/src/lib.rt", (1e9, 1e9))
            self.expect_older(before, builds=builds - 1)
            self.expect_built(text, builds=builds)

    def test_it_is_older_where_a_file_or_a_folder_is_gone(self):
        self.build(1)
        os.remove(self.clone + "/crates/low/proofs/part/Lib.antt")
        self.expect_older("first", builds=1)
        self.expect_built("first", builds=2)
        shutil.rmtree(self.clone + "/crates/low/specs")
        self.expect_older("first", builds=2)
        self.expect_built("first", builds=3)

    def test_it_is_older_after_an_edit_during_the_build(self):
        self.say("slow", "0.4")
        running = self.started("--build")
        self.wait_for(self.calls, "no build began")
        self.edit("low/specs/Lib.antt")
        self.ended(running)
        self.expect_older("first", builds=1)
        self.expect_built("first", builds=2)
        self.expect_built("first", builds=2)

    def test_what_the_program_is_not_made_of_makes_it_no_older(self):
        self.build(1)
        for file in ("apart/src/lib.rt", "low/must-fail/some.edit", "../README.md", "../docs/FORMATS.md"):
            self.edit(file)
        self.expect_built("first", builds=1)

    def test_a_line_of_crates_for_another_program_makes_it_no_older(self):
        self.build(1)
        for text in (CRATES + "new: low\n", "# another text\n" + CRATES.replace("apart: low", "apart: middle")):
            self.edit("../crates.txt", text)
            self.assertEqual(self.expect("first", builds=1), "")

    def test_new_times_make_it_no_older(self):
        self.build(1)
        os.utime(self.clone + "/crates/low/src/lib.rt")
        self.edit("low/src/lib.rt", "first")
        self.assertEqual(self.expect("first", builds=1), "")

    def test_a_program_that_is_gone_is_not_run(self):
        self.build(1)
        os.remove(self.clone + "/crates/sf/out/sf")
        self.expect_fault("the program is not built")
        self.expect_built("first", builds=2)
        os.chmod(self.clone + "/crates/sf/out/sf", 0o644)
        self.expect_fault("the program is not built")
        self.expect_built("first", builds=3)

    def test_where_a_folder_can_not_be_looked_through_the_sum_is_made(self):
        self.build(1)
        find = shutil.which("find")
        self.command("find", f"#!/bin/sh\ncase \"$*\" in *-newer*-path*|*-path*-newer*) exit 1 ;; esac\nexec {find} \"$@\"\n")
        self.edit("low/src/lib.rt")
        self.expect_older("first", builds=1)
        self.command("find", "#!/bin/sh\nexit 1\n")
        self.expect_older("first", builds=1)

    def test_where_a_folder_can_not_be_looked_through_after_a_build_no_sum_is_noted(self):
        find = shutil.which("find")
        self.command("find", f"#!/bin/sh\n[ \"$1\" != crates.txt ] || exit 1\nexec {find} \"$@\"\n")
        self.assertEqual(self.call("--build")[0], 0)
        self.assertFalse(os.path.exists(self.clone + "/crates/sf/out/SUM"))

    def test_a_current_program_is_found_by_one_find(self):
        self.build(1)
        self.expect("first", builds=1)
        self.command("find", f"#!/bin/sh\necho >>'{self.bin}/finds'\nexec {shutil.which('find')} \"$@\"\n")
        for name in ("awk", "sha256sum", "ls", "sed", "flock"):
            self.command(name, f"#!/bin/sh\necho {name} >>'{self.bin}/finds'\nexit 1\n")
        self.assertEqual((self.expect("first", builds=1), read(self.bin + "/finds")), ("", "\n"))

    def test_a_program_that_was_put_there_is_not_run(self):
        self.put("another")
        self.expect_fault("the program is not built")
        self.expect_built("first", builds=1)
        self.put("another")
        self.expect_fault("the program is not built")
        self.expect_built("first", builds=2)
        write(self.clone + "/crates/sf/out/sf", PROGRAM.replace("{text}", "another"))
        self.expect_fault("the program is not built")
        self.expect_built("first", builds=3)

    def test_what_was_built_in_another_clone_is_older_here(self):
        """However its folder was copied, and whatever times the copies have."""
        other = self.other_clone()
        self.build(1)
        for option in ("-r", "-a"):
            with self.subTest(option):
                subprocess.run(["cp", option, self.clone + "/crates/sf/out", other + "/crates/sf"], check=True)
                status, out, err = self.call(file=other + "/sf")
                self.assertEqual((status, out), (3, answer("first")))
                self.assertRegex(err.removesuffix("an error text\n"), OLDER)
                shutil.rmtree(other + "/crates/sf/out")

    def test_what_was_built_in_another_clone_of_these_sources_is_run(self):
        self.edit("low/src/lib.rt")
        other = self.other_clone()
        self.expect_built("second", builds=1)
        for option in ("-r", "-a"):
            with self.subTest(option):
                subprocess.run(["cp", option, self.clone + "/crates/sf/out", other + "/crates/sf"], check=True)
                self.assertEqual(self.call(file=other + "/sf"), (3, answer("second"), "an error text\n"))
                shutil.rmtree(other + "/crates/sf/out")
        self.assertEqual(self.builds(), 1)

    def test_it_runs_what_another_command_has_built_where_the_sum_has_it(self):
        """As it was linked, or as rt made it."""
        self.build(1)
        self.put("first")
        self.assertEqual(self.expect("first", builds=1), "")
        self.put("first", LINKED)
        self.assertEqual(self.expect("first", builds=1), "")
        os.remove(self.clone + "/crates/sf/out/sf.began")
        self.assertEqual(self.expect("first", builds=1), "")
        self.edit("low/src/lib.rt")
        self.expect_older("first", builds=1)

    def test_a_crate_that_fails_is_shown_with_its_log(self):
        self.say("fails", "middle")
        err = self.expect_fault("could not be built: middle failed", "--build")
        self.assertIn("\nfn middle::one: proved\nerror: something is not proved\n", err)
        self.assertNotIn("fn low::one", err)
        self.assertEqual(self.builds(), 0)
        self.take_back("fails")
        self.expect_built("first", builds=1)

    def test_a_crate_that_is_not_there_fails(self):
        shutil.rmtree(self.clone + "/crates/middle")
        self.expect_fault("could not be built: middle failed", "--build")

    def test_what_is_there_is_older_where_the_build_after_an_edit_fails(self):
        for crate in ("low", "sf"):
            with self.subTest(crate):
                self.build(1 if crate == "low" else 2)
                text = read(self.clone + "/crates/low/src/lib.rt")
                self.edit("low/src/lib.rt", f"an edit that {crate} doesn't bear")
                self.say("fails", crate)
                for _ in range(2):
                    self.expect_fault(f"could not be built: {crate} failed", "--build")
                    self.assertRegex(self.call()[2].removesuffix("an error text\n"), OLDER)
                self.assertEqual(self.call()[1], answer(text))
                self.take_back("fails")

    def test_a_build_that_makes_no_program_is_a_failure(self):
        self.command("rt", RT.replace("mv out/new out/sf", "rm out/new"))
        self.expect_fault("could not be built", "--build")

    def test_without_rt_it_says_so(self):
        self.without_rt()
        self.assertEqual(self.expect_fault(r"\brt\b", "--build").count("\n"), 1)

    def test_it_is_a_word_of_the_launcher_only_alone(self):
        self.build(1)
        for words in (("--build", "a"), ("a", "--build"), ("--built",), ("--prove", "a"), ("a", "--prove"), ("--proved",), ()):
            self.expect("first", *words, builds=1)


class Links(Launcher):
    """The program is linked statically where that can be done, and what rt made stays beside it."""

    def made(self, name):
        return read(f"{self.clone}/crates/sf/out/{name}")

    def test_the_program_is_the_linked_one_and_what_rt_made_stays(self):
        self.build(1)
        self.assertEqual(self.made("sf"), PROGRAM.replace("{text}", "first") + LINKED)
        self.assertEqual(self.made("sf.dynamic"), PROGRAM.replace("{text}", "first"))
        kit = self.bin + "/the kit/c"
        words = f"-static -s -Wl,--build-id=none -o sf.linked sf.o {kit}/liblibc_c.a {kit}/libos_c.a\n"
        self.assertEqual(read(self.bin + "/links"), words)

    def test_the_sum_has_both_and_what_linked_it(self):
        self.build(1)
        lines = dict(line.split(" ", 1) for line in self.made("SUM").splitlines())
        self.assertEqual(list(lines), ["program", "dynamic", "sources", "kit", "linker"])
        for name, file in (("program", "sf"), ("dynamic", "sf.dynamic")):
            self.assertEqual(lines[name], hashlib.sha256(self.made(file).encode()).hexdigest())
        library = hashlib.sha256(b"a library").hexdigest()[:16]
        self.assertEqual((lines["kit"], lines["linker"]), (KIT.strip(), f"gcc 1, ld 2, libc.a {library}"))

    def test_rt_finds_its_own_program_again(self):
        """So it need not build it anew."""
        self.build(1)
        own = 'grep -q linked out/sf && echo linked >>"$room/met"'
        self.command("rt", RT.replace("    touch out/sf.stamp", f"    {own}\n    touch out/sf.stamp"))
        self.edit("other/src/lib.rt")
        self.expect_built("first", builds=2)
        self.assertFalse(os.path.exists(self.bin + "/met"))

    def test_what_is_linked_already_is_not_taken_for_what_rt_made(self):
        self.build(1)
        before = [self.made(name) for name in ("sf", "sf.dynamic", "SUM")]
        sources = re.search("^sources (.*)$", before[2], re.MULTILINE)[1]
        how = {"env": {"PATH": self.path}, "timeout": SECONDS, "check": True}
        subprocess.run([self.clone + "/prebuilt/finish", sources], **how)
        self.assertEqual([self.made(name) for name in ("sf", "sf.dynamic", "SUM")], before)

    def test_without_gcc_or_libc_it_is_what_rt_made(self):
        self.only_tools()
        for builds, name in enumerate(("libc.a", "gcc"), 1):
            with self.subTest(name):
                self.take_back(name)
                said = self.build(builds)
                self.assertRegex(said, r"\nsf: without gcc and libc\.a the program is linked for the C library of this system alone\n\Z")
                self.assertEqual(self.made("sf"), PROGRAM.replace("{text}", "first"))
                self.assertIn("\nlinker rt\n", self.made("SUM"))
                self.assertEqual(self.expect("first", builds=builds), "")
                self.edit("other/src/lib.rt", name)

    def test_a_link_that_fails_is_a_failure(self):
        self.command("gcc", GCC.replace("cp ", "false "))
        self.expect_fault("the program could not be linked", "--build")


class Places(Launcher):
    def setUp(self):
        super().setUp()
        self.build(1)

    def test_it_works_from_any_folder(self):
        self.expect("first", "a", cwd="/", builds=1)
        self.expect("first", "a", cwd=self.clone + "/crates", file="../sf", builds=1)
        self.expect("first", "a", cwd=self.clone, file="./sf", builds=1)

    def test_it_works_through_links(self):
        os.symlink(self.clone + "/sf", self.bin + "/absolute")
        os.symlink("../a clone/sf", self.bin + "/relative")
        os.symlink("relative", self.bin + "/twice")
        os.symlink("a clone", self.room + "/folder")
        there = set(os.listdir(self.bin))
        for file in (self.bin + "/absolute", self.bin + "/relative", self.bin + "/twice", self.room + "/folder/sf"):
            self.expect("first", "a", cwd="/", file=file, builds=1)
        self.expect("first", "a", cwd=self.room, file="bin/relative", builds=1)
        self.assertEqual(set(os.listdir(self.bin)), there)

    def test_it_works_through_the_path(self):
        os.symlink("../a clone/sf", self.bin + "/sf")
        done = subprocess.run(["sh", "-c", "cd / && sf a b"], env={"PATH": self.path}, input="some input\n",
                              capture_output=True, text=True, timeout=SECONDS)
        self.assertEqual((done.returncode, done.stdout), (3, answer("first", "a", "b")))

    def test_a_copy_of_it_alone_says_what_to_copy(self):
        shutil.copy(self.clone + "/sf", self.room + "/sf")
        self.expect_fault("crates/sf/out/sf", file=self.room + "/sf")


class WithoutWriting(Launcher):
    """In a clone that its caller can't write to."""

    def test_where_nothing_is_built_it_says_so_in_one_line(self):
        how = self.closed()
        self.assertEqual(self.expect_fault("not built[^\n]*can't be written", **how).count("\n"), 1)
        for word in ("--prove", "--build"):
            self.assertEqual(self.expect_fault("can't be written", word, **how).count("\n"), 1)
        self.assertEqual(self.calls(), [])

    def test_what_is_built_runs(self):
        self.build(1)
        self.assertEqual(self.expect("first", "a", builds=1, **self.closed()), "")

    def test_what_is_built_runs_after_an_edit_too_and_that_is_said(self):
        self.build(1)
        self.edit("low/src/lib.rt")
        said = self.expect("first", "a", builds=1, **self.closed())
        self.assertRegex(said, r"\Asf: [^\n]*older than its source[^\n]*can't be written\n\Z")

    def test_what_was_put_there_does_not_run(self):
        self.put("another")
        self.expect_fault("not built[^\n]*can't be written", **self.closed())

    def test_what_is_built_is_not_older_where_only_times_are_new(self):
        self.build(1)
        os.utime(self.clone + "/crates/low/src/lib.rt")
        self.assertEqual(self.expect("first", "a", builds=1, **self.closed()), "")


class Together(Launcher):
    def test_one_of_two_calls_builds_and_the_other_waits(self):
        self.say("slow", "0.4")
        first = self.started("--build")
        self.wait_for(self.calls, "no build began")
        second = self.started("--build")
        self.assertEqual(self.ended(first)[:2], (0, ""))
        status, out, err = self.ended(second)
        self.assertEqual((status, out), (0, ""))
        self.assertRegex(err, r"\Asf: waiting [^\n]*\n\Z")
        self.assertEqual(self.builds(), 1)

    def test_one_of_two_calls_builds_also_where_no_sum_can_be_made(self):
        self.only_tools("sha256sum")
        self.say("slow", "0.4")
        first = self.started("--build")
        self.wait_for(self.calls, "no build began")
        second = self.started("--build")
        self.assertEqual(self.ended(first)[:2], (0, ""))
        self.assertEqual(self.ended(second)[:2], (0, ""))
        self.assertEqual(self.expect("first", builds=1), "")

    def test_a_call_does_not_wait_for_a_build(self):
        """It runs what there is, and writes nothing."""
        self.build(1)
        self.edit("low/src/lib.rt")
        self.say("endless", "middle")
        self.started("--build")
        self.endless("middle")
        status, out, err = self.call("a")
        self.assertEqual((status, out), (3, answer("first", "a")))
        self.assertRegex(err, r"\Asf: this program is older than its source, and another call builds it\nan error text\n\Z")

    def test_where_nothing_is_built_a_call_says_that_another_builds_it(self):
        self.say("endless", "low")
        self.started("--build")
        self.endless("low")
        status, out, err = self.call("a")
        self.assertEqual((status, out), (1, ""))
        self.assertEqual(err, "sf: the program is not built, and another call builds it\n")

    def test_where_there_are_no_locks_it_works_too(self):
        self.only_tools("flock")
        self.expect_built("first", builds=1)
        self.edit("low/src/lib.rt")
        self.expect_older("first", builds=1)

    def test_an_interrupted_call_waits_no_longer(self):
        self.say("endless", "low")
        first = self.started("--build")
        self.endless("low")
        second = self.started("--build")
        self.assertRegex(self.piece(second.stderr.fileno()), rb"\Asf: waiting ")
        second.terminate()
        second.wait(timeout=SECONDS)
        self.assertEqual((second.returncode, first.poll(), self.calls().count("begins low: lib")), (143, None, 1))

    def test_a_build_does_not_wait_for_a_program_that_runs(self):
        self.build(1)
        self.started("long")
        self.edit("low/src/lib.rt")
        self.expect_built("second", builds=2)

    def test_a_build_that_was_killed_is_waited_for_no_longer(self):
        self.say("endless", "middle")
        first = self.started("--build")
        build = self.endless("middle")
        first.kill()
        first.wait(timeout=SECONDS)
        os.kill(build, signal.SIGKILL)
        self.take_back("endless")
        self.assertEqual(self.call("--build")[:2], (0, ""))
        self.assertEqual((self.call()[:2], self.builds()), ((3, answer("first")), 1))

    def test_what_an_old_lock_left_is_not_waited_for(self):
        write(self.clone + "/crates/sf/out/building/owner", str(os.getpid()))
        self.assertEqual(self.call("--build")[:2], (0, ""))


class Interrupts(Launcher):
    def test_an_interrupt_stops_the_build_and_gives_the_lock_back(self):
        for number, status in ((signal.SIGHUP, 129), (signal.SIGINT, 130), (signal.SIGTERM, 143)):
            with self.subTest(number):
                self.say("endless", "middle")
                running = self.started("--build")
                build = self.endless("middle")
                running.send_signal(number)
                self.assertEqual(self.ended(running)[:2], (status, ""))
                self.assertTrue(self.is_gone(build))
                self.expect_nothing_left()
                self.take_back("endless", "process of middle", "calls")
                self.expect_built("first", builds=1)
                self.take_back("calls")
                shutil.rmtree(self.clone + "/crates/sf/out")

    def test_an_interrupt_stops_all_crates_that_are_being_built(self):
        self.command("rt", RT.replace("is endless && {", '[ -e "$room/endless" ] && {'))
        self.say("endless")
        running = self.started("--build")
        processes = [self.endless(crate) for crate in ("low", "other")]
        running.terminate()
        self.assertEqual(self.ended(running)[0], 143)
        self.assertEqual([self.is_gone(it) for it in processes], [True, True])

    def test_a_crate_that_fails_stops_the_others(self):
        waits = 'is fails && until [ -s "$room/process of low" ]; do sleep 0.02; done'
        self.command("rt", RT.replace("is fails &&", waits + "\nis fails &&"))
        self.say("endless", "low")
        self.say("fails", "other")
        self.expect_fault("could not be built: other failed", "--build")
        self.assertTrue(self.is_gone(self.endless("low")))

    def test_each_moment_of_a_build_can_be_interrupted(self):
        self.say("endless", "middle")
        for at in range(25):
            with self.subTest(at):
                running = self.started("--build")
                time.sleep(0.008 * at)
                running.terminate()
                # (before it has set its traps it ends by the signal itself)
                self.assertIn(self.ended(running)[:2], ((143, ""), (-signal.SIGTERM, "")))
                self.expect_nothing_left()
                if os.path.exists(self.bin + "/process of middle"):
                    self.assertTrue(self.is_gone(self.endless("middle")))


class Shown(Launcher):
    def test_a_terminal_is_shown_which_of_how_many_crates_are_proved(self):
        self.say("slow", "2.5")
        out, shown = self.shown("--build")
        self.assertEqual(out, "")
        first, _, rest = shown.partition("\r\n")
        self.assertEqual(first, "sf: proving and building the program here: 4 crates")
        self.assertRegex(rest, r"\A\r\x1b\[Ksf: 0 of 4 crates done, proving (other, low|low, other) \(0:\d\d\)\r")
        self.assertRegex(rest, r"sf: 3 of 4 crates done, proving sf \(0:\d\d\)\r")
        self.assertTrue(rest.endswith("\r\x1b[K"), rest)
        self.assertEqual(rest.count("\n"), 0)

    def test_a_terminal_is_shown_that_another_rt_is_waited_for(self):
        self.say("waits", "low")
        self.assertIn("\x1b[Ksf: waiting for another rt to finish in low (0:0", self.shown("--build")[1])
