"""The wheel: made by Debian's pip without a network, installed into an environment of its own, and called there."""
import glob
import os
import shutil
import subprocess
import tempfile
import unittest
import zipfile

ROOT = os.path.dirname(os.path.dirname(os.path.dirname(os.path.abspath(__file__))))
PYTHON = "/usr/bin/python3"
PROGRAM = """
import os, sf
assert sf.__file__.startswith(os.environ["HOME"]), sf.__file__
print(sf.scan("%d,%d", b"12,-7"), *sf.lines("%s %d", b"a 1\\nb 2\\n"), sf.print("%05d", 42), sf.check("%d;", "%11d;"))
"""


def lacks():
    """What Debian's python3 lacks of what makes a wheel."""
    call = "import sys, importlib.util as it; sys.exit(not all(map(it.find_spec, ('pip', 'setuptools', 'wheel'))))"
    return not os.path.exists(PYTHON) or subprocess.run([PYTHON, "-c", call], cwd="/", check=False).returncode


class Wheel(unittest.TestCase):
    def run_in(self, room, *words):
        env = {"PATH": "/usr/bin:/bin", "HOME": room, "PIP_ROOT_USER_ACTION": "ignore", "PIP_DISABLE_PIP_VERSION_CHECK": "1"}
        done = subprocess.run(words, cwd=room, env=env, capture_output=True, text=True, check=False, timeout=300)
        self.assertEqual(done.returncode, 0, done.stdout + done.stderr)
        return done.stdout

    @unittest.skipIf(lacks(), "there is no pip3")
    def test_it_is_made_installed_and_called(self):
        with tempfile.TemporaryDirectory(prefix="sf wheel ") as room:
            self.run_in(room, f"{ROOT}/python/wheel", os.environ["SF_LIB"], f"{room}/dist")
            (name,) = glob.glob(f"{room}/dist/*")
            self.assertRegex(os.path.basename(name), r"^sf_scan-[\d.]+-py3-none-linux_x86_64\.whl$")
            with zipfile.ZipFile(name) as packed:
                held = {it.partition("/")[2] for it in packed.namelist() if it.startswith("sf/")}
                notes = {os.path.basename(it) for it in packed.namelist() if not it.startswith("sf/")}
            here = {os.path.basename(it) for it in glob.glob(f"{ROOT}/python/sf/*.py")}
            self.assertEqual(held, here | {"libsf.so", "py.typed"})
            self.assertLessEqual({"LICENSE", "NOTICE", "METADATA"}, notes)
            self.run_in(room, PYTHON, "-m", "venv", "--without-pip", f"{room}/venv")
            python = f"{room}/venv/bin/python"
            self.run_in(room, PYTHON, "-m", "pip", "--python", python, "install", "--quiet", "--no-index", "--no-deps", name)
            self.assertEqual(self.run_in(room, python, "-c", PROGRAM), "(12, -7) (b'a', 1) (b'b', 2) 00042 True\n")

    @unittest.skipIf(lacks(), "there is no pip3")
    def test_the_same_files_make_the_same_wheel(self):
        with tempfile.TemporaryDirectory(prefix="sf wheel ") as room:
            found = []
            for number in "12":
                self.run_in(room, f"{ROOT}/python/wheel", os.environ["SF_LIB"], f"{room}/{number}")
                (name,) = glob.glob(f"{room}/{number}/*")
                with open(name, "rb") as file:
                    found.append(file.read())
            self.assertEqual(found[0], found[1])

    def test_without_a_library_there_is_none(self):
        with tempfile.TemporaryDirectory() as room:
            done = subprocess.run([f"{ROOT}/python/wheel", room, room], capture_output=True, text=True, check=False)
            self.assertEqual((done.returncode, done.stderr), (1, f"there is no {room}/libsf.so: make c builds it\n"))
            self.assertEqual(os.listdir(room), [])

    @unittest.skipIf(not shutil.which("make"), "there is no make")
    def test_make_calls_it(self):
        with tempfile.TemporaryDirectory() as room:
            self.assertIn("python/wheel", self.run_in(room, "make", "-C", ROOT, "-n", "wheel"))
