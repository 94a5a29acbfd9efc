"""How much memory is resident, at files of any length."""
import os
import subprocess
import sys
import unittest

# The most kilobytes beside those of Python itself, of which Debian's has 9 MB: so that is 20 MB in all.
MOST = 11 * 1024
SIZE = 100 << 20

# A program that reads a pipe, and writes the most kilobytes that it had before and after, and what it has counted. (getrusage counts
# those, too, of the process that called it.)
PROGRAM = """
import ctypes, sys
pipe = sys.stdin.buffer
def most():
    with open("/proc/self/status") as file:
        return next(line.split()[1] for line in file if line.startswith("VmHWM"))
before = most()
import sf
count = {}
print(before, most(), count)
"""
# A loop over the pipe, what stands in the pipe again and again, how often, and the count.
LOOPS = [
    ("sum(1 for _ in sf.lines('%d,%d', pipe))", b"1234,-56789012\n" * 4096, SIZE // 61440, SIZE // 61440 * 4096),
    ("sum(1 for _ in sf.records('%s %d %x', pipe))", b"word 12345 ff   " * 4096, SIZE >> 16, SIZE >> 4),
    ("[*sf.lines('%s', pipe, lambda error: None)]", b"x" * 65536, SIZE >> 16, "[]"),
    ("sum(1 for _ in sf.lines('%s', pipe, 'skip'))", b"x" * (1 << 20) + b"\n" + b"y" * (1 << 20 | 1) + b"\n", 50, 50),
    ("sum(it['a'] for it in sf.lines('%d', pipe, names='a'))", b"1\n" * 32768, SIZE >> 20, SIZE >> 5),
    ("sum(1 for _ in sf.lines('%?s%?s%?s%?s', pipe))", b"\n" * 65536, SIZE >> 20, SIZE >> 4),
    ("sum(1 for _ in sf.records('%s', pipe))", b"y" * ((1 << 20) - 1) + b" ", 100, 100),
]


def piped(loop, text, times):
    """What the program writes of the loop, where the text comes so often."""
    run = subprocess.Popen([sys.executable, "-c", PROGRAM.format(loop)], stdin=subprocess.PIPE, stdout=subprocess.PIPE, env=os.environ)
    with run.stdin as to:
        for _ in range(times):
            to.write(text)
    with run.stdout as written:
        return written.read().split()


class Memory(unittest.TestCase):
    def test_memory_stays_flat(self):
        for loop, text, times, wanted in LOOPS:
            with self.subTest(loop):
                before, after, count = piped(loop, text, times)
                self.assertEqual(count.decode(), str(wanted))
                self.assertLessEqual(int(after) - int(before), MOST)
