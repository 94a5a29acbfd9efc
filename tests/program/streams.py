"""What `main` does with its streams: when output is written, in which order, and what a stream that fails does."""
import contextlib
import fcntl
import os
import pty
import resource
import select
import subprocess
import tempfile
import termios
import time
import unittest

import program
from program import folder, full

WRITE_FAULT = b"sf: write fault\n"
FAILED = b"sf: record 2: matching failure at 1, used 1, assigned 0\n"


def read_within(file, seconds):
    """What can be read within that time, or None."""
    number = file if isinstance(file, int) else file.fileno()
    ready, _, _ = select.select([number], [], [], seconds)
    return os.read(ready[0], 65536) if ready else None


def filled(pipe):
    """Fills a pipe that doesn't wait, so that each further write fails."""
    for size in (4096, 1):
        with contextlib.suppress(BlockingIOError):
            while True:
                os.write(pipe, b"x" * size)


def drained(pipe):
    """Takes all that a pipe has that doesn't wait."""
    with contextlib.suppress(BlockingIOError):
        while os.read(pipe, 65536):
            pass


class Streams(unittest.TestCase):
    def expect(self, status, out, err, *words, **how):
        self.assertEqual(program.run(*words, **how), (status, out, err))

    def started(self, *words, **how):
        """A call that is left running, and is ended with the test."""
        running = program.start(*words, **how)
        self.addCleanup(program.end, running)
        return running

    def watched(self, *words, **how):
        """A call that is fed by `feed` a piece at a time."""
        running = self.started(*words, **how)
        self.feed = lambda data: (running.stdin.write(data), running.stdin.flush())
        return running

    def writes(self, *words, stdin, **how):
        """What each single write held. A pipe of packets keeps them apart."""
        ours, theirs = os.pipe2(os.O_DIRECT)
        try:
            fcntl.fcntl(theirs, fcntl.F_SETPIPE_SZ, 1 << 20)
            status, _, err = program.run(*words, stdin=stdin, stdout=theirs, **how)
            os.close(theirs)
            self.assertEqual((status, err or b""), (0, b""))
            return list(iter(lambda: os.read(ours, 65536), b""))
        finally:
            os.close(ours)

    def bounded(self, *words, megabytes, **how):
        bound = megabytes << 20
        return program.run(*words, preexec_fn=lambda: resource.setrlimit(resource.RLIMIT_AS, (bound, bound)), **how)


class FullDisk(Streams):
    def fails(self, err, *words, stdin=b""):
        with full() as disk:
            self.expect(3, None, err, *words, stdin=stdin, stdout=disk)

    def test_the_flush_at_the_end_is_not_ignored(self):
        self.fails(WRITE_FAULT, "scan", "%d", stdin=b"1\n")
        self.fails(WRITE_FAULT, "show", "%d")
        self.fails(WRITE_FAULT, "print", "x")

    def test_nothing_to_write_is_no_fault(self):
        with full() as disk:
            self.expect(0, None, b"", "scan", "%d", stdout=disk)
            self.expect(2, None, b"sf: scan format: F4 UnknownLetter at 1\n", "show", "%q", stdout=disk)

    def test_a_fault_before_the_end_is_told_once(self):
        self.fails(WRITE_FAULT, "scan", "%d", stdin=b"1\n" * 100000)
        self.fails(WRITE_FAULT, "print", "%60000s", "x")

    def test_the_flush_fails_after_another_fault(self):
        self.fails(FAILED + WRITE_FAULT, "scan", "%d", stdin=b"1\nx\n")
        with full() as disk, folder() as unread:
            self.expect(0, None, b"", "print", "", stdin=unread, stdout=disk)

    def test_a_closed_output_is_a_write_fault(self):
        self.assertEqual(program.run_script('exec "$0" scan %d >&-', b"1\n"), (3, b"", WRITE_FAULT))

    def test_a_full_error_stream_changes_no_status(self):
        with full() as disk:
            self.expect(1, b"1\n", None, "scan", "%d", stdin=b"1\nx\n", stderr=disk)


class ClosedPipe(Streams):
    # (with an end, for a program that would keep all of it)
    LINES = "yes 1 | head -c 400000000"

    def test_it_ends_at_once(self):
        lines = program.start_command(["sh", "-c", self.LINES])
        self.addCleanup(program.end, lines)
        running = self.started("scan", "%d", stdin=lines.stdout)
        lines.stdout.close()
        self.assertEqual(running.stdout.read(2), b"1\n")
        running.stdout.close()
        self.assertEqual(running.wait(program.SECONDS), 3)
        self.assertEqual(running.stderr.read(), WRITE_FAULT)
        self.assertNotEqual(lines.wait(program.SECONDS), 0, "all of the input was read")

    def test_a_pipeline_ends_at_once(self):
        status, out, err = program.run_script(self.LINES + ' | "$0" scan %d | head -n 1')
        self.assertEqual((status, out), (0, b"1\n"))
        self.assertIn(err, (b"", WRITE_FAULT))


class Order(Streams):
    def both(self, *words, stdin):
        return program.run(*words, stdin=stdin, stderr=subprocess.STDOUT)

    def test_lines_come_before_the_error_line_that_follows_them(self):
        self.assertEqual(self.both("scan", "%d", stdin=b"1\nx\n"), (1, b"1\n" + FAILED, None))
        many = b"1\n" * 40000
        self.assertEqual(self.both("scan", "%d", stdin=many + b"x\n"), (1, many + FAILED.replace(b"2", b"40001", 1), None))

    def test_the_order_holds_in_a_file_too(self):
        with tempfile.TemporaryFile() as file:
            program.run("scan", "%d", stdin=b"1\nx\n", stdout=file, stderr=file)
            file.seek(0)
            self.assertEqual(file.read(), b"1\n" + FAILED)


class LinesThatAreTold(Streams):
    """With --keep-going each line that is no match is reported when it is read, after the records before it."""
    WORDS = ("scan", "--lines", "--keep-going", "%d")
    TOLD = b"sf: line %d: matching failure at 1, used 0, assigned 0\n"

    def test_what_is_told_stands_between_the_records(self):
        expected = (1, b"1\n" + self.TOLD % 2 + b"3\n" + self.TOLD % 4, None)
        self.assertEqual(program.run(*self.WORDS, stdin=b"1\nx\n3\ny\n", stderr=subprocess.STDOUT), expected)

    def test_a_line_is_told_while_the_input_is_open(self):
        running = self.watched(*self.WORDS)
        for number in range(1, 4):
            self.feed(b"x\n")
            self.assertEqual(read_within(running.stderr, program.SECONDS), self.TOLD % number)
        # what was written before it goes out too
        self.feed(b"1\nx\n")
        self.assertEqual(read_within(running.stderr, program.SECONDS), self.TOLD % 5)
        self.assertEqual(read_within(running.stdout, program.SECONDS), b"1\n")
        running.stdin.close()
        running.stdin = None
        self.assertEqual(running.wait(program.SECONDS), 1)

    def test_all_lines_are_told(self):
        told = b"".join(self.TOLD % number for number in range(1, 20001))
        self.expect(1, b"", told, *self.WORDS, stdin=b"x\n" * 20000)

    def test_memory_stays_flat(self):
        quiet = (*self.WORDS[:-1], "--quiet", "%d")
        self.assertEqual(self.bounded(*quiet, megabytes=16, stdin=b"1\nx\n" * 200000), (1, b"1\n" * 200000, b""))
        status, out, err = self.bounded(*self.WORDS, megabytes=16, stdin=b"x\n" * 1000000)
        self.assertEqual((status, out, err.count(b"\n")), (1, b"", 1000000))
        self.assertTrue(err.endswith(self.TOLD % 1000000))

    def test_a_write_fault_is_told_once(self):
        with full() as disk:
            self.expect(3, None, self.TOLD % 2 + WRITE_FAULT, *self.WORDS, stdin=b"1\nx\n", stdout=disk)
            self.expect(3, None, WRITE_FAULT, *self.WORDS, stdin=b"1\n" * 100000 + b"x\n", stdout=disk)

    def test_a_write_that_failed_is_not_forgotten_where_later_ones_succeed(self):
        ours, theirs = os.pipe2(os.O_NONBLOCK)
        self.addCleanup(os.close, ours)
        filled(theirs)
        running = self.watched(*self.WORDS, stdout=theirs)
        os.close(theirs)
        self.feed(b"1\nx\n")
        self.assertEqual(read_within(running.stderr, program.SECONDS), self.TOLD % 2)
        drained(ours)
        self.feed(b"3\n")
        _, err = running.communicate(timeout=program.SECONDS)
        self.assertEqual((running.returncode, err), (3, WRITE_FAULT))

    def test_a_full_error_stream_changes_no_record(self):
        with full() as disk:
            self.expect(1, b"1\n3\n", None, *self.WORDS, stdin=b"1\nx\n3\n", stderr=disk)


class LinesAboveTheLimit(Streams):
    """A line is reported once it is above the limit, whether its end has come or not."""
    TOLD = b"sf: line 1: too long\n"

    def test_a_line_without_an_end_is_told(self):
        told = b"sf: /dev/zero: line 1: too long\n"
        self.expect(1, b"", told, "scan", "-l", "%d", "/dev/zero")
        self.expect(1, b"", told, "scan", "-l", "--limit", "0", "%d", "/dev/zero")
        self.expect(1, b"", told, "copy", "-l", "%d;", "%11d;", "/dev/zero")

    def test_it_is_told_while_the_input_is_open(self):
        running = self.watched("scan", "-l", "--limit", "10", "%d")
        self.feed(b"7" * 10)
        self.assertIsNone(read_within(running.stderr, 0.2))
        self.feed(b"7")
        self.assertEqual(read_within(running.stderr, program.SECONDS), self.TOLD)
        self.assertEqual(running.wait(program.SECONDS), 1)
        self.assertEqual(running.stdout.read(), b"")

    def test_with_keep_going_its_rest_is_passed_over(self):
        running = self.watched("scan", "-l", "-k", "--limit", "10", "%d")
        self.feed(b"7" * 11)
        self.assertEqual(read_within(running.stderr, program.SECONDS), self.TOLD)
        self.feed(b"8" * 100000)
        self.assertIsNone(read_within(running.stderr, 0.2))
        out, err = running.communicate(b"9\n2\n", timeout=program.SECONDS)
        self.assertEqual((running.returncode, out, err), (1, b"2\n", b""))

    def test_with_keep_going_memory_stays_flat(self):
        self.assertEqual(self.bounded("scan", "-l", "-k", "%d", megabytes=16, stdin=b"7" * 60000000 + b"\n2\n"), (1, b"2\n", self.TOLD))


class Blocks(Streams):
    # (what stands in front of the writer has 32,768 bytes, and 16,384 are read at once; a line has three bytes more than its text)
    LENGTHS = (1, 7, 13, 14, 29, 30, 3997, 8192, 16380, 16383, 16384, 32743, 32744, 32745, 32746, 32764, 32765, 32766, 32768, 40000, 70000)

    def test_records_of_any_lengths_stand_in_order(self):
        for first in self.LENGTHS:
            texts = [bytes([97 + at % 26]) * length for at, length in enumerate((first, 5, *self.LENGTHS, 5, first, *reversed(self.LENGTHS)))]
            out = b"".join(b'"%s"\n' % text for text in texts)
            self.expect(0, out, b"", "scan", "%s", stdin=b"\n".join(texts))

    def test_records_that_just_fill_a_block(self):
        for count in range(5450, 5470):
            self.expect(1, b"7\n" * 3 * count, b"sf: record %d: matching failure at 1, used 1, assigned 0\n" % (3 * count + 1), "scan", "%d", stdin=b"7\n" * 3 * count + b"x")


class WhenItIsDue(Streams):
    """A record's line on a terminal comes while the input is still open; for a pipe lines are kept for a block."""

    def test_a_terminal_is_shown_each_record_when_it_is_read(self):
        ours, theirs = pty.openpty()
        self.addCleanup(os.close, ours)
        running = self.watched("scan", "%d", stdout=theirs)
        os.close(theirs)
        for number in (b"1", b"22", b"-333"):
            self.feed(number + b"\n")
            self.assertEqual(read_within(ours, program.SECONDS), number + b"\r\n")
        # the last one ends with the input alone
        self.feed(b"4")
        self.assertIsNone(read_within(ours, 0.2))
        running.stdin.close()
        running.stdin = None
        self.assertEqual(read_within(ours, program.SECONDS), b"4\r\n")
        self.assertEqual(running.wait(program.SECONDS), 0)

    def test_a_terminal_on_both_sides(self):
        ours, theirs = pty.openpty()
        self.addCleanup(os.close, ours)
        mode = termios.tcgetattr(theirs)
        mode[3] &= ~termios.ECHO
        termios.tcsetattr(theirs, termios.TCSANOW, mode)
        running = self.started("scan", "%d,%d", stdin=theirs, stdout=theirs)
        os.close(theirs)
        os.write(ours, b"1,2\n")
        self.assertEqual(read_within(ours, program.SECONDS), b"1 2\r\n")
        os.write(ours, b"\x04")
        self.assertEqual(running.wait(program.SECONDS), 0)

    def test_explain_keeps_no_line_back(self):
        ours, theirs = pty.openpty()
        self.addCleanup(os.close, ours)
        running = self.watched("scan", "--explain", "%d", stdout=theirs)
        os.close(theirs)
        for number in (b"1", b"22"):
            self.feed(number + b"\n")
            self.assertEqual(read_within(ours, program.SECONDS), number + b"\r\n")
        running.stdin.write(b"\n x")
        running.stdin.close()
        running.stdin = None
        self.assertEqual(running.wait(program.SECONDS), 1)
        self.assertIn(b"\n  at line 4, column 2 of the input\n", running.stderr.read())

    def test_a_pipe_is_written_in_blocks(self):
        self.assertEqual(self.writes("scan", "%d", stdin=b"7\n" * 100), [b"7\n" * 100])
        written = self.writes("scan", "%d", stdin=b"7\n" * 20000)
        self.assertEqual(b"".join(written), b"7\n" * 20000)
        self.assertLess(len(written), 40)

    def terminal(self):
        """The two ends of a terminal; the second one is for a call."""
        ends = pty.openpty()
        for end in ends:
            self.addCleanup(os.close, end)
        return ends

    def test_a_pipe_is_written_in_blocks_where_errors_go_to_a_terminal(self):
        _, theirs = self.terminal()
        self.assertEqual(self.writes("scan", "%d", stdin=b"7\n" * 100, stderr=theirs), [b"7\n" * 100])

    def test_errors_in_a_pipe_have_no_notes_where_the_output_is_a_terminal(self):
        ours, theirs = self.terminal()
        for words in (("scan", "%d"), ("scan", "--lines", "%d,%d"), ("scan", "%q"), ("copy", "%d;", "%d;")):
            with self.subTest(words):
                status, _, err = program.run(*words, stdin=b"x\n", stdout=theirs)
                self.assertEqual((status, err.count(b"\n")), (1 if words[1] in ("%d", "--lines") else 2, 1))
        self.expect(1, None, FAILED, "scan", "%d", stdin=b"1\nx\n", stdout=theirs)
        self.assertEqual(read_within(ours, program.SECONDS), b"1\r\n")


class Input(Streams):
    def test_an_input_that_cannot_be_read(self):
        with folder() as unread:
            self.expect(3, b"", b"sf: record 1: read fault\n", "scan", "%d", stdin=unread)

    def test_a_closed_input(self):
        self.assertEqual(program.run_script('exec "$0" scan %d <&-'), (3, b"", b"sf: record 1: read fault\n"))

    def test_an_input_that_is_not_needed_is_not_read(self):
        with folder() as unread:
            self.expect(0, b"1 d i32 width - slot 1\ndestinations 1, width sum 0\n", b"", "show", "%d", stdin=unread)
            self.expect(0, b"7", b"", "print", "%d", "7", stdin=unread)
            self.expect(2, b"", b"sf: scan format: F4 UnknownLetter at 1\n", "scan", "%q", stdin=unread)

    def test_what_follows_a_bad_record_is_not_waited_for(self):
        for words in (("scan", "%d"), ("scan", "--explain", "%d"), ("scan", "--lines", "%d"), ("copy", r"%d\n", r"%11d%*1[\n]")):
            with self.subTest(words):
                running = self.watched(*words)
                self.feed(b"1\nx\n")
                self.assertEqual(running.wait(program.SECONDS), 1)
                self.assertEqual(running.stdout.read(), b"1\n")

    def test_pieces_of_any_size_give_the_same_lines(self):
        text = b"".join(b"%d,%d\n" % (number, -number) for number in range(60))
        for size in (1, 2, 3, 7):
            running = self.started("scan", "%d,%d")
            for at in range(0, len(text), size):
                running.stdin.write(text[at : at + size])
                running.stdin.flush()
            out, err = running.communicate(timeout=program.SECONDS)
            self.assertEqual((running.returncode, err), (0, b""))
            self.assertEqual(out, text.replace(b",", b" "))

    def test_what_is_kept_does_not_grow_with_the_input(self):
        text = b"12345\n" * 2000000
        for words in (("scan", "%d"), ("scan", "--explain", "%d")):
            status, out, err = self.bounded(*words, stdin=text, megabytes=16)
            self.assertEqual((status, len(out), err), (0, len(text), b""))

    def test_the_place_in_pieces_of_any_size(self):
        for size in (1, 2, 3, 4095, 4096, 4097, 8192):
            running = self.started("scan", "--explain", "%d")
            text = b"1\n" * 2500 + b" \n\n x"
            for at in range(0, len(text), size):
                running.stdin.write(text[at : at + size])
                running.stdin.flush()
            out, err = running.communicate(timeout=program.SECONDS)
            self.assertEqual((running.returncode, out), (1, b"1\n" * 2500))
            self.assertIn(b"\n  at line 2503, column 2 of the input\n", err)
