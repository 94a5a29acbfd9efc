"""The options: what is written when under --line-buffered, and what --limit lets a record take."""
import time

import program
from streams import Streams, read_within


class LineBuffered(Streams):
    def test_line_buffered_writes_each_record_when_it_is_read(self):
        whole_lines = ("copy", "--line-buffered", r"%d\n", r"%11d%*1[\n]")
        for words in (("scan", "%d"), ("scan", "--explain", "%d"), ("scan", "--lines", "%d"), ("scan", "--output", "tsv", "%d"), whole_lines):
            with self.subTest(words):
                running = self.watched(words[0], "--line-buffered", *(it for it in words[1:] if it != "--line-buffered"))
                for number in (b"1", b"22", b"-333"):
                    self.feed(number + b"\n")
                    self.assertEqual(read_within(running.stdout, program.SECONDS), number + b"\n")

    def test_line_buffered_in_a_pipeline(self):
        script = '(echo 1; sleep 2; echo 2) | "$0" scan --line-buffered %d'
        began = time.monotonic()
        running = program.start_command(["sh", "-c", script, program.path])
        self.addCleanup(program.end, running)
        self.assertEqual(read_within(running.stdout, program.SECONDS), b"1\n")
        self.assertLess(time.monotonic() - began, 1.8)
        self.assertEqual(running.stdout.read(), b"2\n")

    def test_a_record_without_a_byte_to_come_is_due_at_once(self):
        """What no byte could go on with ends without waiting for one."""
        running = self.watched("scan", "--line-buffered", "%2d")
        self.feed(b"12")
        self.assertEqual(read_within(running.stdout, program.SECONDS), b"12\n")

    def test_a_pipe_is_written_record_by_record_where_that_is_asked_for(self):
        self.assertEqual(self.writes("scan", "--line-buffered", "%d", stdin=b"7\n" * 100), [b"7\n"] * 100)


class ManyWords(Streams):
    def test_the_last_of_many_formats_is_tried(self):
        others = [word for number in range(200) for word in ("-e", f"{number}:%d")]
        self.expect(0, b"5\n", b"", "scan", "--lines", *others, "-e", "%d", stdin=b"5\n")

    def test_the_last_of_many_values_is_missed(self):
        for count in (31, 32):
            status = {31: 2, 32: 0}[count]
            self.assertEqual(program.run("print", "%d" * 32, *["7"] * count)[0], status)


class Limit(Streams):
    def test_want_of_memory_is_told_and_the_lines_before_stand(self):
        text = b"1\n" + b"a" * (200 << 20)
        status, out, err = self.bounded("scan", "--limit", "2147483647", "%s", stdin=text, megabytes=64)
        self.assertEqual((status, out, err), (4, b'"1"\n', b"sf: out of memory\n"))

    def test_a_write_fault_at_the_end_outweighs_want_of_memory(self):
        text = b"1\n" + b"a" * (200 << 20)
        with program.full() as disk:
            words = ("scan", "--limit", "2147483647", "%s")
            status, _, err = self.bounded(*words, stdin=text, megabytes=64, stdout=disk)
        self.assertEqual((status, err), (3, b"sf: out of memory\nsf: write fault\n"))
