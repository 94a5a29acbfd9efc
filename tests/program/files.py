"""Files after the formats: the order in which they are read, where a record or a line ends, and what is said of each."""
import os
import tempfile

import program
from streams import Streams

UNOPENED = b"sf: gone: can't be opened\n"
# what stands in each file of a test
TEXTS = {
    "ab": b"1 2\n3",
    "cd": b"4\n5 6\n",
    "bad": b"7\nx\n8\n",
    "head": b"n\n1\n2\n",
    "too": b"n\n3\n",
    "-odd name": b"9\n",
    "empty": b"",
}


class Files(Streams):
    def setUp(self):
        place = tempfile.TemporaryDirectory()
        self.addCleanup(place.cleanup)
        self.place = place.name
        for name, text in TEXTS.items():
            with open(os.path.join(self.place, name), "wb") as file:
                file.write(text)

    def gives(self, status, out, err, *words, **how):
        self.expect(status, out, err, *words, cwd=self.place, **how)

    def test_records_of_two_files(self):
        """The 3 that ends a file and the 4 that begins the next one are two records."""
        self.gives(0, b"1\n2\n3\n4\n5\n6\n", b"", "scan", "%d", "ab", "cd")
        self.gives(0, b"4\n5\n6\n1\n2\n3\n", b"", "scan", "%d", "cd", "ab")

    def test_lines_of_two_files(self):
        self.gives(0, b'"1 2"\n"3"\n"4"\n"5 6"\n', b"", "scan", "--lines", r"%[^\n]", "ab", "cd")

    def test_standard_input_stands_between(self):
        self.gives(0, b"1\n2\n3\n70\n71\n4\n5\n6\n", b"", "scan", "%d", "ab", "-", "cd", stdin=b"70 71")

    def test_standard_input_is_read_where_there_is_no_file(self):
        self.gives(0, b"70\n", b"", "scan", "%d", stdin=b"70")

    def test_standard_input_is_left_alone_where_there_is_one(self):
        with open(os.path.join(self.place, "cd"), "rb") as file:
            self.gives(0, b"1\n2\n3\n", b"", "scan", "%d", "ab", stdin=file.fileno())
            self.assertEqual(file.read(), TEXTS["cd"])

    def test_each_word_after_e_is_a_file(self):
        self.gives(0, b"1\n3\n4\n5\n", b"", "scan", "--lines", "-e", "%d", "ab", "cd")
        self.gives(0, b"1\n3\n4\n5\n", b"", "scan", "ab", "--lines", "-e", "%d", "cd")

    def test_a_name_that_begins_with_a_hyphen(self):
        self.gives(0, b"9\n", b"", "scan", "%d", "--", "-odd name")

    def test_a_copy_of_files(self):
        self.gives(1, b"4\n", b"sf: cd: record 2: matching failure at 2, used 1, assigned 1\n", "copy", r"%d\n", r"%11d%*1[\n]", "empty", "cd")

    def test_a_copy_of_the_lines_of_files(self):
        words = ("copy", "-lks1", r"%03u\n", r"%3u%*1[\n]", "head", "too", "cd")
        self.gives(1, b"001\n002\n003\n", b"sf: cd: line 2: left over at 1\n", *words)

    def test_records_are_counted_in_each_file(self):
        self.gives(1, b"1\n2\n3\n7\n", b"sf: bad: record 2: matching failure at 1, used 1, assigned 0\n", "scan", "%d", "ab", "bad", "cd")

    def test_lines_are_counted_in_each_file_and_the_first_that_fails_ends_all(self):
        said = b"sf: bad: line 2: matching failure at 1, used 0, assigned 0\n"
        self.gives(1, b"1\n3\n7\n", said, "scan", "--lines", "%d", "ab", "bad", "cd")
        self.gives(1, b"1\n3\n7\n", b"", "scan", "--lines", "--quiet", "%d", "ab", "bad", "cd")

    def test_keep_going_goes_on_through_the_files(self):
        said = b"sf: bad: line 2: matching failure at 1, used 0, assigned 0\n"
        self.gives(1, b"7\n8\n4\n5\n", said, "scan", "--lines", "--keep-going", "%d", "bad", "cd")
        self.gives(3, b"7\n8\n4\n5\n", said + UNOPENED, "scan", "--lines", "--keep-going", "%d", "bad", "gone", "cd")

    def test_lines_are_skipped_in_each_file(self):
        self.gives(0, b"1\n2\n3\n", b"", "scan", "--lines", "--skip", "1", "%d", "head", "too")

    def test_a_header_is_written_once(self):
        csv = ("scan", "--output", "csv", "--names", "n")
        self.gives(0, b"n\n1\n2\n3\n4\n5\n6\n", b"", *csv, "%d", "ab", "cd")
        self.gives(0, b"n\n1\n2\n3\n", b"", *csv, "--lines", "--skip", "1", "%d", "head", "too")
        self.gives(3, b"n\n4\n5\n6\n", UNOPENED, *csv, "%d", "gone", "cd")

    def test_a_file_that_cannot_be_opened(self):
        self.gives(3, b"1\n2\n3\n4\n5\n6\n", UNOPENED, "scan", "%d", "ab", "gone", "cd")
        self.gives(3, b"", UNOPENED + UNOPENED, "scan", "--lines", "--matching", "%d", "gone", "gone")
        # a record that would take nothing of it isn't blamed
        self.gives(3, b"", UNOPENED, "scan", "", "gone")
        self.gives(1, b"", b"sf: empty: record 1: stalled\n", "scan", "", "empty")

    def test_a_name_without_a_byte_is_no_file(self):
        """As that of a variable that isn't set; standard input isn't read in its place."""
        for words in (("scan", "%d"), ("scan", "--lines", "%d"), ("copy", "%d;", "%11d;")):
            with self.subTest(words):
                self.gives(3, b"", b"sf: : can't be opened\n", *words, "", stdin=b"5\n")

    def test_a_file_is_read_in_blocks(self):
        """A read that asks for less than a packet loses the rest of it."""
        ours, theirs = os.pipe2(os.O_DIRECT)
        self.addCleanup(os.close, ours)
        packets = [b"%04095d\n" % number for number in range(1, 9)]
        for packet in packets:
            os.write(theirs, packet)
        os.close(theirs)
        self.gives(0, b"1\n2\n3\n4\n5\n6\n7\n8\n", b"", "scan", "%d", "/dev/stdin", stdin=ours)

    def test_the_greatest_status_counts(self):
        said = b"sf: bad: record 2: matching failure at 1, used 1, assigned 0\n"
        self.gives(3, b"7\n", UNOPENED + said, "scan", "%d", "gone", "bad", "cd")

    def test_a_folder_cannot_be_read(self):
        os.mkdir(os.path.join(self.place, "box"))
        self.gives(3, b"4\n5\n6\n", b"sf: box: record 1: read fault\n", "scan", "%d", "box", "cd")
        self.gives(3, b"4\n5\n", b"sf: box: line 1: read fault\n", "scan", "--lines", "%d", "box", "cd")

    def test_formats_are_judged_before_any_file_is_blamed(self):
        for words in (("scan", "%q"), ("scan", "--lines", "%q"), ("copy", "%q", "%d")):
            with self.subTest(words):
                name = b"print format" if words[0] == "copy" else b"scan format"
                status, out, err = self.run_in(*words, "gone", "ab")
                self.assertEqual((status, out), (2, b""))
                self.assertTrue(err.startswith(b"sf: " + name + b": "), err)
                self.assertNotIn(b"gone", err)
        names = ("scan", "--output", "csv", "--names", "a,b", "%d", "gone")
        self.gives(2, b"", b"sf: names: expected 1, got 2\n", *names)

    def run_in(self, *words):
        return program.run(*words, cwd=self.place)

    def test_a_write_fault_ends_all_and_has_no_name(self):
        with program.full() as disk:
            self.gives(3, None, b"sf: write fault\n", "scan", "%d", "ab", "cd", stdout=disk)
            self.gives(3, None, b"sf: write fault\n", "scan", "--line-buffered", "%d", "ab", "gone", "cd", stdout=disk)

    def test_explain_speaks_of_the_place_in_the_file(self):
        status, out, err = self.run_in("scan", "--explain", "%d", "ab", "bad")
        self.assertEqual((status, out), (1, b"1\n2\n3\n7\n"))
        self.assertTrue(err.startswith(b"sf: bad: record 2: matching failure at 1, used 1, assigned 0\n  "), err)
        self.assertIn(b"line 2", err)
