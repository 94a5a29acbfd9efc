"""Several threads with one format, one library, and each its loop."""
import threading
import unittest

import sf

THREADS = 8


def in_threads(call):
    """What the call answers in each thread, by its number."""
    found, start = [None] * THREADS, threading.Barrier(THREADS)

    def run(number):
        start.wait()
        try:
            found[number] = call(number)
        except BaseException as error:  # noqa: B036 (it is compared)
            found[number] = error

    threads = [threading.Thread(target=run, args=(number,)) for number in range(THREADS)]
    for it in threads:
        it.start()
    for it in threads:
        it.join()
    return found


class Threads(unittest.TestCase):
    def test_one_format_for_single_texts(self):
        format = sf.Format("%d %s")

        def scan(number):
            return [format.scan(f"{number * 1000 + at} {'w' * (at % 50 + 1)}") for at in range(1000)]

        wanted = [[(number * 1000 + at, "w" * (at % 50 + 1)) for at in range(1000)] for number in range(THREADS)]
        self.assertEqual(in_threads(scan), wanted)

    def test_one_format_for_loops(self):
        format = sf.Format("%d,%[^\n]")
        texts = [b"".join(b"%d,text %d\n" % (number * at, number) for at in range(20_000)) for number in range(THREADS)]
        wanted = [[(number * at, b"text %d" % number) for at in range(20_000)] for number in range(THREADS)]
        self.assertEqual(in_threads(lambda number: list(format.lines(texts[number]))), wanted)
        self.assertEqual(in_threads(lambda number: list(sf.records("%d,%[^\n]%*1[\n]", texts[number]))), wanted)

    def test_failures_are_those_of_the_thread(self):
        def failing(number):
            seen = []
            for _ in range(200):
                list(sf.lines("%hhu", b"1\n%d\n" % (1000 + number), seen.append))
            return {(it.text, it.number, str(it)) for it in seen}

        message = "line 2: out of range at 1, used 4, assigned 0; %hhu takes 0 to 255"
        self.assertEqual(in_threads(failing), [{(b"%d" % (1000 + number), 2, message)} for number in range(THREADS)])

    def test_prints_and_checks(self):
        self.assertEqual(in_threads(lambda number: {sf.print("%d %s", number, "x" * number * 500) for _ in range(200)}),
                         [{f"{number} {'x' * number * 500}"} for number in range(THREADS)])
        self.assertEqual(in_threads(lambda number: all(sf.check("%d;", f"%{11 + number}d;") for _ in range(200))), [True] * THREADS)
