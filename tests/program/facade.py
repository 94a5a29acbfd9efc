"""The names that the crate sf_scanf hands on: those of this list, and no others. A program that uses one of them would
no longer build without it, and few of them stand in a program of this repository. Each is in one of its five modules, and
twelve are in the prelude, too."""
import re
import unittest

from program import ROOT

NAMES = """
BlockSink Ended Ending Fed FeedState Field FixedStore FormatFault FormatWhy GivenRow HeapStore Kind LineFault
LineItems LineReports LineWhy Lines ListSink Lookahead Match Outcome Pair PairFault PairWhy PrintFault PrintFormat
Profile ReadRowsFault RecordFault RecordItems RecordWhy Records Report Reports Row RowFault ScanFormat ScanRowFault
Scanned Scanner ShapeFault Sink SinkFault SliceSource Source SourceFault StartFault Status StdSink StdSource Store
StoreFull Taken Value WriteFault WriteRowsFault fprint fprint_given fscan fscan_fixed fscan_over is_done is_end
printed_len read_back read_back_fixed read_back_over read_rows scan_pieces scan_row scan_row_over sscan sscan_over
sscan_row sscan_row_by write_rows
""".split()


MODULES = ("scan", "print", "pair", "io", "store")


def handed_on(file="lib"):
    """Each name of each `pub use` of the crate, or of one of its modules."""
    with open(ROOT + f"/crates/sf_scanf/src/{file}.rt", encoding="utf-8") as source:
        text = source.read()
    uses = re.findall(r"^pub use \w+::(?:\{([^}]*)\}|(\w+));", text, re.MULTILINE)
    assert len(uses) == len(re.findall(r"^\s*pub use ", text, re.MULTILINE)), "a `pub use` of another form"
    return [name for many, one in uses for name in re.findall(r"\w+", many or one)]


class Facade(unittest.TestCase):
    def test_it_hands_on_the_names_of_the_list(self):
        self.assertEqual(sorted(handed_on()), sorted(NAMES))

    def test_each_name_is_in_a_module(self):
        self.assertEqual(sorted({name for module in MODULES for name in handed_on(module)}), sorted(NAMES))

    def test_the_prelude_has_twelve(self):
        prelude = handed_on("prelude")
        self.assertEqual((len(prelude), set(prelude) - set(NAMES)), (12, set()))
