r"""How many mistakes are helped, of those that people were seen to type.

Each row has a mistake as it is typed in a shell, and a line that helps, which a terminal shows. Of a mistake that was
typed in several ways each way has one; None where that does what was meant. Those of `SILENT` do something else than was
meant, and nothing is said: what they give stands there, and docs/COOKBOOK.md ("What passes unseen, and how to see it")
has the formats that refuse it.

    python3 tests/program/typed.py [PROGRAM]     says how many are helped
"""
import os
import pty
import sys
import tempfile
import unittest

import program

FLOATS = "%f: floating point is left out of profiles 1 and 2; formats have it by --profile 3"
ORDER = "of two formats the print format comes first"
QUOTES = "a format with spaces stands between quotes, and after -e each word is a file"
SEPARATOR = "tip: the format says what separates the values: '%[^,],%d'"
ALONE = "of a print format alone, the scan format that reads it back is written: sf check PRINT SCAN judges two"
WIDTH = ": --width N says how many bytes the texts of %s have at most"
NUMBER = "is no decimal integer from -2147483648 to 2147483647"
SHELL = "a shell takes $ and the letters after it out of double quotes: single quotes keep them"

HELPED = (
    # formats
    ("a float", ("sf scan %f", FLOATS)),
    ("a double", ("sf scan %lf", FLOATS)),
    ("a float that is printed", ("sf print '%5.2f' 1.5", FLOATS)),
    ("no letter of a conversion", ("sf scan %q", '"q": no conversion of this profile is written so')),
    ("a regular expression of digits", (r"sf scan '\d+'", r"\d is no escape")),
    ("a regular expression of words", (r"sf scan '(\w+)'", r"\w is no escape")),
    ("an open set", ("sf scan '%[a-z'", "no ] closes the set")),
    ("a percent sign alone", ("sf scan %", "%% stands for a percent sign")),
    ("%hf", ("sf scan %hf", FLOATS)),
    ("memory of the scan's own", ("sf scan %ms", "%m: memory of the scan's own is not part of sf")),
    ("a wide character", ("sf scan %lc", "%lc: wide characters are not part of sf")),
    ("a pointer", ("sf scan %p", "%p: pointers are not part of sf")),
    ("a number and none", ("sf scan '%1$d %d'", "either all conversions have a number with $, or none has")),
    ("a width of 0", ("sf scan %0d", "a conversion of width 0 takes nothing")),
    ("a width that is too large", ("sf scan %99999999d", "a width is at most 65535")),
    ("too many values", ("sf scan '" + "%d " * 33 + "'", "a format has at most 32 values")),
    ("what may be missing", ("sf scan '%?d'", "in a scan format and by --profile 3: write %?5d")),
    ("a column", ("sf scan '%=5d'", "in a scan format and by --profile 3: write %=8d"), ("sf scan -p3 '%5=d'", "in a scan format and by --profile 3: write %=8d")),
    ("a column without a width", ("sf scan -p3 %=d", "a = has a width after it")),
    ("a width among the values", ("sf print '%*d' 5 5", "%*: a width or a precision among the values is not part of sf")),
    ("a precision", ("sf scan '%5.2f'", "a scan format has no precision: write %5f, and not %5.2f")),
    ("a precision in profile 3", ("sf scan -p3 '%5.2f'", "a scan format has no precision: write %5f, and not %5.2f")),
    ("base 2", ("sf scan %b", "base 2 is read and printed by --profile 2"), ("sf print %b 5", "base 2 is read and printed by --profile 2")),
    ("a long double", ("sf scan -p3 %Lf", "%L: long double is not part of sf; %lf is a double")),
    ("capital letters", ("sf scan %D", "write %ld, %lo or %lu"), ("sf scan %U", "write %ld, %lo or %lu")),
    ("a class of POSIX", ("printf '12\n' | sf scan -l '%[[:digit:]]'", "classes as [:digit:] are not part of scanf: write %[0-9]")),
    ("double quotes", ('sf scan "%2$d %1$d"', SHELL), ('sf scan "%1$d"', SHELL), (r'sf print "%2$s %1$s\n" a b', SHELL)),
    # words
    ("no format", ("sf scan", "the following required arguments were not provided")),
    ("a command that is misspelt", ("sf scann %d", "tip: a similar subcommand exists: 'scan'")),
    ("an option that is misspelt", ("sf scan --line %d", "tip: a similar argument exists: '--lines'")),
    ("a form that is none", ("sf scan --output xml %d", "[possible values: plain, tsv, json, csv]")),
    ("fewer lines than none", ("sf scan -l --skip -1 %d", "invalid value '-1' for '--skip <N>'")),
    ("--skip without --lines", ("sf scan --skip 1 %d", "cannot be used without '--lines'")),
    ("-e without --lines", ("sf scan -e %d", "cannot be used without '--lines'")),
    ("--tag without -e", ("sf scan -l --tag %d", "cannot be used without '-e <FORMAT>'")),
    ("--matching with --keep-going", ("sf scan -l --matching -k %d", "'--matching' cannot be used with '--keep-going'")),
    ("--print with --output", (r"sf scan --print '%d\n' -o json %d", "cannot be used with '--output <FORM>'")),
    ("no command", ("sf '%d %d' < ab", "tip: a command stands first: sf scan '%d %d'")),
    ("the options of other tools", (r"printf '%s' '--x' | sf scan -l --ignore '--%*[^\n]' %d", None), (r"printf 1 | sf scan --print '-%d\n' %d", None),
     ("sf scan -d, %d", SEPARATOR), ("sf scan -F, %d", SEPARATOR), ("sf scan --json %d", "tip: '-o json' writes JSON")),
    ("a limit in megabytes", ("sf scan --limit 1M %s", "it is no number from 0 to 2147483647")),
    ("how the version is asked for", ("sf version", "tip: 'sf --version' writes the version"), ("sf -v", "tip: 'sf --version' writes the version")),
    ("a number that was forgotten", ("sf scan -l -s '%d'", "invalid value '%d' for '--skip <N>': it is no number")),
    ("two forms", ("printf 1 | sf scan -o json -o csv %d", None)),
    ("fewer names than values", ("sf scan -o json --names a '%d %d'", "--names has 1 name, and a format gives 2 values: write 2 names, as --names a,b"),
     ("sf scan -l -o json --names a,b,c '%d %d'", "--names has 3 names, and a format gives 2 values: write 2 names, as --names a,b")),
    ("names with blanks", ("sf scan -o json --names 'a, b' '%d %d'", "a blank stands around a name: write --names 'a,b'")),
    # files
    ("a file that isn't there", ("sf scan %d gone", "No such file or directory")),
    ("a folder", ("sf scan %d .", "Is a directory")),
    ("a file that isn't there, and one that is", ("sf scan %d gone ab", "No such file or directory")),
    ("a full disk", ("printf 1 | sf scan %d > /dev/full", "No space left on device")),
    ("a file before the format", ("sf scan ab '%d'", "the format stands before the files")),
    ("a format without quotes", ("sf scan %d %d < ab", QUOTES)),
    ("a format beside -e", ("sf scan -l '%d %d' -e '%d' ab", QUOTES)),
    # pairs
    ("a copy without a width", (r"sf copy '%d\n' '%d\n'", "a conversion that is read back needs a width: write %11d")),
    ("a check without a width", (r"sf check '%d\n' '%d\n'", "a conversion that is read back needs a width: write %11d")),
    ("a copy by formats in the other order", (r"sf copy '%11d%*1[\n]' '%d\n'", ORDER)),
    ("a check of formats in the other order", (r"sf check '%11d%*1[\n]' '%d\n'", ORDER)),
    ("a copy of a column of another width", (r"sf copy -p3 '%5d\n' '%=6d%*1[\n]'", "the two widths differ at a conversion with =")),
    ("a copy of floats without a width", (r"sf copy -p3 '%.2f\n' '%lf%*1[\n]'", "a conversion that is read back needs a width: write %313lf")),
    ("a check of one format", (r"sf check '%s\n'", WIDTH), (r"sf check -p3 '%s,%d\n'", WIDTH), (r"sf check --width 20 '%s%d\n'", ALONE)),
    # values
    ("a word for a number", ("sf print %d abc", NUMBER)),
    ("a float for a number", ("sf print %d 3.7", NUMBER)),
    ("a comma in a number", ("sf print %d 1,234", NUMBER)),
    ("a number of base 16", ("sf print %d 0x10", NUMBER)),
    ("too few values", ("sf print '%d %d' 1", '"%d %d" takes 2 values, not 1')),
    ("too many values for a print", ("sf print %d 1 2", '"%d" takes 1 value, not 2')),
    ("two bytes for one", ("sf print %c ab", '"ab" is not one byte')),
    ("a backslash in a value", (r"sf print '%s' 'C:\dir'", "with --raw values are taken as they stand")),
    ("a print of another kind", (r"sf scan -l --print '%x\n' %d", "u32 is read by %u, and i32 is printed by %d"),
     (r"printf '1\n' | sf scan -l --print '%ld\n' %d", None),
     (r"sf scan -l --print '%s\n' %d", "text is read by %s, and i32 is printed by %d"), (r"sf scan -p3 -l --print '%.1f\n' %d", "f64 is read by %lf")),
    # records
    ("a record over a line's end", (r"printf '1 2\n3\n4 5\n6 7\n' | sf scan '%d %d'", "sf scan --lines ends each record with its line")),
    ("a newline before a record", (r"printf 'a,1\nb,x\n' | sf scan '%[^,],%d'", r"%*1[\n] at its end takes it")),
    ("a text that takes the comma", (r"printf 'a,1\n' | sf scan -l '%s,%d'", 'a text that ends before the next byte of the format is "%[^,]"')),
    ("a byte order mark", (r"printf '\357\273\2771\n' | sf scan -l %d", "a byte order mark stands there"),
     (r"printf '\377\3761\000' | sf scan -l %d", "the input seems to be UTF-16")),
    ("a blank before a column", (r"printf 'ATOM     12 N\n' | sf scan -lp3 'ATOM  %=5d'", "white space in the format takes the blanks of the column after it, too")),
    ("a column that holds something else", (r"printf '1 2  |\n' | sf scan -lp3 '%=5d|'", 'the column has "1 2  "')),
    ("a carriage return", (r"printf '1\r\n' | sf scan -lw %d", "a space at the format's end takes it")),
    ("a format that takes nothing", ("sf scan '' < ab", "the format took no byte"), ("sf scan '' gone", "No such file or directory")),
)

SILENT = (
    ("a number that isn't whole", r"printf '3.14\n' | sf scan -l %d", "3\n"),
    ("a minus before an unsigned number", r"printf '10.0.0.-1\n' | sf scan -lw '%hhu.%hhu.%hhu.%hhu'", "10 0 0 255\n"),
    ("--ignore with a part of a line", r"printf '# a\n' | sf scan -l --ignore '#' '%s %s'", '"#" "a"\n'),
    ("a line by no conversion", r"printf 'a\n' | sf scan -l ''", "\n"),
    ("--print without a newline", r"printf '1 2\n3 4\n' | sf scan -l --print '%d %d' '%d %d'", "1 23 4"),
    ("a carriage return in a text", r"printf '1,2\r\n' | sf scan -l '%d,%[^,]'", '1 "2\\x0d"\n'),
    ("UTF-8 in the plain form", r"printf 'Zo\303\253\n' | sf scan -l %s", '"Zo\\xc3\\xab"\n'),
)


def on_terminal(script, folder):
    """What a shell's script writes, and what its error output shows, where that is a terminal."""
    ours, theirs = pty.openpty()
    try:
        _, out, _ = program.run_script('sf() { "$0" "$@"; }\n' + script, stderr=theirs, cwd=folder)
        os.write(theirs, b"\0")
        shown = b""
        while not shown.endswith(b"\0"):
            shown += os.read(ours, 65536)
    finally:
        os.close(ours)
        os.close(theirs)
    return out.decode(), shown[:-1].replace(b"\r\n", b"\n").decode()


def unhelped(ways, folder):
    """The ways of typing a mistake that show no line which helps; where none is wanted, what they show all the same."""
    for typed, helps in ways:
        _, shown = on_terminal(typed, folder)
        if shown if helps is None else helps not in shown:
            yield typed, shown


def with_folder(call):
    """What a call comes to in a folder where the file `ab` is."""
    with tempfile.TemporaryDirectory() as folder:
        with open(os.path.join(folder, "ab"), "w", encoding="ascii") as file:
            file.write("1 2\n")
        return call(folder)


class Typed(unittest.TestCase):
    maxDiff = None

    def test_each_is_helped(self):
        for name, *ways in HELPED:
            with self.subTest(name):
                self.assertEqual(with_folder(lambda folder: list(unhelped(ways, folder))), [])

    def test_what_the_others_give(self):
        for name, typed, wanted in SILENT:
            with self.subTest(name):
                self.assertEqual(with_folder(lambda folder: on_terminal(typed, folder)), (wanted, ""))

    def test_at_most_eight_are_not_helped(self):
        names = [name for name, *_ in HELPED + SILENT]
        self.assertEqual(len(set(names)), 83)
        self.assertLessEqual(len(SILENT), 8)


def main():
    if sys.argv[1:]:
        program.path = os.path.abspath(sys.argv[1])
    helped = sum(with_folder(lambda folder: not list(unhelped(ways, folder))) for _, *ways in HELPED)
    print(f"{helped} of {len(HELPED) + len(SILENT)} are helped")


if __name__ == "__main__":
    main()
