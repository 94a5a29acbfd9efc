r"""Mistakes as people type them: what is said on a terminal, and what in a pipe.

On a terminal the line of the fault is followed by what helps. In a pipe it stands alone, so that what scripts read stays.
What `clap` says of the words is the same on both. Each row has the command as it is typed, what standard input holds, and
what a terminal shows.
"""
import errno
import os
import pty
import shlex
import shutil
import subprocess
import tempfile
import unittest
import unittest.mock

import program

FORMATS = (
    (r"scan %f", """
sf: scan format: F5 LeftOut at 1
  %f: floating point is left out of profiles 1 and 2; formats have it by --profile 3
  "%f"
    ^
"""),
    (r"scan %lf", """
sf: scan format: F5 LeftOut at 2
  %f: floating point is left out of profiles 1 and 2; formats have it by --profile 3
  "%lf"
     ^
"""),
    (r"scan %hf", """
sf: scan format: F5 LeftOut at 2
  %f: floating point is left out of profiles 1 and 2; formats have it by --profile 3
  "%hf"
     ^
"""),
    (r"scan '%s %5.2f'", """
sf: scan format: F4 UnknownLetter at 5
  ".": a scan format has no precision: write %5f, and not %5.2f
  "%s %5.2f"
        ^
"""),
    (r"print %5.2f 1.5", """
sf: print format: F5 LeftOut at 4
  %f: floating point is left out of profiles 1 and 2; formats have it by --profile 3
  "%5.2f"
       ^
"""),
    (r"scan '\d+'", r"""
sf: scan format: bad escape at 0
  \d is no escape: after a backslash stands one of \ n t v f r, or x and two hexadecimal digits
  "\\d+"
   ^
"""),
    (r"scan '(\w+)'", r"""
sf: scan format: bad escape at 1
  \w is no escape: after a backslash stands one of \ n t v f r, or x and two hexadecimal digits
  "(\\w+)"
    ^
"""),
    (r"print '%s\n' 'C:\data'", r"""
sf: value 1: bad escape at 2
  \d is no escape: after a backslash stands one of \ n t v f r, or x and two hexadecimal digits
  "C:\\data"
     ^
  with --raw values are taken as they stand
"""),
    (r"scan 'total 5%'", """
sf: scan format: F1 Truncated at 8
  the format ends inside a conversion; %% stands for a percent sign
  "total 5%"
           ^
"""),
    (r"scan %", """
sf: scan format: F1 Truncated at 1
  the format ends inside a conversion; %% stands for a percent sign
  "%"
    ^
"""),
    (r"scan '%0d'", """
sf: scan format: F2 ZeroWidth at 1
  a conversion of width 0 takes nothing
  "%0d"
    ^
"""),
    (r"scan '%70000s'", """
sf: scan format: F3 TooWide at 1
  a width is at most 65535
  "%70000s"
    ^
"""),
    (r"scan %99999999d", """
sf: scan format: F3 TooWide at 1
  a width is at most 65535
  "%99999999d"
    ^
"""),
    (r"scan %q", """
sf: scan format: F4 UnknownLetter at 1
  "q": no conversion of this profile is written so; %% stands for a percent sign
  "%q"
    ^
"""),
    (r"scan '5%, %d'", """
sf: scan format: F4 UnknownLetter at 2
  ",": no conversion of this profile is written so; %% stands for a percent sign
  "5%, %d"
     ^
"""),
    (r"scan '%-5d'", """
sf: scan format: F4 UnknownLetter at 1
  "-": a flag stands first in a conversion, and in a print format alone; of two formats the print format comes first
  "%-5d"
    ^
"""),
    (r"scan -p3 '%5.2f'", """
sf: scan format: F4 UnknownLetter at 2
  ".": a scan format has no precision: write %5f, and not %5.2f
  "%5.2f"
     ^
"""),
    (r"scan %?d", """
sf: scan format: F4 UnknownLetter at 1
  "?": what may be missing has a ? before its width, in a scan format and by --profile 3: write %?5d
  "%?d"
    ^
"""),
    (r"scan -p3 '%5?d'", """
sf: scan format: F4 UnknownLetter at 2
  "?": what may be missing has a ? before its width, in a scan format and by --profile 3: write %?5d
  "%5?d"
     ^
"""),
    (r"scan -p3 '%?*d'", """
sf: scan format: F4 UnknownLetter at 2
  "*": a star stands before a ?, a =, a ! and a width: write %*?=!5d
  "%?*d"
     ^
"""),
    (r"scan %=5d", """
sf: scan format: F4 UnknownLetter at 1
  "=": what stands in a column has a = before its width, in a scan format and by --profile 3: write %=8d
  "%=5d"
    ^
"""),
    (r"scan -p3 '%5=d'", """
sf: scan format: F4 UnknownLetter at 2
  "=": what stands in a column has a = before its width, in a scan format and by --profile 3: write %=8d
  "%5=d"
     ^
"""),
    (r"scan -p3 '%=d'", """
sf: scan format: F20 BadMark at 2
  a = has a width after it, and %c and %n have no =; %c, %[ and %n have no !
  "%=d"
     ^
"""),
    (r"scan -p3 '%=5c'", """
sf: scan format: F20 BadMark at 3
  a = has a width after it, and %c and %n have no =; %c, %[ and %n have no !
  "%=5c"
      ^
"""),
    (r"scan %b", """
sf: scan format: F4 UnknownLetter at 1
  "b": base 2 is read and printed by --profile 2
  "%b"
    ^
"""),
    (r"print %b 5", """
sf: print format: F4 UnknownLetter at 1
  "b": base 2 is read and printed by --profile 2
  "%b"
    ^
"""),
    (r"scan %D", """
sf: scan format: F4 UnknownLetter at 1
  "D": the length l makes long integers: write %ld, %lo or %lu
  "%D"
    ^
"""),
    (r"scan %U", """
sf: scan format: F4 UnknownLetter at 1
  "U": the length l makes long integers: write %ld, %lo or %lu
  "%U"
    ^
"""),
    (r"scan -p3 %Lf", """
sf: scan format: F5 LeftOut at 1
  %L: long double is not part of sf; %lf is a double
  "%Lf"
    ^
"""),
    (r"scan -l --print '%x\n' %d", """
sf: print format: value 1 is u32, the scan format gives i32
  u32 is read by %u, and i32 is printed by %d
"""),
    (r"scan --print '%s\n' %d", """
sf: print format: value 1 is text, the scan format gives i32
  text is read by %s, and i32 is printed by %d
"""),
    (r"scan -p3 -l --print '%.1f\n' %d", """
sf: print format: value 1 is f64, the scan format gives i32
  f64 is read by %lf, and i32 is printed by %d
"""),
    (r"scan '%ls'", """
sf: scan format: F5 LeftOut at 2
  %ls: wide characters are not part of sf
  "%ls"
     ^
"""),
    (r"scan %lc", """
sf: scan format: F5 LeftOut at 2
  %lc: wide characters are not part of sf
  "%lc"
     ^
"""),
    (r"scan %p", """
sf: scan format: F5 LeftOut at 1
  %p: pointers are not part of sf
  "%p"
    ^
"""),
    (r"scan '%ms'", """
sf: scan format: F5 LeftOut at 1
  %m: memory of the scan's own is not part of sf
  "%ms"
    ^
"""),
    (r"scan '%hs'", """
sf: scan format: F6 BadLength at 2
  this letter has no such length
  "%hs"
     ^
"""),
    (r"scan '%[a-z'", """
sf: scan format: F7 OpenSet at 1
  no ] closes the set
  "%[a-z"
    ^
"""),
    (r"scan '%[z-a]'", """
sf: scan format: F8 BackwardRange at 2
  the range runs backward
  "%[z-a]"
     ^
"""),
    (r"scan '%*n'", """
sf: scan format: F9 BadCount at 2
  %n has neither a * nor a width
  "%*n"
     ^
"""),
    (r"scan '%1$d%d'", """
sf: scan format: F10 MixedNumbering at 4
  either all conversions have a number with $, or none has
  "%1$d%d"
       ^
"""),
    (r"scan '%33$d'", """
sf: scan format: F11 BadNumber at 1
  a number is 1 to 32, and what is dropped has none
  "%33$d"
    ^
"""),
    (r"scan '%1$d,%1$d'", """
sf: scan format: F12 NumberTwice at 5
  this number stands twice
  "%1$d,%1$d"
        ^
"""),
    (r"scan '%1$d,%3$d'", """
sf: scan format: F13 NumberGap at 5
  the numbers leave a gap
  "%1$d,%3$d"
        ^
"""),
    (r"scan 'a\x00b'", r"""
sf: scan format: F14 Nul at 1
  a format has no NUL
  "a\x00b"
    ^
"""),
    (r"scan '" + "%d " * 33 + "'", """
sf: scan format: F16 TooManyDestinations at 96
  a format has at most 32 values
  \"""" + "%d " * 33 + """\"
   """ + " " * 96 + """^
"""),
    (r"print %+u 1", """
sf: print format: F17 BadFlag at 1
  this letter has no such flag or precision
  "%+u"
    ^
"""),
    (r"print %.300d 1", """
sf: print format: F18 PrecisionTooLarge at 2
  a precision is at most 255
  "%.300d"
     ^
"""),
    # what a shell leaves of formats between double quotes
    (r"scan '%2 %1'", """
sf: scan format: F4 UnknownLetter at 2
  " ": a flag stands first in a conversion, and in a print format alone; of two formats the print format comes first
  "%2 %1"
     ^
  a shell takes $ and the letters after it out of double quotes: single quotes keep them
"""),
    (r"scan %1,%2", """
sf: scan format: F4 UnknownLetter at 2
  ",": no conversion of this profile is written so; %% stands for a percent sign
  "%1,%2"
     ^
  a shell takes $ and the letters after it out of double quotes: single quotes keep them
"""),
    (r"scan %1", """
sf: scan format: F1 Truncated at 2
  the format ends inside a conversion; %% stands for a percent sign
  "%1"
     ^
  a shell takes $ and the letters after it out of double quotes: single quotes keep them
"""),
    (r"print '%2 %1\n' a b", r"""
sf: print format: F4 UnknownLetter at 2
  " ": a flag stands first in a conversion, and in a print format alone; of two formats the print format comes first
  "%2 %1\x0a"
     ^
  a shell takes $ and the letters after it out of double quotes: single quotes keep them
"""),
    # what no shell leaves
    (r"scan %5q", """
sf: scan format: F4 UnknownLetter at 2
  "q": no conversion of this profile is written so; %% stands for a percent sign
  "%5q"
     ^
"""),
    (r"scan '5% 5'", """
sf: scan format: F4 UnknownLetter at 2
  " ": a flag stands first in a conversion, and in a print format alone; of two formats the print format comes first
  "5% 5"
     ^
"""),
    (r"print %*d 5 5", """
sf: print format: F5 LeftOut at 1
  %*: a width or a precision among the values is not part of sf; of two formats the print format comes first
  "%*d"
    ^
"""),
)

# `check` and `copy` take the print format first.
PAIRS = (
    (r"check '%11d,%20s%*1[\n]' '%d,%s\n'", r"""
sf: print format: F5 LeftOut at 10
  %*: a width or a precision among the values is not part of sf; of two formats the print format comes first
  "%11d,%20s%*1[\x0a]"
             ^
"""),
    (r"copy '%[^,],%d' '%s,%d\n'", """
sf: print format: F4 UnknownLetter at 1
  "[": a set stands in a scan format alone; of two formats the print format comes first
  "%[^,],%d"
    ^
"""),
    (r"copy '%d%n' '%d\n'", """
sf: print format: F5 LeftOut at 3
  %n: a count is not part of sf's print formats; of two formats the print format comes first
  "%d%n"
      ^
"""),
    (r"copy '%d\n' '%d\n'", """
sf: pair: Q4 NoWidth at 1
  a conversion that is read back needs a width: write %11d
  scan format, directive 1: "%d", d i32 width - slot 1
  print format, directive 1: d i32 flags "" width - precision - slot 1
"""),
    (r"copy '%d\n' '%11d\n'", r"""
sf: pair: Q7 OpenEnd at 2
  nothing is written after this, so what follows could be read as more of it: end the print format with \n and the scan format with %*1[\n]
  scan format, directive 2: "\x0a", space
  print format, directive 2: byte "\x0a"
"""),
    (r"copy -p3 '%.2f\n' '%lf%*1[\n]'", """
sf: pair: Q4 NoWidth at 1
  a conversion that is read back needs a width: write %313lf
  scan format, directive 1: "%lf", f f64 width - slot 1
  print format, directive 1: f f64 flags "" width - precision 2 slot 1
"""),
    (r"copy -p3 '%020g;' '%lf;'", """
sf: pair: Q4 NoWidth at 1
  a conversion that is read back needs a width: write %20lf
  scan format, directive 1: "%lf", f f64 width - slot 1
  print format, directive 1: g f64 flags "0" width 20 precision - slot 1
"""),
    (r"copy '%s,%d\n' '%s,%11d%*1[\n]'", """
sf: pair: Q4 NoWidth at 1
  a conversion that is read back needs a width: write the most bytes of the text after the %
  scan format, directive 1: "%s", s text width - slot 1
  print format, directive 1: s text flags "" width - precision - slot 1
"""),
    (r"copy '%d,' '%11d;'", """
sf: pair: Q1 NotAligned at 2
  what stands here is not what the other format has in its place
  scan format, directive 2: ";", byte ";"
  print format, directive 2: byte ","
"""),
    (r"copy '%x\n' '%8u%*1[\n]'", """
sf: pair: Q2 KindDiffers at 1
  the kinds or the letters of the two conversions differ
  scan format, directive 1: "%8u", u u32 width 8 slot 1
  print format, directive 1: x u32 flags "" width - precision - slot 1
"""),
    (r"copy -p3 '%.2f;' '%8f;'", """
sf: pair: Q2 KindDiffers at 1
  the kinds or the letters of the two conversions differ: the scan format has f32, write %lf
  scan format, directive 1: "%8f", f f32 width 8 slot 1
  print format, directive 1: f f64 flags "" width - precision 2 slot 1
"""),
    (r"copy -p3 '%#g.' '%30lf.'", """
sf: pair: Q6 RunsOn at 1
  what is written next could be read by this directive too: write a byte between them at which it stops; \
before . x X a float with # or with zeros in front is refused, though it reads back
  scan format, directive 1: "%30lf", f f64 width 30 slot 1
  print format, directive 1: g f64 flags "#" width - precision - slot 1
"""),
    (r"copy '%2$d-%1$d\n' '%11d-%11d%*1[\n]'", """
sf: pair: Q3 NumberDiffers at 1
  the two conversions are of different values
  scan format, directive 1: "%11d", d i32 width 11 slot 1
  print format, directive 1: d i32 flags "" width - precision - slot 2
"""),
    (r"copy '%05d\n' '%3d%*1[\n]'", """
sf: pair: Q5 TooNarrow at 1
  the width is less than the shortest text that is written
  scan format, directive 1: "%3d", d i32 width 3 slot 1
  print format, directive 1: d i32 flags "0" width 5 precision - slot 1
"""),
    (r"copy '%d%d\n' '%11d%11d%*1[\n]'", """
sf: pair: Q6 RunsOn at 1
  what is written next could be read by this directive too: write a byte between them at which it stops
  scan format, directive 1: "%11d", d i32 width 11 slot 1
  print format, directive 1: d i32 flags "" width - precision - slot 1
"""),
    (r"copy '%05d\n' '%5i%*1[\n]'", """
sf: pair: Q8 LeadingZero at 1
  %i reads a leading zero as octal
  scan format, directive 1: "%5i", i i32 width 5 slot 1
  print format, directive 1: d i32 flags "0" width 5 precision - slot 1
"""),
    (r"copy '%d;' '%11d;%n'", """
sf: pair: Q9 NotWritten at 3
  nothing is written for %n
  scan format, directive 3: "%n", n i32 width - slot 2
  the print format ends there
"""),
    (r"copy '%-5d\n' '%5d%*1[\n]'", """
sf: pair: Q10 BadFlagHere at 1
  what this flag, width or precision writes is not read back
  scan format, directive 1: "%5d", d i32 width 5 slot 1
  print format, directive 1: d i32 flags "-" width 5 precision - slot 1
"""),
    (r"copy -p3 '%5d\n' '%=6d%*1[\n]'", """
sf: pair: Q14 BadMark at 1
  the two widths differ at a conversion with =, or what this flag, width or letter writes is not read by one with !
  scan format, directive 1: "%=6d", d i32 width 6 slot 1 column
  print format, directive 1: d i32 flags "" width 5 precision - slot 1
"""),
    (r"copy -p3 '%+d;' '%!11d;'", """
sf: pair: Q14 BadMark at 1
  the two widths differ at a conversion with =, or what this flag, width or letter writes is not read by one with !
  scan format, directive 1: "%!11d", d i32 width 11 slot 1 strict
  print format, directive 1: d i32 flags "+" width - precision - slot 1
"""),
    (r"copy 'a\n' 'a%*1[\n]'", """
sf: pair: Q11 NoValues at 0
  a pair has at least one value
"""),
)

VALUES = (
    (r"print %d 0x10", """
sf: value 1: expected i32
  value 1: "0x10" is no decimal integer from -2147483648 to 2147483647
"""),
    (r"print %d x", """
sf: value 1: expected i32
  value 1: "x" is no decimal integer from -2147483648 to 2147483647
"""),
    (r"print '%s %d' a 99999999999", """
sf: value 2: expected i32
  value 2: "99999999999" is no decimal integer from -2147483648 to 2147483647
"""),
    (r"print %hhu 256", """
sf: value 1: expected u8
  value 1: "256" is no decimal integer from 0 to 255
"""),
    (r"print %d 1.5", """
sf: value 1: expected i32
  value 1: "1.5" is no decimal integer from -2147483648 to 2147483647
"""),
    (r"print %d 1,234", """
sf: value 1: expected i32
  value 1: "1,234" is no decimal integer from -2147483648 to 2147483647
"""),
    (r"print %c ab", """
sf: value 1: expected one byte
  value 1: "ab" is not one byte
"""),
    (r"print %d a b", """
sf: expected 1 values, got 2
  "%d" takes 1 value, not 2
"""),
    (r"print '%s %s\n' hello", r"""
sf: expected 2 values, got 1
  "%s %s\\n" takes 2 values, not 1
"""),
)

NAMES = (
    (r"scan -o json --names a '%d %d'", """
sf: names: expected 2, got 1
  --names has 1 name, and a format gives 2 values: write 2 names, as --names a,b
"""),
    (r"scan -o csv --names a,b %d", """
sf: names: expected 1, got 2
  --names has 2 names, and a format gives 1 value: write 1 name, as --names a
"""),
    (r"scan -o tsv --names a %*d", """
sf: names: expected 0, got 1
  --names has 1 name, and a format gives 0 values: leave --names out
"""),
    (r"scan -l -o json --names a,b -e '%d %d' -e %d", """
sf: names: expected 1, got 2
  --names has 2 names, and a format gives 1 value: write 1 name, as --names a
"""),
    (r"scan -l --tag -o json --names a -e '%d %d %d'", """
sf: names: expected 3, got 1
  --names has 1 name, and a format gives 3 values: write 3 names, as --names a,b,c
"""),
    (r"scan -l -o json --names a '" + "%d" * 32 + "'", """
sf: names: expected 32, got 1
  --names has 1 name, and a format gives 32 values: write 32 names, as --names \
a,b,c,d,e,f,g,h,i,j,k,l,m,n,o,p,q,r,s,t,u,v,w,x,y,z,A,B,C,D,E,F
"""),
    (r"scan -o csv --names a, '%d %d'", """
sf: names: name 2 is empty
"""),
    (r"scan -o csv --names a,a '%d %d'", """
sf: names: a stands twice
"""),
)

# What is said after the line `refused: ..` on standard output.
ALONE = (
    (r"check '%s\n'", "refused: Q4 NoWidth at 1\n", """
  a conversion that is read back needs a width: --width N says how many bytes the texts of %s have at most
  print format, directive 1: s text flags "" width - precision - slot 1
  of a print format alone, the scan format that reads it back is written: sf check PRINT SCAN judges two
"""),
    (r"check -p3 '%d: %s,%d\n'", "refused: Q4 NoWidth at 4\n", """
  a conversion that is read back needs a width: --width N says how many bytes the texts of %s have at most
  print format, directive 4: s text flags "" width - precision - slot 2
  of a print format alone, the scan format that reads it back is written: sf check PRINT SCAN judges two
"""),
    (r"check --width 20 '%s%d\n'", "refused: Q6 RunsOn at 1\n", """
  what is written next could be read by this directive too: write a byte between them at which it stops
  print format, directive 1: s text flags "" width - precision - slot 1
  of a print format alone, the scan format that reads it back is written: sf check PRINT SCAN judges two
"""),
    (r"check -p3 '%#gx'", "refused: Q6 RunsOn at 1\n", """
  what is written next could be read by this directive too: write a byte between them at which it stops; \
before . x X a float with # or with zeros in front is refused, though it reads back
  print format, directive 1: g f64 flags "#" width - precision - slot 1
  of a print format alone, the scan format that reads it back is written: sf check PRINT SCAN judges two
"""),
    (r"check '%d'", "refused: Q7 OpenEnd at 1\n", r"""
  nothing is written after this, so what follows could be read as more of it: end the print format with \n and the scan format with %*1[\n]
  print format, directive 1: d i32 flags "" width - precision - slot 1
  of a print format alone, the scan format that reads it back is written: sf check PRINT SCAN judges two
"""),
    (r"check 'a\n'", "refused: Q11 NoValues at 0\n", """
  a pair has at least one value
  of a print format alone, the scan format that reads it back is written: sf check PRINT SCAN judges two
"""),
    (r"check '%d\n'", "%11d%*1[\\n]\n", "\n"),
)

# The command, what standard input holds, and what is said of it.
RECORDS = (
    (r"scan %d,%d", "1,2\n3;4\n", r"""
sf: record 2: matching failure at 2, used 2, assigned 1
  directive 2: ",", byte ","
  at line 2, column 2 of the input
  there stood ";4\x0a"
"""),
    (r"scan --lines %d,%d", "1,2\n3;4\n", """
sf: line 2: matching failure at 2, used 1, assigned 1
  directive 2: ",", byte ","
  there stood ";4"
"""),
    (r"scan --lines --whole %d", "1\n2 x\n", """
sf: line 2: left over at 1
  there stood " x"
"""),
    (r"scan -lw '%d'", "1\r\n", r"""
sf: line 1: left over at 1
  there stood "\x0d"
  the line ends with a carriage return: a space at the format's end takes it
"""),
    (r"scan ''", "ab\n", """
sf: record 1: stalled
  at line 1, column 1 of the input
  the format took no byte, so that the next record would begin where this one did
"""),
    (r"scan ' '", "\n\nab\n", """
sf: record 2: stalled
  at line 3, column 1 of the input
  the format took no byte, so that the next record would begin where this one did
"""),
    (r"scan -l --ignore '#' '%d %d'", "# a\n1 2\n", r"""
sf: line 1: matching failure at 1, used 0, assigned 0
  directive 1: "%d", d i32 width - slot 1
  there stood "# a"
  --ignore passes over lines that its format reads to their end: '#' a lone #, '#%*[^\n]' a # and what follows
"""),
    # nothing more is said where a format that is ignored has a conversion, or blanks alone
    (r"scan -l --ignore '#' --ignore '#%*[^\n]' '%d %d'", "# a\nx\n", """
sf: line 2: matching failure at 1, used 0, assigned 0
  directive 1: "%d", d i32 width - slot 1
  there stood "x"
"""),
    (r"scan -l --ignore ' ' '%d %d'", "\nx\n", """
sf: line 2: matching failure at 1, used 0, assigned 0
  directive 1: "%d", d i32 width - slot 1
  there stood "x"
"""),
    (r"scan -l '%s,%d'", "a,1\n", """
sf: line 1: input failure at 2, used 3, assigned 1
  directive 2: ",", byte ","
  the input ended there
  %s takes all up to white space: a text that ends before the next byte of the format is "%[^,]"
"""),
    (r"scan -l '%d %s:%s'", "1 a:b c\n", """
sf: line 1: matching failure at 4, used 5, assigned 2
  directive 4: ":", byte ":"
  there stood " c"
  %s takes all up to white space: a text that ends before the next byte of the format is "%[^:]"
"""),
    (r"scan -l '%[[:digit:]]'", "12\n", """
sf: line 1: matching failure at 1, used 0, assigned 0
  directive 1: "%[[:digit:]", [ text width - slot 1 members 6
  there stood "12"
  classes as [:digit:] are not part of scanf: write %[0-9]
"""),
    (r"scan -l '%d'", "\ufeff1\n", r"""
sf: line 1: matching failure at 1, used 0, assigned 0
  directive 1: "%d", d i32 width - slot 1
  there stood "\xef\xbb\xbf1"
  a byte order mark stands there: sed '1s/^\xef\xbb\xbf//' takes it away
"""),
    (r"scan -p3 -l '%f'", "1e39\n", """
sf: line 1: out of range at 1, used 4, assigned 0
  directive 1: "%f", f f32 width - slot 1
  directive 1 wants a number from -3.4028235e38 to 3.4028235e38
  the input ended there
"""),
    (r"scan -p3 -l '%lf'", "-1e309\n", """
sf: line 1: out of range at 1, used 6, assigned 0
  directive 1: "%lf", f f64 width - slot 1
  directive 1 wants a number from -1.7976931348623157e308 to 1.7976931348623157e308
  the input ended there
"""),
    (r"scan --lines %hhu", "300\n", """
sf: line 1: out of range at 1, used 3, assigned 0
  directive 1: "%hhu", u u8 width - slot 1
  directive 1 wants a number from 0 to 255
  the input ended there
"""),
    (r"scan --lines %d,%hhd", "1,2\n3,-129\n", """
sf: line 2: out of range at 3, used 6, assigned 1
  directive 3: "%hhd", d i8 width - slot 2
  directive 3 wants a number from -128 to 127
  the input ended there
"""),
    (r"scan '%d %u'", "1 2\n2147483648 3\n", r"""
sf: record 2: out of range at 1, used 11, assigned 0
  directive 1: "%d", d i32 width - slot 1
  directive 1 wants a number from -2147483648 to 2147483647
  at line 2, column 11 of the input
  there stood " 3\x0a"
"""),
    (r"scan '%2$lu %1$ld'", "18446744073709551616 1\n", r"""
sf: record 1: out of range at 1, used 20, assigned 0
  directive 1: "%2$lu", u u64 width - slot 2
  directive 1 wants a number from 0 to 18446744073709551615
  at line 1, column 21 of the input
  there stood " 1\x0a"
"""),
    (r"scan --lines '%[0-9.] %u'", " 62.50 5\n", """
sf: line 1: matching failure at 1, used 0, assigned 0
  directive 1: "%[0-9.]", [ text width - slot 1 members 11
  there stood " 62.50 5"
  white space stands in front, which only numbers and %s pass over: a blank at the format's front does, too
"""),
    # columns
    (r"scan -l -p3 '%=5d|'", "1 2  |\n", """
sf: line 1: matching failure at 1, used 5, assigned 0
  directive 1: "%=5d", d i32 width 5 slot 1 column
  the column has "1 2  "
  there stood "|"
"""),
    (r"scan -l -p3 '%=3hhu'", "300\n", """
sf: line 1: out of range at 1, used 3, assigned 0
  directive 1: "%=3hhu", u u8 width 3 slot 1 column
  directive 1 wants a number from 0 to 255
  the column has "300"
"""),
    (r"scan -l -p3 '%=5d'", "12x\n", """
sf: line 1: matching failure at 1, used 3, assigned 0
  directive 1: "%=5d", d i32 width 5 slot 1 column
  the input ended there
"""),
    (r"scan -l -p3 '%=!2hhu'", " 1\n", """
sf: line 1: matching failure at 1, used 2, assigned 0
  directive 1: "%=!2hhu", u u8 width 2 slot 1 column strict
  directive 1 wants digits alone, and no sign, prefix or white space before them, in the whole column
  the column has " 1"
"""),
    (r"scan -l -p3 'ATOM  %=5d'", "ATOM     12 N\n", """
sf: line 1: matching failure at 6, used 13, assigned 0
  directive 6: "%=5d", d i32 width 5 slot 1 column
  the input ended there
  white space in the format takes the blanks of the column after it, too: write %*c for a byte that is passed over
"""),
    (r"scan -p3 '%=3d'", "1 2\n", r"""
sf: record 1: matching failure at 1, used 3, assigned 0
  directive 1: "%=3d", d i32 width 3 slot 1 column
  at line 1, column 4 of the input
  there stood "\x0a"
"""),
    (r"scan --lines --limit 5 %s", "abc\nabcdefgh\n", """
sf: line 2: too long
  it begins with "abcde"
"""),
    # the newline after a record, which the next one begins with
    (r"scan '%[^=]=%d'", "x=1\ny=2\n", r"""
sf: record 3: input failure at 2, used 1, assigned 1
  directive 2: "=", byte "="
  at line 3, column 1 of the input
  the input ended there
  the record is the newline after the last one: a blank at the format's front passes over it, and %*1[\n] at its end takes it
"""),
    (r"scan '%[^,],%d'", "a,1\nb,x\n", r"""
sf: record 2: matching failure at 3, used 3, assigned 1
  directive 3: "%d", d i32 width - slot 2
  at line 2, column 3 of the input
  there stood "x\x0a"
  the record begins with the newline after the last one: a blank at the format's front passes over it, and %*1[\n] at its end takes it
"""),
    (r"scan %c%d", "a1\nb2\n", r"""
sf: record 2: matching failure at 2, used 1, assigned 1
  directive 2: "%d", d i32 width - slot 2
  at line 2, column 1 of the input
  there stood "b2\x0a"
  the record begins with the newline after the last one: a blank at the format's front passes over it, and %*1[\n] at its end takes it
"""),
    (r"scan '%2[a-z]%d'", "ab 1\ncd 2\n", r"""
sf: record 2: matching failure at 1, used 0, assigned 0
  directive 1: "%2[a-z]", [ text width 2 slot 1 members 26
  at line 1, column 5 of the input
  there stood "\x0acd 2\x0a"
  the record begins with white space: a blank at the format's front passes over it, and %*1[\n] at its end takes the newline after a record
"""),
    # records that go on over the end of a line
    (r"scan '%d %d'", "1 2\n3\n4 5\n6 7\n", """
sf: record 4: input failure at 3, used 3, assigned 1
  directive 3: "%d", d i32 width - slot 2
  at line 5, column 1 of the input
  the input ended there
  the record goes over a newline: sf scan --lines ends each record with its line
"""),
    (r"scan '%[^,],%d'", "a,1\nb\n", """
sf: record 2: input failure at 2, used 3, assigned 1
  directive 2: ",", byte ","
  at line 3, column 1 of the input
  the input ended there
  the record goes over a newline: sf scan --lines ends each record with its line
"""),
    # no newline is at fault here, though the record begins with one
    (r"scan '%d %d'", "1 2\n3 x\n", r"""
sf: record 2: matching failure at 3, used 3, assigned 1
  directive 3: "%d", d i32 width - slot 2
  at line 2, column 3 of the input
  there stood "x\x0a"
"""),
)

# What `clap` says of the words, before it shows how the command is called.
WORDS = (
    (r"scn %d", """
sf: unrecognized subcommand 'scn'

  tip: a similar subcommand exists: 'scan'

"""),
    (r"scan", """
sf: the following required arguments were not provided:
  <FORMAT>

"""),
    (r"scan --line %d", """
sf: unexpected argument '--line' found

  tip: a similar argument exists: '--lines'

"""),
    (r"scan --skip 1 %d", """
sf: the argument '--skip <N>' cannot be used without '--lines'

"""),
    (r"scan -e %d", """
sf: the argument '-e <FORMAT>' cannot be used without '--lines'

"""),
    (r"scan -l --tag %d", """
sf: the argument '--tag' cannot be used without '-e <FORMAT>'

"""),
    (r"scan -l --matching -k %d", """
sf: the argument '--matching' cannot be used with '--keep-going'

"""),
    (r"scan --print '%d\n' -o json %d", """
sf: the argument '--print <PRINT>' cannot be used with '--output <FORM>'

"""),
    (r"scan --limit 99999999999 %d", """
sf: invalid value '99999999999' for '--limit <N>': 99999999999 is not in 0..=2147483647

"""),
    (r"scan --limit -1 %d", """
sf: invalid value '-1' for '--limit <N>': -1 is not in 0..=2147483647

"""),
    (r"scan --lines --skip -12 %d", """
sf: invalid value '-12' for '--skip <N>': -12 is not in 0..9223372036854775807

"""),
    (r"scan --lines -s -1 %d", """
sf: invalid value '-1' for '--skip <N>': -1 is not in 0..9223372036854775807

"""),
    (r"copy -p -1 %d %d", """
sf: invalid value '-1' for '--profile <N>': -1 is not in 1..=3

"""),
    (r"scan -o json --names 'a, b' '%d %d'", """
sf: invalid value 'a, b' for '--names <NAMES>': a blank stands around a name: write --names 'a,b'

"""),
    ("scan -o csv --names ' first name ,b\t' '%d %d'", """
sf: invalid value ' first name ,b\t' for '--names <NAMES>': a blank stands around a name: write --names 'first name,b'

"""),
    (r"scan -o json -o xml %d", """
sf: invalid value 'xml' for '--output <FORM>'
  [possible values: plain, tsv, json, csv]

"""),
    (r"print %d -x", """
sf: unexpected argument '-x' found

  tip: to pass '-x' as a value, use '-- -x'

"""),
    (r"scan -d, %d", """
sf: unexpected argument '-d' found

  tip: the format says what separates the values: '%[^,],%d'

"""),
    (r"scan -lF, %d", """
sf: unexpected argument '-F' found

  tip: the format says what separates the values: '%[^,],%d'

"""),
    (r"scan --json %d", """
sf: unexpected argument '--json' found

  tip: '-o json' writes JSON

"""),
    (r"scan --csv %d", """
sf: unexpected argument '--csv' found

  tip: '-o csv' writes CSV

"""),
    (r"scan --tsv %d", """
sf: unexpected argument '--tsv' found

  tip: '-o tsv' writes TSV

"""),
    (r"scan -n %d", """
sf: unexpected argument '-n' found

"""),
    (r"show -%d", """
sf: unexpected argument '-%' found

  tip: a format that begins with - stands after --: sf show -- '-%d'

"""),
    (r"'%d %d'", """
sf: unrecognized subcommand '%d %d'

  tip: a command stands first: sf scan '%d %d'

"""),
    (r"version", """
sf: unrecognized subcommand 'version'

  tip: 'sf --version' writes the version

"""),
    (r"-v", """
sf: unexpected argument '-v' found

  tip: 'sf --version' writes the version

"""),
    (r"scan --limit 1M %s", """
sf: invalid value '1M' for '--limit <N>': it is no number from 0 to 2147483647

"""),
    (r"scan -l -s '%d'", """
sf: invalid value '%d' for '--skip <N>': it is no number from 0 to 9223372036854775807

"""),
    (r"scan --output xml %d", """
sf: invalid value 'xml' for '--output <FORM>'
  [possible values: plain, tsv, json, csv]

"""),
)


NOBODY = 65534

# What the system says, in the C library's own words.
FULL, FOLDER, GONE, DENIED, LONG = (
    f"  {os.strerror(number)}\n" for number in (errno.ENOSPC, errno.EISDIR, errno.ENOENT, errno.EACCES, errno.ENAMETOOLONG)
)


def on_terminal(words, text, **how):
    """The status of a call, and what its error output shows, where that is a terminal."""
    ours, theirs = pty.openpty()
    try:
        status, _, _ = program.run(*words, stdin=text, stderr=theirs, **how)
        os.write(theirs, b"\0")
        shown = b""
        while not shown.endswith(b"\0"):
            shown += os.read(ours, 65536)
    finally:
        os.close(ours)
        os.close(theirs)
    return status, shown[:-1].replace(b"\r\n", b"\n").decode()


def in_pipe(words, text, **how):
    status, _, err = program.run(*words, stdin=text, stderr=subprocess.PIPE, **how)
    return status, err.decode()


class Mistakes(unittest.TestCase):
    maxDiff = None

    def both(self, typed, text, status, shown, piped):
        words, text = shlex.split(typed), text.encode()
        with self.subTest(typed):
            self.assertEqual(on_terminal(words, text), (status, shown))
            self.assertEqual(in_pipe(words, text), (status, piped))

    def rows(self, table, status):
        """A pipe gets the first line of what a terminal shows."""
        self.assertGreater(len(table), 5)
        for typed, *text, shown in table:
            shown = shown[1:]
            self.both(typed, "".join(text), status, shown, shown.split("\n")[0] + "\n")

    def test_formats(self):
        self.rows(FORMATS, 2)

    def test_pairs(self):
        self.rows(PAIRS, 2)

    def test_values(self):
        self.rows(VALUES, 2)

    def test_names(self):
        self.rows(NAMES, 2)

    def test_what_is_ignored_is_no_regular_expression(self):
        """That is said once, after the first input, whether a line failed or not."""
        said = "  --ignore takes a scan format, in which ^ stands for itself: '#%*[^\\n]' passes over lines that begin with #\n"
        for words in (["scan", "-l", "--ignore", "^#", "%s %s"], ["scan", "-l", "--ignore", "^#", "%s %s", "-", "/dev/null"]):
            self.assertEqual(on_terminal(words, b"# a\n"), (0, said))
            self.assertEqual(in_pipe(words, b"# a\n"), (0, ""))
            self.assertEqual(in_pipe([*words, "--explain"], b"# a\n"), (0, said))

    def test_a_print_format_alone(self):
        """Standard output has the line; what is said after it stands on a terminal alone."""
        for typed, line, shown in ALONE:
            words, status = shlex.split(typed), int(line.startswith("refused"))
            with self.subTest(typed):
                self.assertEqual(on_terminal(words, b""), (status, shown[1:]))
                self.assertEqual(program.run(*words), (status, line.encode(), b""))

    def test_records(self):
        self.rows(RECORDS, 1)

    def test_words(self):
        """The same on a terminal and in a pipe."""
        for typed, shown in WORDS:
            words = shlex.split(typed)
            with self.subTest(typed):
                status, said = on_terminal(words, b"")
                self.assertEqual((status, said[: len(shown) - 1]), (2, shown[1:]))
                self.assertTrue(said.endswith("\nFor more information, try '--help'.\n"))
                self.assertEqual(in_pipe(words, b""), (status, said))

    def test_a_number_that_is_too_small_is_blamed_whatever_its_first_digit(self):
        for digit in range(1, 10):
            for option, most in (("--limit <N>", "=2147483647"), ("--skip <N>", "9223372036854775807")):
                said = f"sf: invalid value '-{digit}' for '{option}': -{digit} is not in 0..{most}\n"
                status, err = in_pipe(["scan", "--lines", option.split()[0], f"-{digit}", "%d"], b"")
                self.assertEqual((status, err[: len(said)]), (2, said))

    def test_no_explain_on_a_terminal(self):
        for typed, *text, shown in RECORDS:
            words = shlex.split(typed)
            words.insert(1, "--no-explain")
            with self.subTest(typed):
                self.assertEqual(on_terminal(words, "".join(text).encode()), (1, shown[1:].split("\n")[0] + "\n"))

    def reasons(self, words, line, reason, text=b"", **how):
        """The reason is said on a terminal and under --explain, and nowhere else."""
        plain, more = ([words[0], flag, *words[1:]] for flag in ("--no-explain", "--explain"))
        with self.subTest(words):
            self.assertEqual(on_terminal(words, text, **how), (3, line + reason))
            self.assertEqual(on_terminal(plain, text, **how), (3, line))
            self.assertEqual(in_pipe(words, text, **how), (3, line))
            self.assertEqual(in_pipe(more, text, **how), (3, line + reason))

    def test_a_full_disk(self):
        with program.full() as disk:
            for words in (["scan", "%d"], ["scan", "--line-buffered", "%d"], ["scan", "--lines", "%d"]):
                self.reasons(words, "sf: write fault\n", FULL, b"1\n2\n", stdout=disk)
            self.reasons(["scan", "%d"], "sf: write fault\n", FULL, b"7\n" * 9000, stdout=disk)
            self.reasons(["copy", r"%d\n", r"%11d%*1[\n]"], "sf: write fault\n", FULL, b"1\n2\n", stdout=disk)
            self.reasons(["print", "%d", "5"], "sf: write fault\n", FULL, stdout=disk)
            self.reasons(["show", "%d"], "sf: write fault\n", FULL, stdout=disk)
            self.reasons(["check", "%d;", "%11d;"], "sf: write fault\n", FULL, stdout=disk)

    def test_an_input_that_is_a_folder(self):
        at = "  at line 1, column 1 of the input\n"
        with program.folder() as unread:
            self.reasons(["scan", "%d"], "sf: record 1: read fault\n", at + FOLDER, unread)
            self.reasons(["scan", "--lines", "%d"], "sf: line 1: read fault\n", FOLDER, unread)
        self.reasons(["scan", "%d", "/"], "sf: /: record 1: read fault\n", at + FOLDER)
        self.reasons(["scan", "--lines", "%d", "/"], "sf: /: line 1: read fault\n", FOLDER)

    def test_a_file_that_cannot_be_opened(self):
        for words in (["scan", "%d", "/gone"], ["scan", "--lines", "%d", "/gone"], ["copy", "%d;", "%11d;", "/gone"]):
            self.reasons(words, "sf: /gone: can't be opened\n", GONE)
        self.reasons(["scan", "", "/gone"], "sf: /gone: can't be opened\n", GONE)
        first = "  the format stands before the files\n"
        quotes = "  a format with spaces stands between quotes, and after -e each word is a file\n"
        self.reasons(["scan", "/gone", "/%d"], "sf: /%d: can't be opened\n", GONE + first)
        self.reasons(["scan", "%d", "/%d"], "sf: /%d: can't be opened\n", GONE + quotes)
        self.reasons(["scan", "-l", "/%d %d", "-e", "%d"], "sf: /%d %d: can't be opened\n", GONE + quotes)
        name = "/" + "n" * 300
        self.reasons(["scan", "%d", name], f"sf: {name}: can't be opened\n", LONG)
        both = f"sf: /gone: can't be opened\n{GONE}sf: /lost: can't be opened\n{GONE}"
        self.assertEqual(on_terminal(["scan", "%d", "/gone", "-", "/lost"], b"1\n"), (3, both))

    def test_a_file_that_may_not_be_read(self):
        """Root may read each file, and so a copy of the program runs as nobody in place of root."""
        how = {} if os.getuid() else {"user": NOBODY}
        with tempfile.NamedTemporaryFile() as secret, tempfile.TemporaryDirectory() as room:
            os.chmod(secret.name, 0)
            os.chmod(room, 0o755)
            with unittest.mock.patch.object(program, "path", shutil.copy(program.path, room)):
                self.reasons(["scan", "%d", secret.name], f"sf: {secret.name}: can't be opened\n", DENIED, **how)

    def closed(self, call, words, text):
        """The status and the error text of a call whose output nobody reads."""
        ours, theirs = os.pipe()
        os.close(ours)
        try:
            return call(words, text, stdout=theirs)
        finally:
            os.close(theirs)

    def test_nobody_reads_the_output(self):
        """Nothing is said on a terminal, and elsewhere the line alone; the status is the same."""
        for words, text in (
            (["scan", "%d"], b"1\n2\n"),
            (["scan", "%d"], b"7\n" * 9000),
            (["scan", "--line-buffered", "%d"], b"1\n2\n"),
            (["scan", "--lines", "%d"], b"1\n2\n"),
            (["copy", r"%d\n", r"%11d%*1[\n]"], b"1\n2\n"),
            (["print", "%d", "5"], b""),
            (["--help"], b""),
        ):
            with self.subTest(words):
                self.assertEqual(self.closed(on_terminal, words, text), (3, ""))
                self.assertEqual(self.closed(in_pipe, words, text), (3, "sf: write fault\n"))
        for flag, shown in (("--no-explain", ""), ("--explain", "")):
            self.assertEqual(self.closed(on_terminal, ["scan", flag, "%d"], b"1\n"), (3, shown))
        broken = f"sf: write fault\n  {os.strerror(errno.EPIPE)}\n"
        self.assertEqual(self.closed(in_pipe, ["scan", "--explain", "%d"], b"1\n"), (3, broken))

    def test_a_record_that_failed_is_told_though_nobody_reads(self):
        shown = 'sf: record 2: matching failure at 1, used 1, assigned 0\n  directive 1: "%d", d i32 width - slot 1\n'
        status, said = self.closed(on_terminal, ["scan", "%d"], b"1\nx\n")
        self.assertEqual((status, said[: len(shown)]), (3, shown))

    def test_nothing_is_printed_before_a_format_is_judged(self):
        for typed in ("scan %f", "scan --lines %f", r"copy '%d\n' '%d\n'"):
            self.assertEqual(program.run(*shlex.split(typed), stdin=b"1.5\n")[1], b"")
