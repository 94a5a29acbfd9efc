"""Malicious formats: each byte as a letter, numbers that overflow, formats of 4096 bytes and more, thousands of directives.

Each fault and its place is that of the table "Refused formats" in docs/FORMATS.md; the kinds are those of its tables of
conversions.
"""
import itertools

from answers import answers, escaped

SIGNED, UNSIGNED = "di", "uoxX"
LENGTHS = {"hh": 8, "h": 16, "": 32, "l": 64, "ll": 64, "j": 64, "z": 64, "t": 64}

# C11 has these; they are left out here. 'm' is POSIX's, in scan formats.
LEFT_OUT = "LaAeEfFgGpCS"


def is_prefix_of_length(text):
    return any(it.startswith(text) for it in LENGTHS)


def directive(letter, length="", width="-", slot="1"):
    """The line by which `sf show` tells the first directive."""
    kind = "text" if letter in "cs" else ("i" if letter in SIGNED + "n" else "u") + str(LENGTHS[length])
    return f"1 {letter.lower()} {kind} width {'1' if letter == 'c' else width} slot {slot}\n"


def last(destinations, total):
    return f"destinations {destinations}, width sum {total}\n"


def scan_letter(before, length, letter):
    """What `sf show` answers of a conversion that ends with this letter: its output, or its fault and place."""
    at = 1 + len(before) + len(length)
    if letter == "\0":
        return f"F14 Nul at {at}"
    if letter == "%" and at == 1:
        return "1 percent\n" + last(0, 0)
    if letter in "diuoxXcsn":
        if letter in "cs" and length:
            return f"F5 LeftOut at {at}" if length == "l" else f"F6 BadLength at {at}"
        if letter == "n" and before:
            return f"F9 BadCount at {at}"
        slot, total = ("-", 0) if before else ("1", {"c": 1, "s": "-"}.get(letter, 0))
        return directive(letter, length, slot=slot) + last(0 if before else 1, total)
    if letter == "[":
        if length:
            return f"F5 LeftOut at {at}" if length == "l" else f"F6 BadLength at {at}"
        return f"F7 OpenSet at {at}"
    if letter == "0" and not length:
        return f"F2 ZeroWidth at {at}"
    goes_on = letter in "123456789" and not length or letter == "*" and not before and not length
    if goes_on or is_prefix_of_length(length + letter):
        return f"F1 Truncated at {at + 1}"
    return f"F5 LeftOut at {at}" if letter in LEFT_OUT + "m" else f"F4 UnknownLetter at {at}"


def print_letter(letter):
    """What `sf print` answers of this letter and, where it is a conversion's, of the value 7."""
    if letter == "\0":
        return "F14 Nul at 1"
    if letter in "diuoxXcs":
        return "7"
    if letter == "%":
        return "%"
    if letter in "-+ #0.123456789" or is_prefix_of_length(letter):
        return "F1 Truncated at 2"
    return "F5 LeftOut at 1" if letter in LEFT_OUT + "*'n" else "F4 UnknownLetter at 1"


def judged(verb, kind, text, answer, *values):
    """A check that a format has this fault, or else gives this output."""
    if answer[:1] == "F" and answer[1:2].isdigit():
        return answers(verb, text, *values, err=f"{kind} format: {answer}", status=2)
    return answers(verb, text, *values, out=answer.encode())


def letters():
    """Each byte where a letter is due."""
    for code in range(256):
        letter = chr(code)
        word = escaped(b"%" + bytes([code]))
        yield f"%{letter!r} scans", judged("show", "scan", word, scan_letter("", "", letter))
        yield f"%{letter!r} prints", judged("print", "print", word, print_letter(letter), *"7" * (letter in "diuoxXcs"))
    for before, length in [("*", ""), ("", "hh"), ("", "l"), ("", "t"), ("*", "ll")]:
        for code in [0, 9, 10, 32, *range(33, 127), 128, 255]:
            letter = chr(code)
            text = "%" + before + length + letter
            word = escaped(text.encode("latin-1"))
            yield f"{text!r} scans", judged("show", "scan", word, scan_letter(before, length, letter))


def strict_letter(letter):
    """What `sf show --profile 3` answers of `%!` and this letter."""
    if letter == "\0":
        return "F14 Nul at 2"
    if letter in "cn[":
        return "F20 BadMark at 2"
    if letter in "diuoxXbsaAeEfFgG":
        shown, kind = ("f", "f32") if letter in "aAeEfFgG" else (letter.lower(), "text" if letter == "s" else "i32" if letter in SIGNED else "u32")
        return f"1 {shown} {kind} width - slot 1 strict\n" + last(1, 0 if kind in ("i32", "u32") else "-")
    if letter == "0":
        return "F2 ZeroWidth at 2"
    if letter in "123456789" or is_prefix_of_length(letter):
        return "F1 Truncated at 3"
    return "F5 LeftOut at 2" if letter in "mLpCS" else "F4 UnknownLetter at 2"


def column_letter(letter, width=""):
    """What `sf show --profile 3` answers of `%=`, the width, and this letter."""
    at = 2 + len(width)
    if letter == "\0":
        return f"F14 Nul at {at}"
    if letter == "0" and not width:
        return f"F2 ZeroWidth at {at}"
    if letter in "0123456789" or is_prefix_of_length(letter) or letter == "!" and not width:
        return f"F1 Truncated at {at + 1}"
    if letter in "mLpCS":
        return f"F5 LeftOut at {at}"
    if letter == "n" and width:
        return f"F9 BadCount at {at}"
    if letter in "cn" or letter in "diuoxXbs[aAeEfFgG" and not width:
        return f"F20 BadMark at {at}"
    if letter == "[":
        return f"F7 OpenSet at {at}"
    if letter in "diuoxXbsaAeEfFgG":
        is_float, kind = letter in "aAeEfFgG", "text" if letter == "s" else "i32" if letter in SIGNED else "u32"
        shown, kind = ("f", "f32") if is_float else (letter.lower(), kind)
        return f"1 {shown} {kind} width {width} slot 1 column\n" + last(1, width if is_float or letter == "s" else 0)
    return f"F4 UnknownLetter at {at}"


def columns():
    """Each byte where a letter is due after a `=` of profile 3, without a width and with one; and the order of the marks."""
    for width, code in itertools.product(("", "3"), range(256)):
        word = escaped(b"%=" + width.encode() + bytes([code]))
        yield f"%={width}{chr(code)!r} scans", judged("show", "scan", word, column_letter(chr(code), width), "--profile", "3")
    for code in range(256):
        word = escaped(b"%=3" + bytes([code]))
        yield f"%=3{chr(code)!r} has no mark", judged("show", "scan", word, "F4 UnknownLetter at 1", "--profile", str(1 + code % 2))
    for order in itertools.permutations("*?=!"):
        # (a mark that belongs before one that was passed is no letter)
        places = ["*?=!".index(it) for it in order]
        late = next((at + 1 for at in range(1, 4) if places[at] < max(places[:at])), None)
        answer = f"F4 UnknownLetter at {late}" if late else "1 d i32 width 3 slot - optional column strict\n" + last(0, 0)
        yield f"%{''.join(order)}3d scans", judged("show", "scan", f"%{''.join(order)}3d", answer, "--profile", "3")
    for text, answer in [("%==3d", "F4 UnknownLetter at 2"), ("%3=d", "F4 UnknownLetter at 2"), ("%l=3d", "F4 UnknownLetter at 2"), ("%=1$3d", "F4 UnknownLetter at 3"),
                         ("%1$=3d", "1 d i32 width 3 slot 1 column\n" + last(1, 0)), ("%=0003s", "1 s text width 3 slot 1 column\n" + last(1, 3)), ("%=65536d", "F3 TooWide at 2"),
                         ("%=" + "0" * 4000 + "c", "F2 ZeroWidth at 2"), ("%=" + "9" * 4000 + "c", "F3 TooWide at 2"), ("%=3lc", "F5 LeftOut at 4"), ("%=hh[a]", "F6 BadLength at 4"), ("%=3hf", "F6 BadLength at 4"),
                         ("%=[z-a]", "F20 BadMark at 2"), ("%=3[z-a]", "F8 BackwardRange at 4"), ("%=!3[z-a]", "F20 BadMark at 4"), ("%=!3c", "F20 BadMark at 4"), ("%*=n", "F9 BadCount at 3"), ("%?=n", "F9 BadCount at 3"),
                         ("%=3[=]", "1 [ text width 3 slot 1 members 1 column\n" + last(1, 3)), ("%d%2$=3d", "F10 MixedNumbering at 2"), ("%1$*=3d", "F11 BadNumber at 3"),
                         ("%=" * 2048, "F4 UnknownLetter at 2"), ("%" + "=" * 4095, "F4 UnknownLetter at 2"), ("%?(%=3d%)", "1 d i32 width 3 slot 1 column group 1\n" + last(1, 0)), ("%=(%=3d%)", "F4 UnknownLetter at 2"),
                         ("%=65535s" * 32, "".join(f"{it} s text width 65535 slot {it} column\n" for it in range(1, 33)) + last(32, 2097120)), ("%*=3d" * 819, "".join(f"{it} d i32 width 3 slot - column\n" for it in range(1, 820)) + last(0, 0))]:
        yield f"{text[:20]} scans", judged("show", "scan", text, answer, "--profile", "3")


def marks():
    """Each byte where a letter is due after a `!` of profile 3, which profiles 1 and 2 don't have; and where other faults come first."""
    for code in range(256):
        word = escaped(b"%!" + bytes([code]))
        yield f"%!{chr(code)!r} scans", judged("show", "scan", word, strict_letter(chr(code)), "--profile", "3")
        yield f"%!{chr(code)!r} has no mark", judged("show", "scan", word, "F4 UnknownLetter at 1", "--profile", str(1 + code % 2))
    for text, answer in [("%*!n", "F9 BadCount at 3"), ("%?!n", "F9 BadCount at 3"), ("%!1n", "F9 BadCount at 3"), ("%!lc", "F5 LeftOut at 3"), ("%!hh[a]", "F6 BadLength at 4"),
                         ("%![z-a]", "F20 BadMark at 2"), ("%![", "F20 BadMark at 2"), ("%!0c", "F2 ZeroWidth at 2"), ("%!65536d", "F3 TooWide at 2"), ("%1$!65535c", "F20 BadMark at 9"),
                         ("%d%2$!n", "F20 BadMark at 6"), ("%!?d", "F4 UnknownLetter at 2"), ("%!*d", "F4 UnknownLetter at 2"), ("%5!d", "F4 UnknownLetter at 2"), ("%l!d", "F4 UnknownLetter at 2"),
                         ("%!" * 2048, "F4 UnknownLetter at 2"), ("%" + "!" * 4095, "F4 UnknownLetter at 2")]:
        yield f"{text[:20]} scans", judged("show", "scan", text, answer, "--profile", "3")
    yield "%*?!5d scans", judged("show", "scan", "%*?!5d", "1 d i32 width 5 slot - optional strict\n" + last(0, 0), "--profile", "3")


def first_byte(code):
    """What `sf show --profile 3` answers of a group of this byte alone."""
    if chr(code) in "\t\n\v\f\r ":
        return "F21 BadGroup at 0"
    if code == ord("%"):  # (so that the second one of `%?(%%)` is no mark)
        return "F21 BadGroup at 0"
    shown = {'"': '\\"', "\\": "\\\\"}.get(chr(code)) or (chr(code) if 32 <= code < 127 else f"\\x{code:02x}")
    return f'1 byte "{shown}" group 1\n' + last(0, 0) if code else "F14 Nul at 3"


def optional_letter(letter):
    """What `sf show --profile 3` answers of `%?` and this letter."""
    if letter == "(":
        return "F21 BadGroup at 0"
    if letter == "[":
        return "F7 OpenSet at 2"
    if letter == "n":
        return "F9 BadCount at 2"
    if letter in "=!":
        return "F1 Truncated at 3"
    if letter == "c":
        return "1 c text width 1 slot 1 optional\n" + last(1, 1)
    return strict_letter(letter).replace(" strict", " optional")


def groups():
    """Each byte as all of a group, and after the `%?` with which one begins; and what is wrong with groups."""
    three = ("--profile", "3")
    for code in range(256):
        byte = bytes([code])
        yield f"a group of {byte}", judged("show", "scan", escaped(b"%?(" + byte + b"%)"), first_byte(code), *three)
        yield f"%?{chr(code)!r} scans", judged("show", "scan", escaped(b"%?" + byte), optional_letter(chr(code)), *three)
        yield f"a group of {byte} in no such profile", judged("show", "scan", escaped(b"%?(" + byte + b"%)"), "F4 UnknownLetter at 1", "--profile", str(1 + code % 2))
    most = 'destinations 0, width sum 0\n'
    for text, answer in [("%)", "F21 BadGroup at 0"), ("%?(", "F21 BadGroup at 0"), ("%?(%)", "F21 BadGroup at 0"), ("a%)", "F21 BadGroup at 1"), ("%?(a%)%)", "F21 BadGroup at 6"), ("%?(a%?(b%)%)", "F21 BadGroup at 4"),
                         ("%?(%?(a%)%)", "F21 BadGroup at 3"), ("%?(%?(", "F21 BadGroup at 3"), ("%?(%n%)", "F21 BadGroup at 0"), ("%?(%?d%)", "F21 BadGroup at 0"), ("%?(%?n%)", "F9 BadCount at 5"), ("%?(%*?d", "F21 BadGroup at 0"),
                         ("%?(%?d%q", "F21 BadGroup at 0"), ("%?(%q%?d", "F4 UnknownLetter at 4"), ("%?( %q", "F21 BadGroup at 0"), ("%?(a%q", "F4 UnknownLetter at 5"), ("%?(a%", "F1 Truncated at 5"), ("%?", "F1 Truncated at 2"),
                         ("%?(%?[z-a]%)", "F8 BackwardRange at 6"), ("%?(%?=d%)", "F20 BadMark at 6"), ("%?(%[%)", "F7 OpenSet at 4"), ("%?(%[%)]%)", "1 [ text width - slot 1 members 2 group 1\n" + last(1, "-")),
                         ("%*?(a%)", "F4 UnknownLetter at 3"), ("%?=(a%)", "F4 UnknownLetter at 3"), ("%?!(a%)", "F4 UnknownLetter at 3"), ("%?5(a%)", "F4 UnknownLetter at 3"), ("%1$?(a%)", "F4 UnknownLetter at 4"), ("%?l(", "F4 UnknownLetter at 3"),
                         ("%*)", "F4 UnknownLetter at 2"), ("%?)", "F4 UnknownLetter at 2"), ("%5)", "F4 UnknownLetter at 2"), ("%(", "F4 UnknownLetter at 1"), ("%33$?(", "F11 BadNumber at 1"), ("%?0(", "F2 ZeroWidth at 2"),
                         ("%2$d%?(a", "F21 BadGroup at 4"), ("%1$d%?(,%1$d%)", "F12 NumberTwice at 8"), ("%1$d%?(,%d%)", "F10 MixedNumbering at 8"), ("%1$d%?(%?d%)", "F10 MixedNumbering at 7"), ("%d" * 32 + "%?(%?d%)", "F16 TooManyDestinations at 67"),
                         ("%d" * 32 + "%?(%*?d%)", "F21 BadGroup at 64"), ("%?(" + "%d" * 32 + "%)", "".join(f"{it} d i32 width - slot {it} group 1\n" for it in range(1, 33)) + last(32, 0)),
                         ("%?(a%)" * 682, "".join(f'{it} byte "a" group {it}\n' for it in range(1, 683)) + most), ("%?(" + "a" * 4091 + "%)", "".join(f'{it} byte "a" group 1\n' for it in range(1, 4092)) + most),
                         ("%?(" + "a" * 4093, "F21 BadGroup at 0"), ("%?(" + "a" * 4092 + "%)", "F15 FormatTooLong at 4096"), ("a" * 4093 + "%?(", "F21 BadGroup at 4093"), ("a" * 4094 + "%)", "F21 BadGroup at 4094"),
                         ("a" * 4095 + "%?(", "F15 FormatTooLong at 4096"), ("%?(" * 1365, "F21 BadGroup at 3"), ("%)" * 2048, "F21 BadGroup at 0"), ("%?(%%" * 800, "F21 BadGroup at 5"), ("%" + "?" * 4095, "F4 UnknownLetter at 2"),
                         ("%?(%)" * 800, "F21 BadGroup at 0"), ("%?(%%%)%%%)", "F21 BadGroup at 9"), ("%%?(", "".join(f"{at} {it}\n" for at, it in enumerate(("percent", 'byte "?"', 'byte "("'), 1)) + most)]:
        yield f"{text[:20]} scans", judged("show", "scan", text, answer, *three)


def told(text, answer):
    return f"{text if len(text) < 40 else text[:30] + '..' + str(len(text))} scans", judged("show", "scan", text, answer)


def printed(text, answer, *values):
    return f"{text if len(text) < 40 else text[:30] + '..' + str(len(text))} prints", judged("print", "print", text, answer, *values)


# Numbers that have no end, or that wrap to good ones in 8, 16, 32 and 64 bits.
WRAPPING = [2**8 + 1, 2**16 + 1, 2**32 + 1, 2**64 + 1, 2**128 + 1]


def numbers():
    yield told("%99999999999999999999$d", "F11 BadNumber at 1")
    yield told("%" + "9" * 4000 + "$d", "F11 BadNumber at 1")
    yield told("%" + "0" * 4000 + "$d", "F11 BadNumber at 1")
    yield told("%" + "0" * 4000 + "1$d", directive("d") + last(1, 0))
    yield told("%" + "0" * 4000 + "7c", "1 c text width 7 slot 1\n" + last(1, 7))
    yield told("%" + "9" * 4000 + "c", "F3 TooWide at 1")
    yield told("%" + "0" * 4000 + "c", "F2 ZeroWidth at 1")
    yield told("%65535c", "1 c text width 65535 slot 1\n" + last(1, 65535))
    yield told("%65535d", directive("d", width=65535) + last(1, 0))
    yield told("%*65535s", directive("s", width=65535, slot="-") + last(0, 0))
    yield told("%65536c", "F3 TooWide at 1")
    for number in [0, 33, *WRAPPING]:
        yield told(f"%{number}$d", "F11 BadNumber at 1")
        yield printed(f"%{number}$d", "F11 BadNumber at 1", "1")
    for number in [65536, 2**16 + 1, 2**31, 2**32 + 1, 2**63, 2**64 + 1, 2**128 + 1]:
        yield told(f"%{number}d", "F3 TooWide at 1")
        yield told(f"%*{number}[a]", "F3 TooWide at 2")
        yield told(f"%1${number}d", "F3 TooWide at 3")
        yield printed(f"%{number}d", "F3 TooWide at 1", "1")
        yield printed(f"%-{number}.{number}d", "F3 TooWide at 2", "1")
    for number in [256, *WRAPPING]:
        yield printed(f"%.{number}d", "F18 PrecisionTooLarge at 2", "1")
    yield printed("%." + "9" * 4000 + "d", "F18 PrecisionTooLarge at 2", "1")
    yield printed("%." + "0" * 4000 + "3d", "007", "7")
    yield printed("%.255d", "0" * 254 + "7", "7")
    yield printed("%65535d", " " * 65534 + "7", "7")
    yield printed("%-65535d", "7" + " " * 65534, "7")
    yield printed("%065535d", "-" + "0" * 65533 + "7", "--", "-7")
    yield printed("%" + "0" * 4000 + "d", "7", "7")
    yield printed("%" + "-+ #0" * 800 + "s", "F17 BadFlag at 2", "7")
    yield printed("%" + "- +" * 1300 + "d", "+7", "7")
    # (of these, only '-' is a flag of 's')
    yield printed("%" + "-" * 4000 + "3s|", "a  |", "a")


def lengths():
    """Formats of 4096 bytes, of more, and of as much as a word can have."""
    yield told("a" * 4096, "".join(f'{it} byte "a"\n' for it in range(1, 4097)) + last(0, 0))
    yield told(" " * 4096, "1 space\n" + last(0, 0))
    yield told("a" * 4094 + "%d", "".join(f'{it} byte "a"\n' for it in range(1, 4095))
               + "4095 d i32 width - slot 1\n" + last(1, 0))
    yield told("a" * 4093 + "%zq", "F4 UnknownLetter at 4095")
    yield told("a" * 4095 + "%", "F1 Truncated at 4096")
    yield told("%" * 4096, "".join(f"{it} percent\n" for it in range(1, 2049)) + last(0, 0))
    yield told("%" * 4095, "F1 Truncated at 4095")
    yield told("\\x00" * 4096, "F14 Nul at 0")
    yield told("\\x25" * 4096, "".join(f"{it} percent\n" for it in range(1, 2049)) + last(0, 0))
    for size in (4097, 65536 + 3, 131071):
        for byte in "a%[ ":
            yield told(byte * size, "F15 FormatTooLong at 4096")
        yield printed("%" * size, "F15 FormatTooLong at 4096", "7")
    yield told("\\x00" * 4097, "F15 FormatTooLong at 4096")
    yield printed("b" * 4096, "b" * 4096)
    yield printed("%" * 4096, "%" * 2048)
    yield told("", last(0, 0))
    yield printed("", "")


def many():
    """As many directives as a format can have."""
    yield told("%d" * 32, "".join(f"{it} d i32 width - slot {it}\n" for it in range(1, 33)) + last(32, 0))
    yield told("%d" * 33, "F16 TooManyDestinations at 64")
    yield told("%n" * 2048, "F16 TooManyDestinations at 64")
    yield told("%65535s" * 32, "".join(f"{it} s text width 65535 slot {it}\n" for it in range(1, 33)) + last(32, 2097120))
    yield told("%*d" * 1365, "".join(f"{it} d i32 width - slot -\n" for it in range(1, 1366)) + last(0, 0))
    yield told("%*[a]" * 819, "".join(f"{it} [ text width - slot - members 1\n" for it in range(1, 820)) + last(0, 0))
    yield told("".join(f"%{it}$d" for it in range(32, 0, -1)),
               "".join(f"{33 - it} d i32 width - slot {it}\n" for it in range(32, 0, -1)) + last(32, 0))
    yield told("".join(f"%{it}$d" for it in range(33, 0, -1)), "F11 BadNumber at 1")
    yield told("%1$d" * 1024, "F12 NumberTwice at 4")
    yield told("%32$d", "F13 NumberGap at 0")
    yield told("%*d%1$d%*d%d", "F10 MixedNumbering at 10")
    yield printed("%d" * 33, "F16 TooManyDestinations at 64", *"1" * 33)
    yield printed("%d" * 32, "1" * 32, *"1" * 32)
    yield printed("%65535d" * 32, (" " * 65534 + "7") * 32, *"7" * 32)
    yield printed("".join(f"%{it}$d," for it in range(32, 0, -1)),
                  "".join(f"{it}," for it in range(32, 0, -1)), *map(str, range(1, 33)))


def escapes():
    """Escapes are judged before the format, by the place of the backslash in the word."""
    for text, at in [("\\", 0), ("\\q", 0), ("\\x", 0), ("\\x0", 0), ("\\x0g", 0), ("\\xG0", 0), ("\\X00", 0), ("\\0", 0),
                     ("\\\\\\", 2), ("a" * 5000 + "\\q", 5000), ("%q\\z", 2), ("a" * 130000 + "\\", 130000), ("\\é", 0)]:
        for verb, kind in (("show", "scan"), ("print", "print")):
            yield f"{kind} {text[:20]!r} {at}", answers(verb, text, err=f"{kind} format: bad escape at {at}", status=2)
    yield told("\\\\" * 4096, "".join(f'{it} byte "\\\\"\n' for it in range(1, 4097)) + last(0, 0))


def checks():
    for group in (letters, marks, columns, groups, numbers, lengths, many, escapes):
        yield from group()
