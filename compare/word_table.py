#!/usr/bin/env python3
"""Writes the table of \\w for the original's program, from Python's unicodedata, as Rust.

\\w of UTS #18 is Alphabetic, M, Nd, Pc and the join controls. Python doesn't know Alphabetic: letters, Nl and the circled
and squared letters of category So stand in for it, which is what it comes to but for marks, which are in \\w anyway. The
table is of Python's version of Unicode, so only the characters of chars.txt may decide a comparison.
"""
import sys
import unicodedata

WORD_CATEGORIES = {"Lu", "Ll", "Lt", "Lm", "Lo", "Nl", "Nd", "Mn", "Mc", "Me", "Pc"}
# Alphabetic characters that are neither letter, letter number nor mark.
SYMBOLS = [(0x24B6, 0x24E9), (0x1F130, 0x1F149), (0x1F150, 0x1F169), (0x1F170, 0x1F189)]
JOIN_CONTROLS = {0x200C, 0x200D}


def is_word(code):
    return (
        unicodedata.category(chr(code)) in WORD_CATEGORIES
        or code in JOIN_CONTROLS
        or any(first <= code <= last for first, last in SYMBOLS)
    )


def ranges():
    start = None
    for code in range(0x110001):
        accepted = code < 0x110000 and is_word(code)
        if accepted and start is None:
            start = code
        if not accepted and start is not None:
            yield start, code - 1
            start = None


def main():
    out = sys.stdout
    out.write(f"// From Python's unicodedata, Unicode {unicodedata.unidata_version}.\n")
    out.write("pub static PERL_WORD: &[(char, char)] = &[\n")
    for first, last in ranges():
        out.write(f"    ('\\u{{{first:x}}}', '\\u{{{last:x}}}'),\n")
    out.write("];\n")


if __name__ == "__main__":
    main()
