#!/usr/bin/env python3
"""Times Python's re on the patterns of rsc_engine_bench: the matches of each, and the microseconds of processor time.

    bench/engine_python.py FILE
"""
import re
import sys
import time

PATTERNS = {
    "capitals": rb"[A-Z][a-z]*",
    "words": rb"\b[A-Z][a-z]*\b",
    "lines": rb"(?m)^(\w+)?.*$",
    "pairs": rb"(\w+)=(\w+)",
    "several": rb"([A-Z][a-z]*)|(\w+)=(\w+)|([0-9]+)",
    "none": rb"[a-z]+[0-9]x[0-9]",
    "digits": rb"[a-z]+[0-9]",
}


def main():
    with open(sys.argv[1], "rb") as file:
        text = file.read()
    for name, pattern in PATTERNS.items():
        compiled = re.compile(pattern)
        before, count = time.process_time(), 0
        for found in compiled.finditer(text):
            found.regs
            count += 1
        print(name, count, int((time.process_time() - before) * 1e6))


main()
