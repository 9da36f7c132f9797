#!/usr/bin/env python3
"""Writes a text of made-up names for rsc_engine_bench: ten items a line, names, some with a capital, some pairs, some numbers.

    bench/engine_text.py MEGABYTES
"""
import random
import sys


def main():
    size, source = int(float(sys.argv[1]) * 1e6), random.Random(7)
    letters = "abcdefghijklmnopqrstuvwxyz"
    names = ["".join(source.choice(letters) for _ in range(source.randint(1, 9))) for _ in range(3000)]
    written = 0
    while written < size:
        line = []
        for _ in range(10):
            item, kind = source.choice(names), source.random()
            if kind < 0.1:
                item = item.capitalize()
            elif kind < 0.13:
                item += "=" + source.choice(names)
            elif kind < 0.15:
                item = str(source.randint(0, 9999))
            line.append(item)
        text = (" ".join(line) + "\n")[: size - written]
        sys.stdout.write(text)
        written += len(text)


main()
