#!/usr/bin/env python3
"""Compares what rsc_example prints with what the system's grep prints, byte by byte, and their statuses, on a made text.

    gate/beside-grep.py     # the program that `rt ci` or `rt run` left in crates/rsc_example/out

It tries lists of words with and without each of -w, -c, -o, -n and -v. The words and the text are of few letters, so that many words stand in others and
beside each other; the text has bytes of all values, empty lines, lines longer than a block, and no line feed at its end. With -w and -o the words begin with
a word byte: GNU grep doesn't see what stands before a match that begins where the last one ended, so that of `b+` it prints `b` and `+`.
"""
import itertools
import random
import subprocess
import sys
import tempfile

from edits import ROOT

LETTERS = ["a", "b", "ab", "_", "9", "-", "+"]
LISTS = [["a"], ["ab", "a", "b9"], ["zz"], 5, 20]


def words_of(numbers, wanted, firsts):
    """Returns a list of words, or as many made ones."""
    if isinstance(wanted, list):
        return wanted
    return [numbers.choice(firsts) + "".join(numbers.choices(LETTERS, k=numbers.randint(0, 3))) for _ in range(wanted)]


def text_of(numbers):
    """Returns the bytes of some lines."""
    pieces = [it.encode() for it in LETTERS] * 3 + [b" "] * 20 + [b"\n"] * 5 + [bytes([it]) for it in (0, 13, 128, 195, 255)]
    made = b"".join(numbers.choices(pieces, k=20_000)) + bytes(it for it in range(256) if it != 10) + b"\n\n\n"
    return made + b"x" * 300_000 + b" a-b ab\n" + b"".join(numbers.choices(pieces, k=2_000)) + b" ab"


def answer(command, folder):
    ran = subprocess.run(command, cwd=folder, env={"LC_ALL": "C"}, stdin=subprocess.DEVNULL, capture_output=True)
    return ran.returncode, ran.stdout, ran.stderr


def main():
    numbers = random.Random(72)
    tried, failed = 0, 0
    with tempfile.TemporaryDirectory() as folder:
        for name in ("one", "other"):
            with open(f"{folder}/{name}", "wb") as file:
                file.write(text_of(numbers))
        for wanted, letters, files in itertools.product(LISTS, itertools.product(*[("", it) for it in "wconv"]), (["one"], ["one", "other"])):
            firsts = LETTERS[:5] if "w" in letters and "o" in letters else LETTERS
            words = "\n".join(words_of(numbers, wanted, firsts))
            arguments = [*(f"-{it}" for it in letters if it), "-e", words, *files]
            own = answer([f"{ROOT}/crates/rsc_example/out/rsc_example", *arguments], folder)
            other = answer(["grep", "-a", "-F", *arguments], folder)
            tried += 1
            if own != other:
                failed += 1
                print(f"rsc_example and grep differ: {arguments}, statuses {own[0]} and {other[0]}, {len(own[1])} and {len(other[1])} bytes")
    print(f"beside-grep: {tried - failed} alike, {failed} not")
    return 1 if failed else 0


if __name__ == "__main__":
    sys.exit(main())
