#!/usr/bin/env python3
"""Makes pairs of a pattern and a text for the engine, with the matches that Python's `re` finds.

    compare/pairs.py COUNT SEED PAIRS MATCHES     # writes a line for each pair to the file PAIRS, and its matches to MATCHES
    compare/pairs.py COUNT SEED                   # writes them as the stored run crates/rsc_calls/runs/pairs.txt has them
    compare/pairs.py --groups COUNT SEED ..       # only pairs with a match, a group and a choice, in longer texts, as in runs/groups.txt

A line of PAIRS is what `rsc_calls calls` reads: the pattern as the builder's calls, a tab, the digits of the text. Its matches are the starts and
ends of all groups of each match, `- -` for a group that takes no part, or `no match`.

Python's own iteration gives an empty match where the last one ended too, so this one searches again a byte later, as the original does. What is
repeated can't be empty, since there the two differ on purpose: the original's `(?:x|)*` is `(?:(?:x|)+)?`.
"""
import random
import re
import sys

LOOKS = {
    "Start": rb"\A",
    "End": rb"\Z",
    "StartLF": rb"(?m:^)",
    "EndLF": rb"(?m:$)",
    "WordAscii": rb"\b",
    "WordAsciiNegate": rb"\B",
    "WordStartAscii": rb"\b(?=\w)",
    "WordEndAscii": rb"\b(?<=\w)",
    "WordStartHalfAscii": rb"(?<!\w)",
    "WordEndHalfAscii": rb"(?!\w)",
}
CLASSES = {"61-62": rb"[ab]", "61-7a": rb"[a-z]", "61-61,0a-0a": rb"[a\n]", "00-60,62-ff": rb"[^a]", "30-39,41-5a,5f-5f,61-7a": rb"\w"}
LITERALS = [b"a", b"b", b"ab", b"ba", b"aa", b"\n", b" ", "é".encode()]
REPEATS = ["*", "+", "?", "{2,3}", "{0,2}", "{2,}", "{1,1}"]


def pattern(numbers, depth):
    """Returns a pattern's calls, its text for Python, and whether it may match no byte."""
    kind = numbers.choice(["literal", "class", "look"] if depth == 0 else ["literal", "class", "look", "then", "then", "either", "group", "repeat", "repeat"])
    if kind == "literal":
        bytes_ = numbers.choice(LITERALS)
        return ["l" + bytes_.hex()], re.escape(bytes_), False
    if kind == "class":
        ranges, text = numbers.choice(list(CLASSES.items()))
        return ["c" + ranges], text, False
    if kind == "look":
        look, text = numbers.choice(list(LOOKS.items()))
        return ["a" + look], text, True
    calls, text, is_empty = pattern(numbers, depth - 1)
    if kind == "group":
        return ["(", *calls, ")"], rb"(" + text + rb")", is_empty
    if kind == "repeat":
        repeat, lazy = numbers.choice(REPEATS), numbers.choice(["", "", "?"])
        if is_empty and repeat != "?":
            return calls, text, is_empty
        is_empty = is_empty or repeat in ("*", "?", "{0,2}")
        return [*calls, repeat + lazy], rb"(?:" + text + rb")" + (repeat + lazy).encode(), is_empty
    other_calls, other_text, is_other_empty = pattern(numbers, depth - 1)
    if kind == "then":
        return [*calls, *other_calls, ","], text + other_text if b"|" not in text + other_text else rb"(?:%b)(?:%b)" % (text, other_text), is_empty and is_other_empty
    return [*calls, *other_calls, "|"], rb"(?:%b|%b)" % (text, other_text), is_empty or is_other_empty


def matches(compiled, text):
    """Yields all matches by the original's rule on empty ones."""
    start, last = 0, None
    while start <= len(text):
        found = compiled.search(text, start)
        if not found:
            return
        if found.end() == found.start() == last:
            start = found.end() + 1
            continue
        yield found
        start = last = found.end()


def spans(found):
    groups = range(found.re.groups + 1)
    return "".join(" ".join("-" if it < 0 else str(it) for it in found.span(group)) + " " for group in groups) + ";"


def pair(numbers, has_groups):
    """Returns a line that asks for the matches of a pattern in a text, and Python's answer."""
    while True:
        calls, source, _ = pattern(numbers, numbers.randint(3, 6) if has_groups else numbers.randint(1, 4))
        # Python's \B holds nowhere in the empty text, so no text is empty.
        length = numbers.randint(1, 24 if has_groups else 8)
        text = b"".join(numbers.choice([b"a", b"b", b"a", b"b", b"\n", b" ", "é".encode()]) for _ in range(length))
        found = "".join(map(spans, matches(re.compile(source), text)))
        is_choice = any(it == "|" or it[0] in "*+?{" and it[:5] != "{1,1}" for it in calls)
        if not has_groups or found and "(" in calls and is_choice and len(calls) <= 24:
            return f"{' '.join(calls)}\t{text.hex()}", found or "no match"


def main():
    has_groups = sys.argv[1] == "--groups"
    given = sys.argv[1 + has_groups :]
    count, numbers = int(given[0]), random.Random(int(given[1]))
    pairs = [pair(numbers, has_groups) for _ in range(count)]
    if len(given) == 2:
        print(f"# What compare/pairs.py{' --groups' * has_groups} writes: the answers are those of Python's `re`.", "$ rsc_calls calls", sep="\n")
        print(*(f"@ input {asked}\\n" for asked, _ in pairs), *(answer for _, answer in pairs), sep="\n")
        return
    for path, lines in zip(given[2:], zip(*pairs)):
        with open(path, "w", encoding="utf-8") as file:
            print(*lines, sep="\n", file=file)


if __name__ == "__main__":
    main()
