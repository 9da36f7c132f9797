#!/usr/bin/env python3
"""Makes pairs of a pattern and a text for the engine, with the matches that its rule gives, also where a part that may be empty is repeated.

    compare/ways.py COUNT SEED PAIRS MATCHES     # as compare/pairs.py writes them
    compare/ways.py COUNT SEED                   # as the stored run crates/rsc_calls/runs/ways.txt has them

The rule goes by the pattern alone: its ways are tried in order, and none makes a choice twice at one position. A choice is an alternative, a copy of a
counted part that may be left out, the entering of a loop over what may be empty, or another round of a loop. Python's `re`, which compare/pairs.py asks,
has another rule for such loops; here it only says where a literal, a class or an assertion holds.
"""
import itertools
import random
import re
import sys

from pairs import CLASSES, LOOKS

LEAVES = ["literal", "literal", "class", "look", "empty", "never"]
KINDS = ["literal", "class", "look", "empty", "then", "then", "then", "either", "either", "group", "group", "repeat", "repeat", "repeat"]
LITERALS = [b"", b"a", b"a", b"b", b"ab", b"c"]
REPEATS = {"*": (0, None), "+": (1, None), "?": (0, 1), "{2,3}": (2, 3), "{0,2}": (0, 2), "{2,}": (2, None), "{3,1}": (3, 1), "{0,0}": (0, 0)}
BYTES = b"aaabbbc\n "
MOST_CALLS, MOST_STEPS = 24, 20_000
EMPTY = ("leaf", re.compile(b""))


class TooLong(Exception):
    """A walk takes too many steps for a stored pair."""


def optional(part, is_greedy):
    return ("either", part, EMPTY) if is_greedy else ("either", EMPTY, part)


def repeated(part, may_be_empty, least, most, is_greedy):
    """Returns a part with copies for its counts. A loop that is left has its choice before each round (`star`), or after each (`plus`)."""
    whole = EMPTY
    if most is not None:
        for _ in range(least, most):
            whole = optional(("then", part, whole), is_greedy)
    elif least > 0:
        whole, least = ("plus", part, is_greedy), least - 1
    else:
        whole = optional(("plus", part, is_greedy), is_greedy) if may_be_empty else ("star", part, is_greedy)
    for _ in range(least):
        whole = ("then", part, whole)
    return whole


def made(numbers, depth, groups):
    """Returns a part's calls, the part, and whether it may match no byte. `groups` numbers groups as they open."""
    kind = numbers.choice(KINDS if depth else LEAVES)
    if kind == "literal":
        text = numbers.choice(LITERALS)
        return ["l" + text.hex()], ("leaf", re.compile(re.escape(text))), not text
    if kind == "class":
        ranges, text = numbers.choice(list(CLASSES.items()))
        return ["c" + ranges], ("leaf", re.compile(text)), False
    if kind == "look":
        look = numbers.choice(list(LOOKS))
        # Python's \B holds nowhere in the empty text.
        text = rb"(?!\b)" if look == "WordAsciiNegate" else LOOKS[look]
        return ["a" + look], ("leaf", re.compile(text)), True
    if kind == "empty":
        return ["e"], EMPTY, True
    if kind == "never":
        return ["n"], ("leaf", re.compile(rb"(?!)")), False
    number = next(groups) if kind == "group" else None
    calls, part, is_empty = made(numbers, depth - 1, groups)
    if kind == "group":
        return ["(", *calls, ")"], ("group", part, number), is_empty
    if kind == "repeat":
        repeat, lazy = numbers.choice(list(REPEATS)), numbers.choice(["", "", "?"])
        least, most = REPEATS[repeat]
        return [*calls, repeat + lazy], repeated(part, is_empty, least, most, not lazy), is_empty or least == 0
    other_calls, other, is_other_empty = made(numbers, depth - 1, groups)
    if kind == "then":
        return [*calls, *other_calls, ","], ("then", part, other), is_empty and is_other_empty
    return [*calls, *other_calls, "|"], ("either", part, other), is_empty or is_other_empty


def ways(part, where, stand, text, steps):
    """Yields where the ways of a part lead, in order, with what they record. `stand` is a position, the slots, and the choices made there, each by where
    it stands in the pattern."""
    if next(steps) > MOST_STEPS:
        raise TooLong
    kind, one, *other = part
    at, slots, choices = stand
    if kind == "leaf":
        found = one.match(text, at)
        if found:
            yield found.end(), slots, choices if found.end() == at else frozenset()
    elif kind == "then":
        for middle in ways(one, (*where, 0), stand, text, steps):
            yield from ways(other[0], (*where, 1), middle, text, steps)
    elif kind == "group":
        slot = 2 * other[0]
        for end, inner, choices in ways(one, (*where, 0), (at, {**slots, slot: at}, choices), text, steps):
            yield end, {**inner, slot + 1: end}, choices
    elif kind == "plus":
        for after in ways(one, (*where, 0), stand, text, steps):
            yield from ways(("star", one, *other), where, after, text, steps)
    elif where not in choices:
        chosen = at, slots, choices | {where}
        if kind == "either":
            yield from ways(one, (*where, 0), chosen, text, steps)
            yield from ways(other[0], (*where, 1), chosen, text, steps)
        else:
            if not other[0]:
                yield chosen
            for after in ways(one, (*where, 0), chosen, text, steps):
                yield from ways(part, where, after, text, steps)
            if other[0]:
                yield chosen


def matches(part, text):
    """Yields the slots of all matches, by the original's rule on empty ones."""
    start, last, steps = 0, None, itertools.count()
    while start <= len(text):
        whole = ("group", part, 0)
        found = next((it for at in range(start, len(text) + 1) for it in ways(whole, (), (at, {}, frozenset()), text, steps)), None)
        if not found:
            return
        end, slots, _ = found
        if end == slots[0] == last:
            start = end + 1
            continue
        yield slots
        start = last = end


def pair(numbers):
    """Returns a line that asks for the matches of a pattern in a text, and the rule's answer."""
    while True:
        groups = itertools.count(1)
        calls, part, _ = made(numbers, numbers.randint(2, 6), groups)
        slots = range(2 * next(groups))
        text = bytes(numbers.choices(BYTES, k=numbers.randint(0, 8)))
        if len(calls) > MOST_CALLS or not any(it[0] in "*+?{|" for it in calls):
            continue
        try:
            found = "".join("".join(f"{its.get(slot, '-')} " for slot in slots) + ";" for its in matches(part, text))
        except (TooLong, RecursionError):
            continue
        return f"{' '.join(calls)}\t{text.hex()}", found or "no match"


def main():
    count, numbers = int(sys.argv[1]), random.Random(int(sys.argv[2]))
    pairs = [pair(numbers) for _ in range(count)]
    if len(sys.argv) == 3:
        print("# What compare/ways.py writes: the answers are those of the engine's rule, by the pattern alone.", "$ rsc_calls calls", sep="\n")
        print(*(f"@ input {asked}\\n" for asked, _ in pairs), *(answer for _, answer in pairs), sep="\n")
        return
    for path, lines in zip(sys.argv[3:], zip(*pairs)):
        with open(path, "w", encoding="utf-8") as file:
            print(*lines, sep="\n", file=file)


if __name__ == "__main__":
    main()
