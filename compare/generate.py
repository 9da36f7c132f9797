#!/usr/bin/env python3
"""Makes commands of the line protocol, one a line.

    generate.py SEED COUNT           random commands over every call, the same ones for the same seed
    generate.py --exhaustive MODE    all commands of a mode
    generate.py --modes              the names of the modes

A command whose answer the port states otherwise than the original gives it is made in its `_port` form and in no other.
Conditions of the caller are kept, and nothing past ASCII decides an answer but the characters of chars.txt.
"""
import random
import sys

sys.dont_write_bytecode = True
from generator.exhaustive import MODES  # noqa: E402
from generator.families import FAMILIES  # noqa: E402


def random_commands(seed, count):
    draw = random.Random(seed)
    weights, families = zip(*FAMILIES)
    for _ in range(count):
        yield draw.choices(families, weights)[0](draw)


def main():
    args = sys.argv[1:]
    if args == ["--modes"]:
        lines = MODES
    elif len(args) == 2 and args[0] == "--exhaustive" and args[1] in MODES:
        lines = MODES[args[1]]()
    elif len(args) == 2 and all(arg.isdigit() for arg in args):
        lines = random_commands(int(args[0]), int(args[1]))
    else:
        sys.exit(__doc__)
    try:
        for line in lines:
            print(line)
    except BrokenPipeError:
        sys.stderr.close()


if __name__ == "__main__":
    main()
