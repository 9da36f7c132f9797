#!/usr/bin/env python3
"""Writes a fixed list of commands and the original's answers.

    store.py ORIGINAL COMMANDS ANSWERS

The commands are those of worked.txt and the first random ones of each name; both files are written.
"""
import sys
from collections import Counter

sys.dont_write_bytecode = True
from compare import BAD, answers_of, worked_rows  # noqa: E402
from generate import random_commands  # noqa: E402

SEED = 1
# Random commands that are looked through, of which the first of each name are taken.
LOOKED_THROUGH = 100_000
OF_EACH_NAME = 31
# Of the names whose answers are whole class maps.
OF_EACH_MAP = 12
MAPS = {"classes_of", "classset", "map_debug", "map_get", "ranges"}


def chosen_commands():
    taken = Counter()
    for command in random_commands(SEED, LOOKED_THROUGH):
        name = command.partition(" ")[0]
        if taken[name] < (OF_EACH_MAP if name in MAPS else OF_EACH_NAME):
            taken[name] += 1
            yield command


def check_worked(rows, answers):
    for (command, want), answer in zip(rows, answers):
        if want != answer:
            sys.exit(f"differs: {command}\n  worked: {want}\n  original: {answer}")


def main():
    if len(sys.argv) != 4:
        sys.exit(__doc__)
    original, commands_path, answers_path = sys.argv[1:]
    rows = list(worked_rows())
    commands = list(dict.fromkeys([command for command, _ in rows] + list(chosen_commands())))
    answers = answers_of(original, commands)
    check_worked(rows, answers)
    if BAD in answers[len(rows):]:
        sys.exit("a random command can't be read")
    for path, lines in ((commands_path, commands), (answers_path, answers)):
        with open(path, "w", encoding="utf-8", newline="\n") as file:
            file.writelines(line + "\n" for line in lines)
    print(f"{len(commands)} commands stored")


if __name__ == "__main__":
    main()
