#!/usr/bin/env python3
"""Compares the port's answers with the original's.

    compare.py ORIGINAL PORT COUNT SEED    over worked.txt, all exhaustive modes and COUNT random commands

Both are programs that answer each line of standard input by one on standard output. Stops at the first difference.
"""
import itertools
import os
import subprocess
import sys
from concurrent.futures import ThreadPoolExecutor

sys.dont_write_bytecode = True
from generate import random_commands  # noqa: E402
from generator.exhaustive import MODES  # noqa: E402

# Commands that are held in memory at a time.
CHUNK = 50_000
BAD = "bad command"


def worked_rows():
    """The commands of worked.txt with their answers."""
    path = os.path.join(os.path.dirname(os.path.abspath(__file__)), "worked.txt")
    with open(path, encoding="utf-8") as file:
        for line in file:
            if line.strip() and not line.startswith("#"):
                command, _, answer = line.rstrip("\n").partition(" => ")
                yield command, answer


def answers_of(program, commands):
    """The answers of a program, a line for each command."""
    lines = "".join(command + "\n" for command in commands).encode()
    done = subprocess.run([program], input=lines, stdout=subprocess.PIPE, check=True)
    answers = done.stdout.decode(errors="backslashreplace").split("\n")
    if len(answers) != len(commands) + 1 or answers[-1]:
        sys.exit(f"{program}: {len(answers) - 1} answers to {len(commands)} commands")
    return answers[:-1]


def chunks(commands):
    commands = iter(commands)
    while chunk := list(itertools.islice(commands, CHUNK)):
        yield chunk


def first_difference(commands, wanted, given):
    """The first command whose answers differ, or which neither program can read, with the two answers."""
    for command, want, answer in zip(commands, wanted, given):
        if want != answer or want == BAD:
            return command, want, answer
    return None


class Comparison:
    def __init__(self, original, port):
        self.original, self.port, self.passed = original, port, 0

    def compare(self, name, commands):
        before = self.passed
        with ThreadPoolExecutor(2) as both:
            for chunk in chunks(commands):
                wanted, given = both.map(lambda program: answers_of(program, chunk), (self.original, self.port))
                self.judge(chunk, wanted, given, first_difference(chunk, wanted, given))
        print(f"{name}: {self.passed - before} alike", flush=True)

    def compare_worked(self):
        """The worked answers against both programs."""
        commands, wanted = zip(*worked_rows())
        for program in (self.original, self.port):
            for row in zip(commands, wanted, answers_of(program, commands)):
                if row[1] != row[2]:
                    self.stop(row, "worked", program)
        self.passed += len(commands)
        print(f"worked: {len(commands)} alike")

    def judge(self, commands, wanted, given, difference):
        if difference is None:
            self.passed += len(commands)
        else:
            self.passed += commands.index(difference[0])
            self.stop(difference, "original", "port")

    def stop(self, difference, first, second):
        command, want, answer = difference
        print(f"differs: {command}\n  {first}: {want}\n  {second}: {answer}\n{self.passed} passed, 1 failed")
        sys.exit(1)


def main():
    if len(sys.argv) != 5 or not all(arg.isdigit() for arg in sys.argv[3:]):
        sys.exit(__doc__)
    original, port, count, seed = sys.argv[1:]
    comparison = Comparison(original, port)
    comparison.compare_worked()
    for mode, commands in MODES.items():
        comparison.compare(mode, commands())
    comparison.compare(f"random with seed {seed}", random_commands(int(seed), int(count)))
    print(f"{comparison.passed} passed, 0 failed")


if __name__ == "__main__":
    main()
