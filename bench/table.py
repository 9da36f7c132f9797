#!/usr/bin/env python3
"""Prints the table of two files of lines `name ns`: the least of each, and their ratio.

table.py THEIRS OURS
"""
import math
import sys


def least(path):
    found = {}
    with open(path) as lines:
        for line in lines:
            name, ns = line.split()
            found[name] = min(float(ns), found.get(name, math.inf))
    return found


def main():
    theirs, ours = least(sys.argv[1]), least(sys.argv[2])
    width = max(map(len, ours), default=0)
    print(f"{'workload':{width}} {'theirs':>12} {'ours':>12} {'ratio':>7}")
    logs = []
    for name, ns in ours.items():
        # A time that is taken off another may leave nothing.
        ratio = max(ns, 0.001) / max(theirs[name], 0.001)
        logs.append(math.log(ratio))
        print(f"{name:{width}} {theirs[name]:12.3f} {ns:12.3f} {ratio:7.3f}")
    if logs:
        mean = math.exp(sum(logs) / len(logs))
        print(f"{'geometric mean':{width}} {'':12} {'':12} {mean:7.3f}")
        print(f"above 1: {sum(log > 0 for log in logs)} of {len(logs)}")


if __name__ == "__main__":
    main()
