#!/usr/bin/env python3
"""Puts measured times into docs/performance.tsv, the counts of each crate into docs/PERFORMANCE.md, and draws docs/performance.svg: each
workload's ratio on a logarithmic scale, by crate.

    bench/page.py [THEIRS OURS]     # two files of lines `name ns`, as bench.sh leaves them; without them only counts and picture are regenerated
    bench/page.py COUNTS            # a file of lines `name theirs ours`, as instructions.py prints them
    bench/page.py --second THEIRS OURS    # the times of the second toolchain, of which the table has the ratios

A workload that was measured or counted replaces its row; a new one gets the crate of the workload measured before it, and must have one. A workload whose time is a difference of
less than a quarter of a cycle is left out.
"""
import math
import pathlib
import sys

from table import least

DOCS = pathlib.Path(__file__).resolve().parent.parent / "docs"
COUNTS = ["theirs, instructions", "ours, instructions", "ratio of instructions"]
SECOND = 8
LEFT, WIDTH, HEIGHT, LOW, HIGH = 330, 600, 11, -5, 3  # the ratios from 1/32 to 8


def with_times(rows, theirs, ours):
    """Returns the rows of the table with the times of both sides. A row is a workload, its crate, two times and a ratio, and the same of instructions."""
    made, crate = {it[0]: it for it in rows}, rows[0][1]
    order = [it[0] for it in rows]
    for before, name in zip([None, *ours], ours):
        if name not in made and before is None:
            sys.exit(f"{name} is new: measure the workload before it too, which tells its crate")
        crate = made[name][1] if name in made else crate
        if min(ours[name], theirs[name]) < 0.1:
            made.pop(name, None)
            continue
        if name not in order:
            order.insert(order.index(before) + 1 if before in order else len(order), name)
        made[name] = [name, crate, f"{theirs[name]:.4g}", f"{ours[name]:.4g}", f"{ours[name] / theirs[name]:.2f}"] + (made[name][5:] if name in made else [])
    return [made[it] for it in order if it in made]


def with_counts(rows, path):
    """Returns the rows of the table with the instructions of both sides."""
    with open(path, encoding="utf-8") as lines:
        counts = {name: (float(theirs), float(ours)) for name, theirs, ours in map(str.split, lines)}
    made = []
    for row in rows:
        if row[0] not in counts:
            made.append(row)
            continue
        theirs, ours = counts[row[0]]
        # More than twenty in a nanosecond is none of the operation: what came before it, or memory filled by one instruction that is counted for each byte.
        is_count = min(theirs, ours) > 0 and theirs <= 20 * float(row[2]) and ours <= 20 * float(row[3])
        new = [f"{theirs:.4g}", f"{ours:.4g}", f"{ours / theirs:.2f}"] if is_count else ["", "", ""]
        made.append(row[:5] + new + row[SECOND:])
    return made


def with_second(rows, theirs, ours):
    """Returns the rows of the table with the ratios of another toolchain's times."""
    return [row[:SECOND] + [f"{ours[row[0]] / theirs[row[0]]:.2f}"] for row in rows]


def ratios(rows, column=4):
    """Returns the ratios of each crate's workloads."""
    found = {}
    for row in rows:
        found.setdefault(row[1], []).append((row[0], float(row[column])))
    return found


def mean(values):
    return math.exp(sum(math.log(max(it, 0.005)) for it in values) / len(values))


def with_summary(lines, found, second):
    """Returns the page's lines with the counts and means of each crate, by both toolchains."""
    made = {}
    for crate in (*found, "all"):
        values, others = ([ratio for of, rows in them.items() if crate in (of, "all") for _, ratio in rows] for them in (found, second))
        counts = f"{len(values)} | {mean(values):.2f} | {sum(it > 1 for it in values)} | {min(values):.2f} | {max(values):.2f}"
        made[f"| {crate} "] = f"| {crate} | {counts} | {mean(others):.2f} | {sum(it > 1 for it in others)} |"
    return [next((row for head, row in made.items() if line.startswith(head)), line) for line in lines]


def picture(found):
    """Returns the picture of the ratios as SVG."""
    def x(ratio):
        return LEFT + WIDTH * (min(max(math.log2(max(ratio, 0.001)), LOW), HIGH) - LOW) / (HIGH - LOW)

    parts, y = [], 30
    for crate, rows in found.items():
        parts.append(f'<text x="6" y="{y + 8}" font-weight="bold">{crate}</text>')
        y += HEIGHT + 4
        for name, ratio in rows:
            colour = "#2b7a3d" if ratio <= 1 else "#b3261e"
            parts.append(f'<text x="16" y="{y + 8}">{name}</text><line x1="{x(1):.1f}" x2="{x(ratio):.1f}" y1="{y + 5}" y2="{y + 5}" stroke="{colour}"/>')
            parts.append(f'<circle cx="{x(ratio):.1f}" cy="{y + 5}" r="3" fill="{colour}"/><text x="{LEFT + WIDTH + 12}" y="{y + 8}">{ratio:.2f}</text>')
            y += HEIGHT
        y += 6
    for power in range(LOW, HIGH + 1):
        at, label = x(2**power), f"{2**power}" if power >= 0 else f"1/{2**-power}"
        stroke = "#000" if power == 0 else "#ccc"
        parts.insert(0, f'<line x1="{at:.1f}" x2="{at:.1f}" y1="20" y2="{y}" stroke="{stroke}"/><text x="{at:.1f}" y="14" text-anchor="middle">{label}</text>')
    size = f'width="{LEFT + WIDTH + 60}" height="{y + 10}"'
    head = f'<svg xmlns="http://www.w3.org/2000/svg" {size} font-family="sans-serif" font-size="9"><rect width="100%" height="100%" fill="#fff"/>'
    return "\n".join([head, *parts, "</svg>", ""])


def main():
    page, table = DOCS / "PERFORMANCE.md", DOCS / "performance.tsv"
    head, *rows = [it.split("\t") for it in table.read_text(encoding="utf-8").splitlines()]
    if len(sys.argv) == 3:
        rows = with_times(rows, least(sys.argv[1]), least(sys.argv[2]))
    elif len(sys.argv) == 2:
        head, rows = head[:5] + COUNTS + head[SECOND:], with_counts(rows, sys.argv[1])
    elif len(sys.argv) == 4:
        head, rows = head[:SECOND] + ["ratio, second toolchain"], with_second(rows, least(sys.argv[2]), least(sys.argv[3]))
    if len(sys.argv) > 1:
        table.write_text("".join("\t".join(it) + "\n" for it in [head, *rows]), encoding="utf-8")
    found = ratios(rows)
    lines = page.read_text(encoding="utf-8").split("\n")
    page.write_text("\n".join(with_summary(lines, found, ratios(rows, SECOND))), encoding="utf-8")
    (DOCS / "performance.svg").write_text(picture(found), encoding="utf-8")


if __name__ == "__main__":
    main()
