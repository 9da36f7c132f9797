#!/usr/bin/env python3
"""Counts the instructions of one operation of each workload on both sides, by valgrind's callgrind: the same from run to run, whatever the layout.

    bench/instructions.py SOURCES [FILTER]     # SOURCES and FILTER are as for bench.sh; prints `name theirs ours` for each workload

BENCH_OUT names the folder for what is built, as for bench.sh.
"""
import os
import pathlib
import re
import subprocess
import sys
import tempfile

HERE = pathlib.Path(__file__).resolve().parent


def counts(program, name_part):
    """Returns the instructions of one operation of each workload: half the difference of three repetitions and one, divided by the operations."""
    with tempfile.TemporaryDirectory() as folder:
        dumps = f"{folder}/dumps"
        command = ["valgrind", "--tool=callgrind", "--instr-atstart=no", "--combine-dumps=yes", f"--callgrind-out-file={dumps}", program, "count", name_part]
        listed = subprocess.run(command, check=True, stdout=subprocess.PIPE, stderr=subprocess.DEVNULL, text=True).stdout
        text = "".join(it.read_text(encoding="utf-8") for it in sorted(pathlib.Path(folder).iterdir()))
    found = re.findall(r"^desc: Trigger: Client Request: (\S+) (of|less) (\d)$.*?^(?:summary|totals): (\d+)", text, flags=re.M | re.S)
    total = {(name, part, reps): int(count) for name, part, reps, count in found}

    def repetition(name, part):
        return (total.get((name, part, "3"), 0) - total.get((name, part, "1"), 0)) / 2

    return {name: (repetition(name, "of") - repetition(name, "less")) / int(ops) for name, ops in map(str.split, listed.splitlines())}


def main():
    if len(sys.argv) not in (2, 3):
        sys.exit(__doc__)
    built = os.environ.get("BENCH_OUT", f"{tempfile.gettempdir()}/chromelizard-bench")
    subprocess.run([HERE / "build.sh", sys.argv[1], built, "1"], check=True)
    theirs, ours = (counts(f"{built}/{side}_1", "".join(sys.argv[2:])) for side in ("theirs", "ours"))
    for name, count in ours.items():
        print(f"{name} {theirs[name]:.2f} {count:.2f}")


if __name__ == "__main__":
    main()
