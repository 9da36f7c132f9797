#!/usr/bin/env bash
# Measures the port beside the original.
#   bench/bench.sh SOURCES [ROUNDS] [FILTER] [LAYOUTS]
# SOURCES is a folder of the original's sources, as bench/build.sh says. Builds both sides, each in LAYOUTS (4) orders of its functions,
# checks that both compute the same sums, and runs them one after the other, ROUNDS times (2), each workload whose name has FILTER in
# it (all). Prints a line for each: its name, the least nanoseconds of an operation of the original and of the port, and their ratio;
# last the geometric mean of the ratios. BENCH_OUT names the folder for what is built, else one below the folder for temporary files
# is used.
set -euo pipefail
here=$(cd "$(dirname "${BASH_SOURCE[0]}")" && pwd)
if [ $# -lt 1 ]; then
    echo "usage: bench/bench.sh SOURCES [ROUNDS] [FILTER] [LAYOUTS]" >&2
    exit 2
fi
rounds=${2:-2}
filter=${3:-}
layouts=${4:-4}
out=${BENCH_OUT:-${TMPDIR:-/tmp}/chromelizard-bench}
"$here/build.sh" "$1" "$out" "$layouts"

for side in theirs ours; do
    "$out/${side}_1" sums "$filter" > "$out/$side.sums"
    : > "$out/$side.times"
done
if ! diff "$out/theirs.sums" "$out/ours.sums"; then
    echo "bench: the sums above differ" >&2
    exit 1
fi
echo "# the sums of $(wc -l < "$out/ours.sums") workloads agree; $layouts layouts, $rounds rounds" >&2
for _ in $(seq "$rounds"); do
    for layout in $(seq "$layouts"); do
        for side in theirs ours; do
            "$out/${side}_$layout" time "$filter" >> "$out/$side.times"
        done
    done
done
python3 "$here/table.py" "$out/theirs.times" "$out/ours.times"
